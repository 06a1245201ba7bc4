# SPDX-License-Identifier: MIT
"""The documentation that the Rust package has of the fields of the calls' records, and of their errors: what the comment
of a field in zacpi.h has, or the line of scripts/fields.txt."""
import re
import textwrap
from lib.header import ROOT, comments
from lib.rust import rust_name



ACRONYMS = r'\b(?:aml|apic|cpu|facs|id|irq|its|msi|nmi|pci|rsdp|uid)\b'


def own_words():
    """The sentences of scripts/fields.txt, by their names."""
    lines = (ROOT / 'scripts/fields.txt').read_text().splitlines()
    return dict(line.split(' ', 1) for line in lines if not line.startswith('#'))


def sentence(field, comment):
    """A field's comment as a sentence that can be read alone."""
    words = re.sub(r'\b(enum|struct) (zacpi_\w+)', r'`\1 \2`', comment)
    if not words[0].isupper():
        name = re.sub(ACRONYMS, lambda acronym: acronym[0].upper(), field.replace('_', ' '))
        words = f'{name[0].upper()}{name[1:]}: {words}'
    return words if words.endswith('.') else words + '.'


OWN = own_words()
OF_HEADER = {rust_name(struct): {field: sentence(field, words) for field, words in fields.items()}
             for struct, fields in comments().items()}
C_NAMES = {rust_name(struct): struct.removeprefix('zacpi_') for struct in comments()}


def words_of(record, field):
    """What a record's field is, or None if nothing has it."""
    for name in (f'{C_NAMES.get(record)}.{field}', f'{record}.{field}'):
        if name in OWN:
            return OWN[name]
    return OF_HEADER.get(record, {}).get(field) or OWN.get(field)


def with_fields(text):
    """A file's text with the documentation of each public field and variant that has none."""
    lines, record, place = [], None, None
    for line in text.split('\n'):
        top = re.match(r'pub (struct|enum) (\w+)', line)
        record, place = top.group(2, 1) if top and line.endswith('{') else (None, None) if line == '}' else (record, place)
        field = re.match(r'    pub (\w+):' if place == 'struct' else r'    ([A-Z]\w*)\b', line) if record else None
        if field and not lines[-1].startswith('    ///'):
            words = words_of(record, field[1])
            if not words:
                raise SystemExit(f'scripts/fields.txt: nothing has what {record}.{field[1]} is')
            lines += [f'    /// {part}' for part in textwrap.wrap(words, 112)]
        lines.append(line)
    return '\n'.join(lines)
