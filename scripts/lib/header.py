# SPDX-License-Identifier: MIT
"""What include/zacpi.h and its part zacpi_write.h declare, for the scripts that make the rest of it: the number of the
ABI, each struct with its fields, and each call with its arguments, in the header's order."""
import re

from lib import header_items

ROOT = header_items.ROOT
LENGTH = r'\w*(?:length|capacity)\b' # what the number of a list's items is named; another number is none
text = ''.join((ROOT / 'include' / name).read_text() for name in ('zacpi.h', 'zacpi_write.h'))
text = re.sub(r'/\*.*?\*/', ' ', text, flags=re.S)
text = re.sub(r'\bZACPI_SLOT ', '', text)
abi = re.search(r'#define ZACPI_ABI (\d+)', text)[1]


def split(field):
    """The fields of a declaration, as "uint32_t x, y", each as its type and its name, an array's with its number."""
    first, *others = [' '.join(word.split()) for word in field.split(',')]
    kind, name = re.match(r'(.*?)(\w+(?:\[\d+\])?)$', first).groups()
    return [(kind.strip(), name)] + [(kind.strip(), other) for other in others]


def lists(fields):
    """Each pointer that a length or a capacity follows, by its place, with its type, its name and the number's."""
    for place, ((kind, name), (number, length)) in enumerate(zip(fields, fields[1:])):
        if kind.endswith('*') and re.match(r'size_t$|zacpi_size$', number) and re.match(LENGTH + '$', length):
            yield place, kind, name, length


structs = {name: [field for part in body.split(';') if part.strip() for field in split(part)]
           for name, body in re.findall(r'\nstruct (zacpi_\w+) \{(.*?)\n\};', text, flags=re.S)}
calls = {name: [field for part in arguments.split(',') for field in split(part)]
         for name, arguments in re.findall(r'\nZACPI_STATUS (zacpi_\w+)\(([^;]*)\);', text)}


def reached(is_there):
    """The structs of calls' arguments whose types are there, and the structs that their fields of such types are."""
    found, left = set(), [kind for fields in calls.values() for kind, _ in fields if is_there(kind)]
    while left:
        name = re.sub(r'^(?:const )?struct |[ *]+$', '', left.pop())
        if name in structs and name not in found:
            found.add(name)
            left += [kind for kind, _ in structs[name] if is_there(kind) or not kind.endswith('*')]
    return found


def returned():
    """The structs that calls write."""
    return reached(lambda kind: kind.endswith('*') and not kind.startswith('const '))


def passed():
    """The structs that callers fill, also with where the items of lists go."""
    listing = {f'struct {name} *' for name, fields in structs.items() if list(lists(fields))}
    return reached(lambda kind: not kind.endswith('*') or kind.startswith('const ') or kind in listing)


SIZES = {'uint8_t': 1, 'uint16_t': 2, 'uint32_t': 4, 'zacpi_status': 4, 'zacpi_u64': 8, 'zacpi_size': 8}


def layout(kind):
    """The size and the alignment of a type, and of a struct the offset of its last field: as the library has them,
    which is as C lays them out where pointers have 64 bits."""
    if kind.endswith('*'):
        return 8, 8, 0
    if not kind.startswith('struct '):
        return SIZES[kind], SIZES[kind], 0
    at = last = most = 0
    for of, name in structs[kind.removeprefix('struct ')]:
        size, alignment, _ = layout(of)
        count = re.search(r'\[(\d+)\]$', name)
        last = -(-at // alignment) * alignment
        at, most = last + size * int(count[1] if count else 1), max(most, alignment)
    return -(-at // most) * most, most, last


def items():
    """The structs and the calls of the library, with their comments."""
    return [item for name in ('zacpi.h', 'zacpi_write.h') for item in header_items.of_header(name)
            if item.text.startswith(('struct ', 'ZACPI_STATUS '))]


def comments():
    """What the comment of each field is that has one, by struct and field."""
    found = {}
    for item in items():
        if item.kind == 'record':
            members = [(split(field.removeprefix('ZACPI_SLOT ')), words)
                       for field, words, _ in header_items.members(item)[1]]
            found[item.name] = {re.sub(r'\[.*', '', fields[0][1]): words
                                for fields, words in members if words and len(fields) == 1}
    return found


def declared():
    """Each struct and call of the header: its section there, and of a call what its comment begins with."""
    return {item.name: (item.section, item.brief() if item.kind == 'call' else '') for item in items()}
