# SPDX-License-Identifier: MIT
"""What a page about a call for C has besides its comment: its errors in order, the records that it takes, and a caller
of it. scripts/manuals and scripts/site make pages of it."""
import re
from functools import cache

from lib import header_items

ROOT = header_items.ROOT
# Where callers are, the ones that are easiest to read first.
CALLERS = [f'examples/{name}' for name in (
    'c/first.c', 'start/kernel.c', 'c/files.c', 'c/domains.c', 'c/on_demand.c', 'c/tpm2.c', 'c/blocks.c', 'c/caches.c',
    'c/id_mapping.c', 'c/tpm_log.c', 'c/table.h', 'c/power.c', 'guest/guest.c', 'kernel/kernel.c', 'kernel/window.c',
    'uefi/app.c', 'c/lines.c', 'c/bench.c')] + [f'tests/c/{name}.c' for name in (
        'mapped', 'boots', 'sources', 'plans', 'raw', 'rows')]
MOST_LINES = 32  # of a caller; of a longer one the lines around the call are shown
# What calls a call of this name, without its prefix, in the rows of tests, which are data.
ROW = r'\b(?:GOOD|REFUSED|CALL|LIST|PART|WRITE\w*)\((?:\w+, )?{}\b'
FAILS = re.compile(r'(?:^|(?<=[.:)] ))Fails?(?:,[^.]*?,)? (?:with|as) ')


@cache
def items():
    return {item.name: item for item in header_items.every()}


def parts(item):
    """The blocks of a comment up to its errors, and those from there on: also of the call that it is like."""
    like = re.search(r'Else as (zacpi_\w+)\.$', item.words())
    if like:
        does, fails = parts(items()[like[1]])
        return item.comment + does, fails
    for place, block in enumerate(item.comment):
        found = None if block.startswith(' ') else FAILS.search(block)
        if found:
            before = [block[:found.start()].strip()] if block[:found.start()].strip() else []
            return item.comment[:place] + before, [block[found.start():]] + item.comment[place + 1:]
    return item.comment, []


@cache
def opening_errors():
    """The errors of zacpi_open, in the order of its table, and the errors of a table, in theirs."""
    of_table = ['ZACPI_MAP_FAILED'] + [name for name in header_items.statuses() if name.startswith('ZACPI_SDT_')]
    found = []
    table = next(block for block in items()['zacpi_open'].comment if block.startswith(' '))
    for name in re.findall(r'ZACPI_\w+|\.\.\.\w+', table):
        if name.startswith('...'):
            name = next(each for each in header_items.statuses() if re.match(f'{found[-1][:10]}.*{name[3:]}$', each))
        found.append(name)
    return found + of_table, of_table


def errors_of(item):
    """The errors of a call in the order in which it fails, each once: name, number and meaning."""
    known, found = header_items.statuses(), []
    words = ' '.join(parts(item)[1])
    opening, of_table = opening_errors()
    if item.name == 'zacpi_open':
        names = opening
    elif words.startswith('Fails as it does'):
        return errors_of(items()['zacpi_write_tables'])
    else:
        names = []
        for name in re.findall(r'an opening error(?:, except the errors of the root table)?|an error of a table|'
                               r'ZACPI_\w+', words):
            if name.startswith('an opening'):
                names += opening if name == 'an opening error' else opening[:-len(of_table)]
            elif name == 'an error of a table':
                names += of_table
            elif name.endswith('_'):
                names += [each for each in known if each.startswith(name)]
            else:
                names += [name] if name in known else []
    for name in names:
        if name not in found:
            found.append(name)
    return [(name, *known[name]) for name in found]


def arguments(item):
    """The arguments of a call: each its type and its name."""
    inside = re.search(r'\((.*)\)$', item.prototype())[1]
    return [] if inside == 'void' else [
        (re.sub(r'\s*$', '', found[1]), found[2]) for found in
        (re.match(r'(.*?[ *])(\w+)$', each.strip()) for each in inside.split(','))]


def declaration(item, width=78):
    """The lines of a call's declaration: pairs of a text and an argument's name after it, or none at a line's end."""
    begin = item.prototype().split(item.name + '(')[0] + item.name + '('
    lines, length = [[(begin, '')]], len(begin)
    passed = arguments(item)
    for place, (kind, name) in enumerate(passed):
        after = ');' if place + 1 == len(passed) else ', '
        text = kind + ' ' * (kind[-1] != '*')
        if length + len(text + name + after) > width:
            lines.append([('    ', '')])
            length = 4
        lines[-1] += [(text, name), (after, '')]
        length += len(text + name + after)
    if not passed:
        lines[-1].append(('void);', ''))
    return lines


def records_of(item):
    """The structs that a call writes or is passed, but for those that nearly every call has."""
    common = {'zacpi_source', 'zacpi_signature', 'zacpi_table_ids'}
    named = [record for kind, _ in arguments(item) for record in re.findall(r'struct (zacpi_\w+)', kind)]
    return [name for name in dict.fromkeys(named) if name not in common and name in items()]


@cache
def functions(path):
    """The functions of a file of C: of each the first line, from 0 on, and the one after its last."""
    lines, begin, found = path.read_text().split('\n'), None, []
    for place, line in enumerate(lines):
        if re.match(r'\w.*[^;{]*\{$|\w[^;=]*\{.*\}$', line) and '(' in line or re.match(r'\w[\w *]*\([^;]*$', line):
            begin = place if begin is None else begin
        if line == '}' or (begin == place and line.endswith('}')):
            if begin is not None:
                found.append((begin, place + 1))
            begin = None
    return lines, found


@cache
def example_of(name):
    """A caller of a call: its file, the number of its first line, and its lines; or None."""
    called = re.compile(rf'(?<![\w"]){name}\(')
    for path in (ROOT / each for each in CALLERS):
        lines, found = functions(path)
        best = None
        for place, line in enumerate(lines):
            if not called.search(line) or line.lstrip().startswith(('*', '/*', '//')):
                continue
            begin, end = next(((begin, end) for begin, end in found if begin <= place < end), (place, place + 1))
            if end - begin > MOST_LINES:
                begin, end = max(place - 7, begin), min(place + 8, end)
            if best is None or end - begin < best[1] - best[0]:
                best = begin, end
        if best:
            return str(path.relative_to(ROOT)), best[0] + 1, '\n'.join(lines[slice(*best)])
    return None


@cache
def cases_of(name):
    """Where the rows of tests have a call: file and line; or None."""
    row = re.compile(rf'(?<![\w"]){name}\(|' + ROW.format(re.sub('^zacpi_(write_)?', '', name)))
    for path in sorted((ROOT / 'tests/c').glob('rows*.h'), key=lambda each: (each.name == 'rows_every.h', each.name)):
        for place, line in enumerate(path.read_text().split('\n')):
            if row.search(line):
                return str(path.relative_to(ROOT)), place + 1
    return None


def usual_call(item):
    """How a call is written, by its prototype alone: a declaration for each of its outputs, the call, and what it has
    returned."""
    declared, passed = [], []
    places = '4096' if re.search(r'uint8_t \*out\b', item.text) else '64'
    for kind, name in arguments(item):
        plain = re.sub(r'^const |\s*\*$', '', kind).strip()
        if name == 'signature':
            passed.append('NULL')
        elif name in ('out', 'length', 'count', 'malformed') and kind.endswith('*') and not kind.startswith('const'):
            is_list = name == 'out' and 'size_t capacity' in item.prototype()
            declared.append(f'{plain} {name}{f"[{places}]" if is_list else ""};')
            passed.append(name if is_list else f'&{name}')
        else:
            passed.append(places if name == 'capacity' else name)
    kind = item.prototype().split(f'{item.name}(')[0].strip()
    if kind != 'zacpi_status':
        return '\n'.join(declared + [f'{kind} result = {item.name}({", ".join(passed)});'])
    after = ['if (status) return status;']
    if 'size_t count;' in declared:
        after += [f'for (size_t i = 0; i < count && i < {places}; i++) {{', '    /* out[i] */', '}']
    return '\n'.join(declared + [f'zacpi_status status = {item.name}({", ".join(passed)});'] + after)
