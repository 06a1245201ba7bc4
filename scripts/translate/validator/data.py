# SPDX-License-Identifier: MIT
"""For scripts/translate/validate: whether the arrays of C are what the module has: static ones by content, and those of
functions by length, alignment and, where several allocas share one, by their lifetimes."""
import re

from translate.translator.text import GLOBAL, REGISTER, TYPE, bare, split, typed
from .llvm import bytes_of, refuse
from .terms import Refused


def content_of(kind, text):
    """The bytes of a constant of LLVM; None for one that anyone may choose. Between the parts of a packed struct is no
    gap."""
    if kind[0] == '<':
        parts = [re.match(r'(\[\d+ x i\d+\]|i\d+) (.*)$', part) or refuse(part) for part in split(text[2:-2])]
        return [byte for part in parts for byte in content_of(*part.groups())]
    array = re.match(r'\[(\d+) x (i\d+)\]$', kind)
    if text.startswith('c"'):
        return [int(one[1:], 16) if len(one) == 3 else ord(one) for one in re.findall(r'\\[0-9A-F]{2}|.', text[2:-1])]
    if array and text not in ('zeroinitializer', 'poison', 'undef'):
        items = [typed(one) for one in split(text[1:-1])]
        if len(items) != int(array[1]):
            refuse(f'constant {kind}')
        return [byte for item in items for byte in content_of(*item)]
    length = int(array[1]) * bytes_of(array[2]) if array else bytes_of(kind)
    if text in ('poison', 'undef'):
        return [None] * length
    value = 0 if text == 'zeroinitializer' else int(text)
    return list((value % (1 << 8 * length)).to_bytes(length, 'little'))


def static_data(module):
    """Of each constant of a module its bytes and alignment, by name."""
    found = {}
    for line in re.findall(r'^@.*', module, re.M):
        one = re.match(rf'({GLOBAL}) = (?:private |internal |unnamed_addr |local_unnamed_addr )*constant '
                       rf'(\[\d+ x i\d+\]|i\d+|<\{{ .*? \}}>) (.*), align (\d+)$', line) or refuse(line)
        found[bare(one[1])] = content_of(one[2], one[3]), int(one[4])
    return found


def static_arrays(c):
    """The same of the file of C. Its arrays of bytes are aligned to 1, and so on."""
    found = {}
    for width, name, count, text in re.findall(r'^static const u(\d+) (\w+)\[(\d+)\] = \{(.*?)\};', c, re.M | re.S):
        size = int(width) // 8
        values = [int(one.strip().rstrip('uUlL'), 0) for one in text.split(',')]
        if len(values) > int(count):
            raise Refused(f'{name} has more than {count} values')
        values += [0] * (int(count) - len(values))
        found[name] = [byte for value in values for byte in value.to_bytes(size, 'little')], size
    return found


def wrong_data(module, c, names):
    """What is wrong with each static array of the module, by its name in C, or None."""
    arrays = static_arrays(c)
    for name, (content, alignment) in static_data(module).items():
        c_name = names[name]
        there, aligned = arrays.get(c_name, (None, 1))
        if there is None:
            # What nothing reads is left out.
            yield c_name, 'it is not in the C' if re.search(rf'\b{c_name}\b', c) else None
        elif list(names.values()).count(c_name) > 1:
            yield c_name, 'two have this name'
        elif len(there) < len(content) or any(a not in (None, b) for a, b in zip(content, there)):
            yield c_name, 'it has another content'
        else:
            yield c_name, None if aligned >= min(alignment, 8) else 'it may be less aligned'


# Arrays of functions ------------------------------------------------------------------------------------------------


def allocas_of(function):
    """The length and alignment of each alloca of a function."""
    found = {}
    for lines in function.blocks.values():
        for line in lines:
            one = re.match(rf'({REGISTER}) = alloca (?:\[(\d+) x i8\]|({TYPE})), align (\d+)$', line)
            if one:
                found[bare(one[1])] = int(one[2]) if one[2] else bytes_of(one[3]), int(one[4])
            elif ' = alloca ' in line:
                refuse(line)
    return found


def check_arrays(function, arrays, text):
    """Raises Refused unless each alloca has an array that is as long and aligned, and those that share one never
    live at once."""
    declared = {name: (int(length), {'': 1, 'EIGHT': 8}.get(aligned) or int(aligned)) for aligned, name, length in
                re.findall(r'^ *(?:ALIGNED\((\w+)\) )?u8 (\w+)\[(\d+)\];', text, re.M)}
    sharing = {}
    for name, (length, alignment) in allocas_of(function).items():
        if arrays[name] in declared:  # else it is used nowhere
            there, aligned = declared[arrays[name]]
            if there < length or aligned < min(alignment, 8):
                raise Refused(f'{arrays[name]} is shorter than %{name}, or less aligned')
        sharing.setdefault(arrays[name], []).append(name)
    for array, names in sharing.items():
        for name in names if len(names) > 1 else []:
            others = lives_at_begins(function, name) & set(names) - {name}
            if others:
                raise Refused(f'{array}: %{name} may begin to live while %{min(others)} lives')


def marks_of(function):
    """In each block, which allocas begin to live and end, in order."""
    marks = {}
    for block, lines in function.blocks.items():
        found = [re.search(rf'@llvm\.lifetime\.(start|end)\.p0\(.*?({REGISTER})\)', line) for line in lines]
        marks[block] = [(one[1] == 'start', bare(one[2])) for one in found if one]
    return marks


def lives_at_begins(function, name):
    """The other allocas that may live where this one begins to, or where it is touched before it does."""
    marks, following = marks_of(function), function.following
    begun = {other for some in marks.values() for is_start, other in some if is_start}
    every = set(allocas_of(function))
    if name not in begun:
        return every
    # One that never begins lives always.
    live = {block: set() for block in function.blocks}
    live[function.first] = every - begun
    found, work = set(), [function.first]
    seen = set()
    while work:
        block = work.pop()
        now = set(live[block])
        for is_start, other in marks[block]:
            if is_start and other == name:
                found |= now - {name}
            now = now | {other} if is_start else now - {other}
        for after in following[block]:
            if after not in seen or not now <= live[after]:
                seen.add(after)
                live[after] |= now
                work.append(after)
    return found
