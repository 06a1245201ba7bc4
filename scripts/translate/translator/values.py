# SPDX-License-Identifier: MIT
"""For scripts/translate/ir2c, what each instruction of LLVM that makes a value, and each call, is in C: the tables
VALUES, CASTS, HELPERS, MEMORY and SUMS. Each takes the body that it is written for and the text after its name, and
returns its type and its expression."""
import re
from typing import NamedTuple

from .text import (GLOBAL, KNOWN, TYPE, Code, bare, bits, c_type, constant, cut, fail, functions, members, number, room,
                   signed, size, split, typed)


# Bytes beside each other ---------------------------------------------------------------------------------------------


def as_one(values):
    """Of what bytes are put beside, in their order, numbers or a variable and a shift each: the expression for all of
    them, or None."""
    if all(isinstance(value, int) for value in values):
        return number(sum(value << 8 * i for i, value in enumerate(values)))
    if isinstance(values[0], tuple) and values == [(values[0][0], values[0][1] + 8 * i) for i in range(len(values))]:
        word, shift = values[0]
        return f'(u{8 * len(values)})' + (f'({word} >> {shift})' if shift else word)
    return None


def words(spots):
    """Of bytes, each a pointer, an offset and what it is put beside: the widest words that they make, each the C that
    reads it, its bits, and what it is put beside."""
    rest, found = sorted(spots, key=lambda spot: spot[1]), []
    while rest:
        at, begin, _ = rest[0]
        width = next(n for n in (8, 4, 2, 1) if [spot[1] for spot in rest[:n]] == [begin + i for i in range(n)]
                     and as_one([spot[2] for spot in rest[:n]]))
        place = f'{at} + {begin}' if begin else at
        code = f'{at}[{begin}]' if width == 1 else f'load{width * 8}u({place})'
        found.append((code, width * 8, as_one([spot[2] for spot in rest[:width]])))
        rest = rest[width:]
    return found


class Bytes(NamedTuple):
    """Bytes that are put together by `or`."""
    spots: tuple

    @property
    def whole(self):
        return len(self.spots) == 1

    @property
    def text(self):
        return ' | '.join(f'{at}[{offset}]' for at, offset, _ in self.spots)

    @property
    def part(self):
        return self.text if self.whole else f'({self.text})'

    def signs(self, sign):
        """Whether the highest bit of any is set, or of none."""
        parts = words([(at, offset, 0x80) for at, offset, _ in self.spots])
        code = ' | '.join(code for code, _, _ in parts)
        return Comparison(f'({f"({code})" if len(parts) > 1 else code} & {parts[0][2]})', sign, '0')


class Known(NamedTuple):
    """Whether bytes are all equal to what they are put beside, or one isn't."""
    spots: tuple
    sign: str
    whole = False

    @property
    def text(self):
        parts = [f'{code} {self.sign} {value}' for code, _, value in words(self.spots)]
        joined = ' & ' if self.sign == '==' else ' | '
        return parts[0] if len(parts) == 1 else '(int)' + joined.join(f'({part})' for part in parts)

    @property
    def part(self):
        return f'({self.text})'


def together(body, sign, a, b):
    """Two such expressions as one, if they are of one pointer and of different bytes."""
    if type(a) is not type(b) or not isinstance(a, (Bytes, Known)) or a.spots[0][0] != b.spots[0][0]:
        return None
    if isinstance(a, Known) and (a.sign != b.sign or sign != ('&' if a.sign == '==' else '|')):
        return None
    spots = a.spots + b.spots
    if len({offset for _, offset, _ in spots}) < len(spots):
        return None
    for _, width, _ in words(spots):
        if width > 8:
            body.uses(f'load{width}u')
    return a._replace(spots=spots)


def known(byte, how, other):
    """A comparison of a byte with a number, or with eight bits of a variable."""
    shifted = re.match(r'\(u8\)(?:(\w+)|\((\w+) >> (\d+)\))$', other.text)
    if not re.match(r'\d+$', other.text) and not shifted:
        return None
    value = (shifted[1] or shifted[2], int(shifted[3] or 0)) if shifted else int(other.text)
    return Known(((*byte.spots[0][:2], value),), COMPARED[how])


# Each takes the body that it is written for and the text after its name, and returns its type and its expression.


def binary(sign, widened=False):
    def write(body, rest):
        # A place in a block without a common bit is a sum, since compilers put that together with those around it.
        if re.match(r'disjoint i64 .*, \d+$', rest):
            return VALUES['add'](body, rest.removeprefix('disjoint '))
        kind, text = typed(re.sub(rf'^{KNOWN}', '', rest))
        left, right = split(text)
        if kind == '<16 x i8>' and sign in '+&':
            name = body.uses('lanes_add' if sign == '+' else 'lanes_and')
            return kind, Code(f'{name}({body.value(kind, left).text}, {body.value(kind, right).text})', True)
        if kind == '<8 x i64>' and sign == '&':  # of which sum_words alone is made
            mask = re.match(r'splat \(i64 (\d+)\)$', right) or fail(rest)
            return kind, Code(f'{body.value(kind, left).text}, {number(int(mask[1]))}')
        a, b = body.value(kind, left), body.value(kind, right)
        beside = kind in ('i1', 'i8') and sign in '&|' and (kind == 'i1' or sign == '|') and together(body, sign, a, b)
        if beside:
            return kind, beside
        if kind == 'i1':
            if sign == '^' and right == 'true':
                return kind, negated(a)
            return kind, Code(f'(int){a.part} {sign} {b.part}') if sign in '&|^' else fail(rest)
        if sign == '+' and right[0] == '-':
            sign_here, b = '-', constant(kind, right[1:])
        else:
            sign_here = sign
        if sign in ('<<', '>>') and not right.isdigit():
            b = Code(f'{b.part} & {room(kind) - 1}')
        if widened and bits(kind) < 32:
            a = Code(f'(u32){a.part}')
        made = Code(f'{a.part} {sign_here} {b.part}')
        return kind, made if sign in ('&', '|', '^', '>>', '/', '%') else cut(kind, made)
    return write


def shifted_signed(body, rest):
    """By a helper: what C gives for a number below 0 is each compiler's choice."""
    kind, text = typed(re.sub(rf'^{KNOWN}', '', rest))
    a, b = (body.value(kind, one) for one in split(text))
    width = bits(kind) if bits(kind) in (8, 16, 32, 64) else fail(rest)
    return kind, Code(f'{body.uses(f"ashr{width}")}({a.text}, {b.part} & {width - 1})', True)


def division(sign, name):
    def write(body, rest):
        kind, text = typed(re.sub(rf'^{KNOWN}', '', rest))
        left, right = split(text)
        if kind == 'i64' and sign == '%' and right == '65535':
            return kind, Code(f'{body.uses("modulo_65535")}({body.value(kind, left).text})', True)
        if kind == 'i64':
            return kind, Code(f'{body.uses(name)}({body.value(kind, left).text}, {body.value(kind, right).text})', True)
        return binary(sign)(body, rest)
    return write


COMPARED = {'eq': '==', 'ne': '!=', 'ult': '<', 'ule': '<=', 'ugt': '>', 'uge': '>=', 'slt': '<', 'sle': '<=', 'sgt': '>', 'sge': '>='}
OPPOSITE = {'==': '!=', '!=': '==', '<': '>=', '>=': '<', '>': '<=', '<=': '>'}


class Comparison(NamedTuple):
    left: str
    sign: str
    right: str
    whole = False

    @property
    def text(self):
        return f'{self.left} {self.sign} {self.right}'

    @property
    def part(self):
        return f'({self.text})'


def compared(body, rest):
    how, rest = re.sub(rf'^{KNOWN}', '', rest).split(' ', 1)
    kind, text = typed(rest)
    left, right = split(text)
    a, b = body.value(kind, left), body.value(kind, right)
    if isinstance(a, Bytes) and len(a.spots) > 1 and (how, right) in (('slt', '0'), ('sgt', '-1')):
        return 'i1', a.signs('!=' if how == 'slt' else '==')
    for byte, other in ((a, b), (b, a)):
        if how in ('eq', 'ne') and isinstance(byte, Bytes) and byte.whole and known(byte, how, other):
            return 'i1', known(byte, how, other)
    if how[0] == 's':
        a, b = signed(kind, a), Code(right, True) if re.match(r'-?\d{1,9}$', right) else signed(kind, b)
    return 'i1', Comparison(a.part, COMPARED[how], b.part)


def negated(code):
    if isinstance(code, (Comparison, Known)):
        return code._replace(sign=OPPOSITE[code.sign])
    return Code(code.text[1:], True) if re.match(r'!\w+$', code.text) else Code(f'!{code.part}')


def cast(how):
    def write(body, rest):
        found = re.match(rf'{KNOWN}({TYPE}) (.*) to ({TYPE})$', rest) or fail(rest)
        return found[3], how(found[1], body.value(found[1], found[2]), found[3])
    return write


def widened_signed(old, code, new):
    if old == 'i1':
        return cut(new, Code(f'0 - (u{max(room(new), 32)}){code.part}'))
    return cut(new, Code(f'(u{room(new)}){signed(old, code).part}'))


CASTS = {
    'zext': lambda old, code, new: Code(f'({c_type(new)}){code.part}'),
    'trunc': lambda old, code, new: Code(f'{code.part} & 1') if new == 'i1' else cut(new, code),
    'sext': widened_signed,
    'inttoptr': lambda old, code, new: Code(f'(uptr){code.part}'),
    'ptrtoint': lambda old, code, new: cut(new, Code(f'(u64){code.part}')),
    'ptrtoaddr': lambda old, code, new: cut(new, Code(f'(u64){code.part}')),
}


def frozen(body, rest):
    kind, text = typed(rest)
    return kind, body.value(kind, text)


def selected(body, rest):
    (_, asked), (kind, yes), (_, no) = (typed(one) for one in split(rest))
    return kind, Code(f'{body.value("i1", asked).part} ? {body.value(kind, yes).part} : {body.value(kind, no).part}')


def placed(body, rest):
    """getelementptr with an index that isn't constant; of the others Body knows the offset."""
    element, pointer, index = split(re.sub(rf'^{KNOWN}', '', rest))
    kind, index = typed(index)
    if kind != 'i64':  # which LLVM widens by its sign
        fail(rest)
    index = body.value(kind, index)
    scaled = f'{Code(f"(uptr){index.part}").part} * {size(element)}' if size(element) > 1 else f'(uptr){index.part}'
    return 'ptr', Code(f'{body.value(*typed(pointer)).part} + {scaled}')


def extracted(body, rest):
    found = re.match(rf'({TYPE}) (.*), ([01])$', rest) or fail(rest)
    return members(found[1])[int(found[3])], Code(f'{body.value(found[1], found[2]).part}.{"ab"[int(found[3])]}', True)


def loaded(body, rest):
    found = re.match(rf'({TYPE}), (ptr .*), align (\d+)$', rest) or fail(rest)
    kind, pointer, alignment = found[1], typed(found[2])[1], int(found[3])
    body.reads = True
    if kind == '<8 x i64>':
        return kind, Code(body.memory(pointer, 64))
    if kind == 'i8':
        return kind, Bytes(((*body.place(pointer, 1), 0),))
    at = body.memory(pointer, size(kind))
    if kind == '<16 x i8>':
        return kind, Code(f'{body.uses("lanes_load")}({at})', True)
    if kind == 'ptr':
        return kind, Code(f'{body.uses("load_address")}({at})', True)
    if bits(kind) in (16, 32, 64):
        suffix = '' if alignment >= size(kind) else 'u'
        return kind, Code(f'{body.uses(f"load{bits(kind)}{suffix}")}({at})', True)
    if bits(kind) % 8:
        fail(rest)
    return kind, Code(f'({c_type(kind)}){body.uses("load_bytes")}({at}, {size(kind)})')


VALUES = {
    'add': binary('+'),
    'sub': binary('-', widened=True),
    'mul': binary('*', widened=True),
    'and': binary('&'),
    'or': binary('|'),
    'xor': binary('^'),
    'shl': binary('<<', widened=True),
    'lshr': binary('>>'),
    'ashr': shifted_signed,
    'udiv': division('/', 'udiv64'),
    'urem': division('%', 'urem64'),
    'icmp': compared,
    **{name: cast(how) for name, how in CASTS.items()},
    'freeze': frozen,
    'select': selected,
    'getelementptr': placed,
    'extractvalue': extracted,
    'load': loaded,
}

# Calls of LLVM's own functions, by the name up to its types: a helper of head.c, to whose name the width is put.
HELPERS = {
    'umin': 'umin', 'umax': 'umax', 'usub.sat': 'usub_sat', 'uadd.sat': 'uadd_sat', 'fshl': 'fshl', 'cttz': 'cttz',
    'ctpop': 'ctpop', 'uadd.with.overflow': 'uadd_over', 'umul.with.overflow': 'umul_over',
}
MEMORY = {'memcpy': ('memcpy', 'copy'), 'memmove': ('memmove', 'move'), 'memset': ('memset', 'fill')}
SUMS = {'vector.reduce.add.v8i64': 'sum_words', 'vector.reduce.add.v16i8': 'lanes_sum'}


def called(body, rest):
    """The type and the expression of a call, and whether it may write."""
    found = re.match(rf'{KNOWN}({TYPE}) ({GLOBAL})\((.*)\)$', rest) or fail(rest)
    kind, name, arguments = found[1], bare(found[2]), [typed(argument) for argument in split(found[3])]
    if name.startswith('llvm.'):
        name = name[5:]
        if name.split('.')[0] in MEMORY:
            return kind, memory_call(body, name.split('.')[0], arguments), True
        if name in SUMS:
            body_code = body.value(*arguments[0]).text
            return kind, Code(f'{body.uses(SUMS[name])}({body_code})', True), False
        plain, width = re.sub(r'\.i(\d+)$', '', name), re.search(r'\.i(\d+)$', name)
        helper = HELPERS.get(plain) or fail(rest)
        given = [body.value(*argument).text for argument in arguments if argument[0] != 'i1']
        if kind[0] == '{':
            c_type(kind)
        return kind, Code(f'{body.uses(helper + width[1])}({", ".join(given)})', True), False
    if name.endswith('has_vectors'):
        return kind, Code('HAS_VECTORS', True), False
    body.function.calls.append(name if name in functions else fail(f'a call of {name}'))
    given = ', '.join(body.value(*argument).text for argument in arguments)
    return kind, Code(f'{functions[name].c_name}({given})', True), True


def memory_call(body, name, arguments):
    """A copy of a known length is C's own, which compilers make words of."""
    (_, to), other, (kind, length) = arguments[:3]
    plain, checked = MEMORY[name]
    if length.isdigit():
        second = body.value(*other).text if name == 'memset' else body.memory(other[1], int(length))
        return Code(f'{plain}({body.memory(to, int(length))}, {second}, {length})', True)
    given = body.value('ptr', to).text, body.value(*other).text, body.value(kind, length).part
    most = re.match(r'umin64\((.*), ([1-9]|1[0-6])\)$', given[2])
    if name == 'memcpy' and most:
        return Code(f'{body.uses("copy_most")}({given[0]}, {given[1]}, {most[1]}, {most[2]})', True)
    return Code(f'{body.uses(checked)}({given[0]}, {given[1]}, (size_t){given[2]})', True)
