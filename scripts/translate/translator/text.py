# SPDX-License-Identifier: MIT
"""The words of LLVM's text, types, and expressions of C, for scripts/translate/ir2c."""
import re
import sys
from typing import NamedTuple

REGISTER = r'%(?:"[^"]*"|[\w.$-]+)'
GLOBAL = r'@(?:"[^"]*"|[\w.$-]+)'
LABEL = rf'label ({REGISTER})'
TYPE = r'(?:ptr|void|i\d+|\{ [^{}]*? \}|<\d+ x i\d+>)'
# What LLVM knows of values and calls besides, which C needs none of. None of them changes a value that isn't poison.
KNOWN = (r'(?:(?:nuw|nsw|exact|inbounds|nusw|nneg|disjoint|samesign|noundef|zeroext|signext|nonnull|noalias|readonly|writeonly|'
         r'readnone|returned|writable|immarg|tail|fastcc|dead_on_unwind|dead_on_return|nofree|'
         r'align \d+|(?:range|captures|dereferenceable|dereferenceable_or_null|memory|sret)\([^()]*\)|'
         r'initializes\((?:\([^()]*\)(?:, )?)*\)) )*')
# C's words, the file's own, and macros of other trees (tests/c/macros.h).
RESERVED = set('''uptr auto break case char const continue copy default do double else enum extern fill float for goto if inline
    int lanes long move register return short signed sizeof static struct switch typedef union unsigned void volatile while
    memcpy memmove memset u8 u16 u32 u64 s8 s16 s32 s64
    arm cdecl current far hyper i386 interface linux major max min minor mips near pascal small sun unix'''.split())

# What the module has, by LLVM's names: functions, and the names in C of data.
functions, data_names = {}, {}


def fail(what):
    sys.exit(f'ir2c: not in its tables: {what}')


def split(text):
    """The parts between commas that stand in no bracket."""
    parts, depth, start, is_quoted = [], 0, 0, False
    for i, sign in enumerate(text):
        if sign == '"':
            is_quoted = not is_quoted
        elif not is_quoted and sign in '([{<':
            depth += 1
        elif not is_quoted and sign in ')]}>':
            depth -= 1
        elif sign == ',' and not is_quoted and not depth:
            parts.append(text[start:i].strip())
            start = i + 1
    return parts + [text[start:].strip()] if text.strip() else []


def bare(name):
    return name[1:].strip('"')


def typed(text):
    """`i64 noundef %a` as its type and its value."""
    found = re.match(rf'({TYPE}) {KNOWN}(.+)$', text)
    return found.groups() if found else fail(text)


class Code(NamedTuple):
    """An expression of C. One that isn't `whole` needs brackets inside of another."""
    text: str
    whole: bool = False

    @property
    def part(self):
        return self.text if self.whole else f'({self.text})'


# Types -----------------------------------------------------------------------------------------------------------------------

pairs = {}  # the structs of two values that functions return, by name
types = {}  # the types that the module has names for

ELEMENT = rf'(?:i\d+|{REGISTER})'  # what a pointer may step over


def bits(kind):
    return int(kind[1:]) if kind[0] == 'i' else fail(kind)


def room(kind):
    """The bits of the variable that holds such a number."""
    width = bits(kind)
    return next((n for n in (8, 16, 32, 64) if width <= n), None) or fail(kind)


def size(kind):
    """In memory, in bytes."""
    return room_of(kind)[0]


def room_of(kind):
    """The bytes and the alignment of a type in memory."""
    if kind in ('ptr', '<16 x i8>'):
        return (8, 8) if kind == 'ptr' else (16, 16)
    if kind[0] == '[':
        count, item = re.match(r'\[(\d+) x (.*)\]$', kind).groups()
        length, alignment = room_of(item)
        return int(count) * length, alignment
    if kind[0] not in '{%':
        length = (bits(kind) + 7) // 8
        return length, min(8, 1 << (length - 1).bit_length())
    end, most = 0, 1
    for part in members(kind if kind[0] == '{' else types.get(kind) or fail(kind)):
        length, alignment = room_of(part)
        end, most = -(-end // alignment) * alignment + length, max(most, alignment)
    return -(-end // most) * most, most


def members(kind):
    return split(kind[1:-1])


def c_type(kind):
    if kind[0] == '{':
        parts = members(kind)
        name = 'pair_' + '_'.join(part.lstrip('i') for part in parts)
        pairs[name] = parts if len(parts) == 2 else fail(kind)
        return f'struct {name}'
    fixed = {'ptr': 'uptr', 'void': 'void', 'i1': '_Bool', '<16 x i8>': 'lanes'}
    return fixed.get(kind) or f'u{room(kind)}'


def number(value):
    return str(value) if value < 4096 else f'{value:#x}' + ('' if value < 1 << 31 else 'u' if value < 1 << 32 else 'ull')


def constant(kind, text):
    if text in ('undef', 'poison', 'zeroinitializer', 'null', 'false'):
        # Of values that aren't known LLVM lets anyone choose.
        return Code(f'({c_type(kind)}){{0}}' if kind[0] in '{<' else '0', True)
    if text == 'true':
        return Code('1', True)
    return Code(number(int(text) & (1 << bits(kind)) - 1), True)


def cut(kind, code):
    """Of a result that may have more bits, those of its type."""
    width = bits(kind)
    if width == 64:
        return code
    if width in (8, 16, 32):
        return Code(f'(u{width}){code.part}')
    return Code(f'{code.part} & {number((1 << width) - 1)}')


def signed(kind, code):
    return Code(f'(s{bits(kind)}){code.part}') if bits(kind) in (8, 16, 32, 64) else fail(f'signed {kind}')
