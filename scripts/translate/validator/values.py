# SPDX-License-Identifier: MIT
"""For scripts/translate/validate: what C computes, by its own rules: integer promotions, conversions, and what is
undefined. Each value has the type that C gives it and as many bits. The helpers of the front stand for what LLVM says
of them; validator/helpers.py shows that they do that."""
import operator
import re
from typing import NamedTuple

import z3
from pycparser import c_ast

from .c import Steps, constant_of, type_of
from .llvm import HAS_VECTORS, address_of_data, any_part, in_c, symbol
from .terms import (INTRINSICS, POINTER, Refused, chosen, compared, intrinsic, joined, lanes_added, moved, number,
                    of_truth, resized, simple, sum_of_lanes, sum_of_words, used_bits, widened_signed)

SAME = {'unsigned char': 'u8', 'uint8_t': 'u8', 'uint16_t': 'u16', 'unsigned': 'u32', 'unsigned int': 'u32',
        'uint32_t': 'u32', 'zacpi_status': 'u32', 'uint64_t': 'u64', 'zacpi_number': 'u64', 's32': 'int'}
WIDTHS = {'u8': 8, 'u16': 16, 'u32': 32, 'u64': 64, 's8': 8, 's16': 16, 'int': 32, 's64': 64, '_Bool': 8, 'lanes': 128}
MEMORY = {'memcpy': 'memcpy', 'copy': 'memcpy', 'copy_most': 'memcpy', 'memmove': 'memmove', 'move': 'memmove',
          'memset': 'memset', 'fill': 'memset'}


def plain(kind):
    if kind in ('uptr', 'size_t', 'uintptr_t'):
        return f'u{POINTER[0]}'
    return SAME.get(kind, kind)


def width_of(kind):
    kind = plain(kind)
    if kind == 'pointer':
        return POINTER[0]
    if kind not in WIDTHS:
        raise Refused(f'no width of {kind}')
    return WIDTHS[kind]


def is_signed(kind):
    return kind in ('int', 's8', 's16', 's64')


class Value(NamedTuple):
    """`kind` is a type of C. Of a struct of two, `term` has two values."""
    kind: str
    term: object


def to(kind, value):
    """The conversion of C to a type."""
    kind = plain(kind)
    if isinstance(value.term, tuple):
        return value if value.kind == kind else refuse(f'{value.kind} as {kind}')
    if kind == '_Bool':
        return Value(kind, of_truth(truth(value), 8))
    width = width_of(kind)
    if is_signed(value.kind) and width > value.term.size() and used_bits(value.term) == value.term.size():
        return Value(kind, widened_signed(value.term, width))
    if 'lanes' in (kind, value.kind) and kind != value.kind:
        refuse(f'{value.kind} as {kind}')
    return Value(kind, resized(value.term, width))


def refuse(what):
    raise Refused(f'C: {what}')


def truth(value):
    return compared('!=', value.term, number(0, value.term.size()))


def promoted(value):
    return to('int', value) if value.kind in ('u8', 'u16', '_Bool', 's8', 's16') else value


def usual(a, b):
    """The usual arithmetic conversions."""
    a, b = promoted(a), promoted(b)
    wide = max(a.term.size(), b.term.size())
    kinds = [value.kind for value in (a, b) if value.term.size() == wide]
    kind = next((kind for kind in kinds if not is_signed(kind)), kinds[0])
    return to(kind, a), to(kind, b)


def as_number(value):
    return Value(f'u{POINTER[0]}', value.term) if value.kind == 'pointer' else value


class C:
    """One function of C. `hints` say what value of LLVM each variable has; `known` is what scripts/translate/validate
    knows of all functions."""

    def __init__(self, text, numbers, hints, llvm, known):
        self.steps, self.llvm, self.known = Steps(text, numbers), llvm, known
        self.value_of = {word: (name, 0) for name, word in hints['words'].items()}
        self.value_of.update({word: (name, offset) for name, offset, word in hints['pointers']})
        self.value_of.update({word: self.value_of[first] for word, first in hints.get('copies', {}).items()
                              if first in self.value_of})
        self.taken, self.at_cuts = set(), {}  # the variables that are read as they are at a cut, and their values there

    # Variables

    def read(self, way, name):
        if name in way.values:
            return way.values[name] or refuse(f'{name} is read where it has no value')
        kind = self.steps.types.get(name)
        if kind is None:
            if name == 'HAS_VECTORS':
                return Value('int', of_truth(HAS_VECTORS, 32))
            if name in self.known.data:
                return Value('pointer', address_of_data(self.known.data[name]))
            refuse(f'unknown name {name}')
        if kind.startswith('array '):
            return Value('pointer', z3.BitVec(f'array {name}', POINTER[0]))
        self.taken.add(name)
        if name not in self.at_cuts:
            self.at_cuts[name] = self.at_cut(name)
        return self.at_cuts[name]

    def at_cut(self, name):
        """What a variable has at a cut: what the value of LLVM has that it is said to be."""
        value, offset = self.value_of.get(name) or refuse(f'{name} is read where it has no value')
        term = in_c(self.llvm.symbol(value))
        return self.typed(name, moved(term, offset) if offset else term)

    def typed(self, name, term):
        return self.with_type(self.steps.types[name], term)

    def typed_parameter(self, name, term):
        """Of a struct of four bytes that is passed by value LLVM has the number."""
        kind = self.steps.types[name]
        is_struct = kind.startswith('struct zacpi') and term.size() == 32
        return Value('u32', term) if is_struct else self.with_type(kind, term)

    def statement(self, way, node):
        """What is done for its effect."""
        if isinstance(node, c_ast.Assignment):
            if node.op != '=':
                refuse(node.op)
            self.assign(way, node.lvalue, node.rvalue)
        elif isinstance(node, c_ast.FuncCall):
            self.call(way, node)
        elif not isinstance(node, c_ast.Cast):  # (void) of what isn't used
            refuse(f'a statement {type(node).__name__}')

    def with_type(self, kind, term):
        """A value of LLVM as one of a type of C, which has to have its bits."""
        kind = plain(kind)
        if isinstance(term, tuple):
            parts = self.known.pairs.get(kind) or refuse(f'a pair as {kind}')
            return Value(kind, tuple(self.with_type(part, one) for part, one in zip(parts, term)))
        if width_of(kind) != term.size():
            refuse(f'{kind} for {term.size()} bits')
        return Value(kind, term)

    def assign(self, way, target, node):
        """A variable, a part of one, or a byte of memory."""
        value = self.value(way, node)
        if isinstance(target, c_ast.StructRef):
            name = target.name.name
            kind = self.steps.types[name]
            parts = list(way.values[name].term) if way.values.get(name) else [
                Value(plain(part), any_part(i, width_of(part))) for i, part in enumerate(self.known.pairs[kind])]
            place = 'ab'.index(target.field.name)
            parts[place] = to(self.known.pairs[kind][place], value)
            way.values[name] = Value(kind, tuple(parts))
        elif isinstance(target, c_ast.ArrayRef):
            at = self.value(way, target.name)
            if at.kind != 'pointer':
                refuse(f'an index into {at.kind}')
            way.store(self.indexed(way, at, target.subscript), to('u8', value).term)
        else:
            self.set(way, target.name, value)

    def set(self, way, name, value):
        kind = self.steps.types.get(name) or refuse(f'unknown name {name}')
        way.values[name] = to(kind, value)

    # Expressions

    def value(self, way, node):
        return EXPRESSIONS.get(type(node).__name__, lambda *_: refuse(type(node).__name__))(self, way, node)

    def term(self, way, node, width):
        """The lowest bits of an expression."""
        return resized(self.value(way, node).term, width)

    def address(self, way, node):
        return self.term(way, node, POINTER[0])

    def constant(self, _, node):
        value = constant_of(node)
        ending = re.search('[uUlL]*$', node.value)[0].lower()
        if 'l' in ending or value >> 32:
            kind = 'u64' if 'u' in ending or value >> 63 else 's64'
        else:
            kind = 'u32' if 'u' in ending or value >> 31 else 'int'
        return Value(kind, number(value, width_of(kind)))

    def cast(self, way, node):
        return to(type_of(node.to_type), as_number(self.value(way, node.expr)))

    def unary(self, way, node):
        value = self.value(way, node.expr)
        if node.op == '!':
            return Value('int', of_truth(z3.Not(truth(value)), 32))
        value = promoted(value)
        if node.op == '~':
            return Value(value.kind, simple(~value.term))
        if node.op == '-' and (not is_signed(value.kind) or z3.is_bv_value(value.term)):
            return Value(value.kind, simple(-value.term))
        return refuse(f'unary {node.op}')

    def choice(self, way, node):
        """Both sides count as read; what is asked of one is asked where it is chosen."""
        condition, events = truth(self.value(way, node.cond)), len(way.events)
        yes = self.under(way, condition, node.iftrue)
        no = self.under(way, z3.Not(condition), node.iffalse)
        if len(way.events) > events:
            refuse('a call in a choice')
        if isinstance(yes.term, tuple):
            both = zip(yes.term, no.term)
            return Value(yes.kind, tuple(Value(a.kind, chosen(condition, a.term, b.term)) for a, b in both))
        if 'pointer' not in (yes.kind, no.kind) and yes.kind != 'lanes':
            yes, no = usual(yes, no)
        return Value(yes.kind, chosen(condition, yes.term, no.term))

    def under(self, way, condition, node):
        asked = len(way.owed)
        value = self.value(way, node)
        way.owed[asked:] = [(why, simple(z3.Implies(condition, one))) for why, one in way.owed[asked:]]
        return value

    def element(self, way, node):
        """A byte."""
        at = self.value(way, node.name)
        if at.kind != 'pointer':
            refuse(f'an index into {at.kind}')
        return Value('u8', way.load(self.indexed(way, at, node.subscript), 1))

    def indexed(self, way, at, node):
        index = self.value(way, node)
        if isinstance(node, c_ast.Constant):
            return moved(at.term, constant_of(node))
        return simple(at.term + resized(index.term, POINTER[0]))

    def part(self, way, node):
        whole = self.value(way, node.name)
        return whole.term['ab'.index(node.field.name)]

    def literal(self, way, node):
        kind = type_of(node.type)
        given = [self.value(way, one) for one in node.init.exprs]
        if kind == 'lanes':
            return Value(kind, number(0, 128)) if z3.is_bv_value(given[0].term) and len(given) == 1 else refuse('lanes')
        parts = self.known.pairs[kind]
        given += [Value('int', number(0, 32))] * (len(parts) - len(given))
        return Value(kind, tuple(to(part, one) for part, one in zip(parts, given)))

    def binary(self, way, node):
        a, b = self.value(way, node.left), self.value(way, node.right)
        if 'pointer' in (a.kind, b.kind) and node.op in ('+', '-'):
            if isinstance(node.right, c_ast.Constant):
                return Value('pointer', moved(a.term, constant_of(node.right) * (1 if node.op == '+' else -1)))
            return refuse('a sum of pointers')
        a, b = as_number(a), as_number(b)
        if node.op in ('<<', '>>'):
            return self.shift(way, node.op, promoted(a), promoted(b))
        a, b = usual(a, b)
        if node.op in ('==', '!=', '<', '<=', '>', '>='):
            return Value('int', of_truth(compared(node.op, a.term, b.term, is_signed(a.kind)), 32))
        if node.op in ('/', '%'):
            return self.division(way, node.op, a, b)
        if node.op in ('&', '|', '^'):
            return Value(a.kind, joined(node.op, a.term, b.term))
        if node.op not in ('+', '-', '*'):
            refuse(node.op)
        return self.sum(way, node.op, a, b)

    @staticmethod
    def sum(way, sign, a, b):
        apply = {'+': lambda x, y: x + y, '-': lambda x, y: x - y, '*': lambda x, y: x * y}[sign]
        if is_signed(a.kind):
            width = a.term.size()
            exact = apply(z3.SignExt(width, a.term), z3.SignExt(width, b.term))
            held = z3.SignExt(width, z3.Extract(width - 1, 0, exact))
            way.owed.append(('a sum that int holds', simple(exact == held)))
        return Value(a.kind, simple(apply(a.term, b.term)))

    @staticmethod
    def shift(way, sign, a, count):
        width = a.term.size()
        way.owed.append(('a shift by less than the width', compared('<', resized(count.term, 64), number(width, 64))))
        by = resized(count.term, width)
        if is_signed(a.kind):
            way.owed.append(('a shift of what is not below 0', simple(a.term >= 0)))
            if sign == '<<':
                way.owed.append(('a shift that int holds', simple(z3.LShR(a.term << by + 1, by + 1) == a.term)))
        return Value(a.kind, simple(a.term << by if sign == '<<' else z3.LShR(a.term, by)))

    @staticmethod
    def division(way, sign, a, b):
        if is_signed(a.kind) and max(used_bits(a.term), used_bits(b.term)) >= a.term.size():
            refuse('a division of signed numbers')
        return Value(a.kind, way.divide('udiv' if sign == '/' else 'urem', a.term, b.term))

    # Calls

    def call(self, way, node):
        name, given = node.name.name, node.args.exprs if node.args else []
        if name == 'AT':
            return Value('pointer', self.address(way, given[0]))
        if name == 'KNOWN_START':
            return self.value(way, given[0])
        if name in MEMORY:
            return self.memory(way, name, given)
        found = re.match(r'(load|store)(?:(16|32|64)(u?)|_bytes|_address)$', name)
        if found:
            return self.access(way, found, given)
        found = re.match(r'(\w+?)(8|16|32|64)$', name)
        if found and found[1] in INTRINSICS:
            made = intrinsic(found[1], [to(f'u{found[2]}', self.value(way, one)).term for one in given])
            kind = f'struct pair_{found[2]}_1' if isinstance(made, tuple) else f'u{found[2]}'
            return self.with_type(kind, in_c(made))
        if name in HELPERS:
            return HELPERS[name](self, way, given)
        return self.function(way, name, given)

    def access(self, way, found, given):
        """Of 8 bytes an alignment of 4 is enough with addresses of 32 bits."""
        counts = {'_bytes': lambda: constant_of(given[-1]), '_address': lambda: 8}
        ending = found[0][len(found[1]):]
        count = counts[ending]() if ending in counts else int(found[2]) // 8
        alignment = 1 if ending in counts or found[3] else min(count, POINTER[0] // 8)
        address = self.address(way, given[0])
        if found[1] == 'load':
            kind = {'_bytes': 'u64', '_address': 'uptr'}.get(ending) or f'u{8 * count}'
            return Value(plain(kind), resized(way.load(address, count, alignment), width_of(kind)))
        kind = {'_bytes': 'u64', '_address': 'uptr'}.get(ending) or f'u{8 * count}'
        way.store(address, resized(to(kind, self.value(way, given[1])).term, 8 * count), alignment)
        return None

    def memory(self, way, name, given):
        if name == 'memcpy' and isinstance(given[0], c_ast.UnaryOp):  # a struct of four bytes that is passed by value
            word, other = given[0].expr.name, given[1].expr.name
            is_whole = constant_of(given[2]) == 4 and self.steps.types[word] == 'u32'
            if [one.op for one in given[:2]] != ['&', '&'] or not is_whole:
                refuse('memcpy of variables')
            way.values[word] = Value('u32', self.read(way, other).term)
            return None
        to_place, count = self.address(way, given[0]), to('size_t', self.value(way, given[2])).term
        if name == 'copy_most':
            asked = to('u64', self.value(way, given[2])).term
            count = resized(intrinsic('umin', [asked, to('u64', self.value(way, given[3])).term]), POINTER[0])
        other = self.value(way, given[1])
        other = to('u8', other).term if MEMORY[name] == 'memset' else resized(other.term, POINTER[0])
        way.memory_call(MEMORY[name], to_place, other, count)
        return None

    def function(self, way, name, given):
        if name not in self.known.results:
            refuse(f'a call of {name}')
        result, kinds = self.known.heads[name]
        words = [to(kind, self.value(way, one)).term for kind, one in zip(kinds, given)]
        way.events.append((f'call of {name}', words))
        llvm_result = self.known.results[name]
        if llvm_result == 'void':
            return None
        return self.with_type(result, in_c(symbol(f'result {len(way.events)}', llvm_result)))

    def divide_helper(self, way, given):
        a, b = (to('u64', self.value(way, one)).term for one in given)
        return Value('u64', way.divide('udiv', a, b))

    def rest_helper(self, way, given):
        a, b = (to('u64', self.value(way, one)).term for one in given)
        return Value('u64', way.divide('urem', a, b))

    def modulo_65535(self, way, given):
        return Value('u64', way.divide('urem', to('u64', self.value(way, given[0])).term, number(65535, 64)))

    def sum_words(self, way, given):
        at, mask = self.address(way, given[0]), to('u64', self.value(way, given[1])).term
        return Value('u64', sum_of_words([way.load(moved(at, 8 * i), 8) & mask for i in range(8)]))

    def lanes(self, way, given):
        return [self.value(way, one).term for one in given]


EXPRESSIONS = {
    'Constant': C.constant, 'Cast': C.cast, 'UnaryOp': C.unary, 'TernaryOp': C.choice, 'ArrayRef': C.element,
    'StructRef': C.part, 'CompoundLiteral': C.literal, 'BinaryOp': C.binary, 'FuncCall': C.call,
    'ID': lambda self, way, node: self.read(way, node.name),
}
HELPERS = {
    'udiv64': C.divide_helper, 'urem64': C.rest_helper, 'modulo_65535': C.modulo_65535, 'sum_words': C.sum_words,
    'lanes_load': lambda self, way, given: Value('lanes', way.load(self.address(way, given[0]), 16)),
    'lanes_add': lambda self, way, given: Value('lanes', lanes_added(*self.lanes(way, given))),
    'lanes_and': lambda self, way, given: Value('lanes', simple(operator.and_(*self.lanes(way, given)))),
    'lanes_sum': lambda self, way, given: Value('u8', sum_of_lanes(*self.lanes(way, given))),
}
