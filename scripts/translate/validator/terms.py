# SPDX-License-Identifier: MIT
"""For scripts/translate/validate: numbers and memory as terms of z3, and what both sides do with them.

A number is a vector of bits, a truth value of LLVM a boolean. Memory isn't looked into: it is a row of events since
the last cut, and a byte that is read after k of them is an unknown function of k and the address. So two ways that
do the same events, in the same order and with the same words, have the same memory after each, and read the same
bytes of it. Divisions, and sums of sixteen bytes, are unknown functions too: both sides have the same of them, or
are refused."""
import operator

import z3

POINTER = [64]  # the bits of an address: 64, or 32, of which one takes 8 bytes of memory all the same
EFFORT = 3_000_000  # what z3 may spend on one question, which doesn't depend on the machine

z3.set_param('rewriter.split_concat_eq', True)
simple = z3.simplify


class Refused(Exception):
    """Why a function isn't shown to be equal."""


def number(value, width):
    return z3.BitVecVal(value, width)


def chosen(condition, yes, no):
    return yes if z3.is_true(condition) else no if z3.is_false(condition) else simple(z3.If(condition, yes, no))


def resized(term, width):
    """The lowest bits of a number, or the number with zeros above. Of a choice both are, so that what C widens
    before it chooses is written as what LLVM widens after."""
    have = term.size()
    if have == width:
        return term
    if z3.is_bv_value(term):
        return number(term.as_long() & (1 << width) - 1, width)
    if z3.is_app_of(term, z3.Z3_OP_ITE):
        condition, yes, no = term.children()
        return chosen(condition, resized(yes, width), resized(no, width))
    return simple(z3.ZeroExt(width - have, term) if width > have else z3.Extract(width - 1, 0, term))


def widened_signed(term, width):
    return simple(z3.SignExt(width - term.size(), term)) if width > term.size() else term


def of_truth(condition, width):
    return chosen(simple(condition), number(1, width), number(0, width))


def condition_of(term):
    """The condition that `of_truth` made the number of, if it did."""
    if not z3.is_app_of(term, z3.Z3_OP_ITE):
        return None
    condition, *values = term.children()
    values = [value.as_long() if z3.is_bv_value(value) else None for value in values]
    return condition if values == [1, 0] else z3.Not(condition) if values == [0, 1] else None


def joined(sign, a, b):
    """`&`, `|` or `^` of two numbers; of the numbers of two conditions it is that of a condition, as LLVM has it."""
    conditions = [condition_of(one) for one in (a, b)]
    if any(one is None for one in conditions):
        return simple({'&': operator.and_, '|': operator.or_, '^': operator.xor}[sign](a, b))
    return of_truth({'&': z3.And, '|': z3.Or, '^': z3.Xor}[sign](*conditions), a.size())


def used_bits(term):
    """The bits of a number above which it is seen to have zeros."""
    if z3.is_bv_value(term):
        return term.as_long().bit_length()
    if z3.is_app_of(term, z3.Z3_OP_CONCAT) and z3.is_bv_value(term.arg(0)):
        return term.size() - term.arg(0).size() + term.arg(0).as_long().bit_length()
    if z3.is_app_of(term, z3.Z3_OP_ITE):
        return max(used_bits(term.arg(1)), used_bits(term.arg(2)))
    return term.size()


COMPARED = {'<': z3.ULT, '<=': z3.ULE, '>': z3.UGT, '>=': z3.UGE}


def compared(sign, a, b, is_signed=False):
    """Of two numbers of one width. Zeros above both are left out, so that both sides compare as few bits."""
    used = max(used_bits(a), used_bits(b), 1)
    if used < a.size():
        a, b, is_signed = resized(a, used), resized(b, used), False
    if sign == '==':
        return simple(a == b)
    if sign == '!=':
        return simple(z3.Not(a == b))
    if is_signed:
        return simple({'<': a < b, '<=': a <= b, '>': a > b, '>=': a >= b}[sign])
    return simple(COMPARED[sign](a, b))


unknown_functions = {}


def unknown(name, width, *terms):
    """An unknown function of some numbers."""
    key = name, width, *(term.size() for term in terms)
    if key not in unknown_functions:
        sort = z3.BitVecSort(width)
        unknown_functions[key] = z3.Function('!'.join(map(str, key)), *(term.sort() for term in terms), sort)
    return unknown_functions[key](*terms)


def divided(name, a, b):
    """`udiv` or `urem`, of as few bits as both are seen to have: the same whatever zeros are above."""
    used = max(used_bits(a), used_bits(b))
    width = next(width for width in (8, 16, 32, 64) if used <= width)
    return resized(resized(unknown(name, 64, resized(a, 64), resized(b, 64)), width), a.size())


def saturated_sum(a, b):
    return chosen(z3.UGT(a, ~b), number(-1, a.size()), a + b)


def rotated(a, b, count):
    """llvm.fshl: the upper half of two numbers beside each other, shifted to the left by the count modulo their
    bits."""
    width = a.size()
    count = resized(count & number(width - 1, width), 2 * width)
    return z3.Extract(2 * width - 1, width, z3.Concat(a, b) << count)


# What LLVM says of its own functions. Of a pair the second is a truth value.
INTRINSICS = {
    'umin': lambda a, b: chosen(z3.ULT(a, b), a, b),
    'umax': lambda a, b: chosen(z3.UGT(a, b), a, b),
    'usub_sat': lambda a, b: chosen(z3.UGT(a, b), a - b, number(0, a.size())),
    'uadd_sat': saturated_sum,
    'fshl': lambda a, b, count: unknown('fshl', a.size(), a, b, count),
    'ashr': lambda a, count: a >> count,
    'cttz': lambda a: unknown('cttz', a.size(), a),
    'ctpop': lambda a: unknown('ctpop', a.size(), a),
    'uadd_over': lambda a, b: (a + b, z3.ULT(a + b, a)),
    'umul_over': lambda a, b: (a * b, unknown('umul_over', 1, a, b) == 1),
}


def intrinsic(name, terms):
    made = INTRINSICS[name](*terms)
    return tuple(simple(term) for term in made) if isinstance(made, tuple) else simple(made)


def sum_of_words(words):
    return simple(sum(words[1:], words[0]))


def lanes_added(a, b):
    return simple(z3.Concat(*(z3.Extract(i + 7, i, a) + z3.Extract(i + 7, i, b) for i in range(a.size() - 8, -1, -8))))


def sum_of_lanes(lanes):
    return unknown('sum_of_lanes', 8, lanes)


# Memory -------------------------------------------------------------------------------------------------------------


class Way:
    """What has been done since a cut: the values of variables, what has to hold for the way to be taken, the events,
    the addresses that were read, those that were touched with a known alignment, and what was divided by."""

    def __init__(self, values=None):
        self.values, self.conditions, self.events = values or {}, [], []
        self.read, self.aligned, self.divisors, self.owed = {}, {}, [], []

    def fork(self, condition):
        other = Way(dict(self.values))
        other.conditions = self.conditions + [simple(condition)]
        other.events, other.divisors, other.owed = list(self.events), list(self.divisors), list(self.owed)
        other.read, other.aligned = dict(self.read), dict(self.aligned)
        return other

    def load(self, address, count, alignment=1):
        """So many bytes, the lowest first."""
        self.touch(address, alignment)
        places = [moved(address, i) for i in range(count)]
        self.read.update((place.get_id(), place) for place in places)
        read = [unknown(f'memory_{len(self.events)}', 8, place) for place in places]
        return read[0] if count == 1 else z3.Concat(*reversed(read))

    def store(self, address, value, alignment=1):
        self.touch(address, alignment)
        self.events.append((f'store of {value.size() // 8}', [address, simple(value)]))

    def touch(self, address, alignment):
        if alignment > 1:
            name = address.get_id()
            self.aligned[name] = max(alignment, self.aligned.get(name, (1,))[0]), address

    def divide(self, name, a, b):
        self.divisors.append(simple(b))
        return simple(divided(name, a, b))

    def memory_call(self, name, to, other, count):
        """memcpy, memmove or memset. One of no bytes may have any address."""
        self.events.append((name, [simple(to), simple(other), resized(simple(count), POINTER[0])]))


sums = {}


def moved(address, offset):
    """An address and a constant: the same term each time."""
    if not offset:
        return address
    key = address.get_id(), offset
    if key not in sums:
        sums[key] = simple(address + number(offset, address.size())), address
    return sums[key][0]
