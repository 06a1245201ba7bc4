# SPDX-License-Identifier: MIT
"""For scripts/translate/validate: the functions of a module of LLVM's text, and what they do from a cut to the next
ones.

What LLVM lets anyone choose, as `undef` and what overflows against a flag, is chosen here: 0, and what the operation
gives without the flag. So nothing is taken for granted but that a divisor isn't 0 and `unreachable` isn't reached."""
import operator
import re

import z3

from translate.translator.text import ELEMENT, GLOBAL, KNOWN, LABEL, REGISTER, TYPE, bare, split, typed
from .terms import (INTRINSICS, POINTER, Refused, Way, chosen, compared, intrinsic, lanes_added, moved, number,
                    of_truth, resized, simple, sum_of_lanes, sum_of_words, widened_signed)

NAMES = {'umin': 'umin', 'umax': 'umax', 'usub.sat': 'usub_sat', 'uadd.sat': 'uadd_sat', 'fshl': 'fshl', 'cttz': 'cttz',
         'ctpop': 'ctpop', 'uadd.with.overflow': 'uadd_over', 'umul.with.overflow': 'umul_over'}
SIGNS = {'eq': '==', 'ne': '!=', 'lt': '<', 'le': '<=', 'gt': '>', 'ge': '>='}
HAS_VECTORS = z3.Bool('HAS_VECTORS')


def bits_of(kind):
    """The bits of a number, of those of a pointer, or of a vector's members together."""
    vector = re.match(r'<(\d+) x i(\d+)>$', kind)
    if vector:
        return int(vector[1]) * int(vector[2])
    if kind == 'ptr':
        return POINTER[0]
    return int(kind[1:]) if re.match(r'i\d+$', kind) else refuse(kind)


types = {}  # the structs that the module has names for


def bytes_of(kind):
    return layout_of(kind)[0]


def layout_of(kind):
    """The bytes and the alignment of a type in memory."""
    array = re.match(r'\[(\d+) x (.*)\]$', kind)
    if array:
        length, alignment = layout_of(array[2])
        return int(array[1]) * length, alignment
    if kind[0] not in '{%':
        length = 8 if kind == 'ptr' else (bits_of(kind) + 7) // 8
        return length, min(length, 8)
    end, most = 0, 1
    for part in split((kind if kind[0] == '{' else types.get(kind) or refuse(kind))[1:-1]):
        length, alignment = layout_of(part)
        if alignment & alignment - 1:
            refuse(f'{part} in {kind}')
        end, most = end + -end % alignment + length, max(most, alignment)
    return end + -end % most, most


def refuse(what):
    raise Refused(f'the validator knows no {what}')


def symbol(name, kind):
    """An unknown value of a type."""
    if kind[0] == '{':
        return tuple(symbol(f'{name}.{i}', part) for i, part in enumerate(split(kind[1:-1])))
    return z3.Bool(name) if kind == 'i1' else z3.BitVec(name, bits_of(kind))


def address_of_data(name):
    return z3.BitVec(f'@{name}', POINTER[0])


def in_c(term):
    """A value as the variable of C has it that is wide enough: with zeros above."""
    if isinstance(term, tuple):
        return tuple(in_c(part) for part in term)
    if z3.is_bool(term):
        return of_truth(term, 8)
    return resized(term, width_in_c(term))


def width_in_c(term):
    """The bits of the variable of C that is wide enough."""
    return next((width for width in (8, 16, 32, 64) if term.size() <= width), term.size())


class Function:
    """A function of the module: its blocks, by name, are lines without metadata and groups of attributes."""

    def __init__(self, head, lines):
        found = re.match(rf'define (.*?)({TYPE}) ({GLOBAL})\((.*)\)[^()]*\{{$', head) or refuse(head)
        self.name, self.result, self.is_export = bare(found[3]), found[2], 'internal' not in found[1]
        self.arguments = [(kind, bare(name)) for kind, name in (typed(one) for one in split(found[4]))]
        self.blocks, block = {}, None
        for line in lines:
            label = re.match(r'(?:"([^"]*)"|([\w.$-]+)):', line)
            if label:
                block = self.blocks.setdefault(label[1] or label[2], [])
            elif line.strip():
                line = line.partition(' ;@')[0]  # without notes of the source
                block = self.blocks.setdefault('begin', []) if block is None else block
                if not re.search(r'@llvm\.(assume|experimental\.noalias)', line):  # which do nothing
                    block.append(re.sub(r', ![\w.]+ !\d+| #\d+$', '', line.strip()))

    def look_around(self):
        """Which blocks are reached, which more than one way leads to, and the type of each value and what makes it."""
        self.following = {block: list(dict.fromkeys(bare(one) for one in re.findall(LABEL, lines[-1])))
                     for block, lines in self.blocks.items()}
        self.first = first = next(iter(self.blocks))
        self.reached, work = {first}, [first]
        while work:
            for after in self.following[work.pop()]:
                if after not in self.reached:
                    self.reached.add(after)
                    work.append(after)
        ways = [after for block in self.reached for after in self.following[block]]
        self.cuts = [block for block in self.blocks if block == first or ways.count(block) > 1]
        self.kinds = dict((name, kind) for kind, name in self.arguments)
        self.made_of, self.phis = {}, {block: [] for block in self.blocks}
        for block in self.reached:
            for line in self.blocks[block]:
                made = re.match(rf'({REGISTER}) = (.*)$', line)
                if made:
                    self.made_of[bare(made[1])] = made[2]
                    self.kinds[bare(made[1])] = kind_of(made[2])
                    if made[2].startswith('phi '):
                        self.phis[block].append(bare(made[1]))


def kind_of(text):
    """The type of what an instruction makes."""
    operation, _, rest = re.sub(r'^(?:tail |musttail |notail )', '', text).partition(' ')
    if operation in ('getelementptr', 'inttoptr', 'alloca'):
        return 'ptr'
    if operation == 'icmp':
        return 'i1'
    if re.search(r' to \S+$', rest) and operation in ('zext', 'trunc', 'sext', 'ptrtoint', 'ptrtoaddr'):
        return rest.rsplit(' ', 1)[1]
    if operation == 'select':
        return typed(split(rest)[1])[0]
    if operation == 'extractvalue':
        whole, _, place = rest.rpartition(', ')
        return split(typed(whole)[0][1:-1])[int(place)]
    found = re.match(rf'{KNOWN}({TYPE})', rest) or refuse(text)
    return found[1]


class Llvm:
    """The ways of one function. `names` has the names in C of functions and data, and `arrays` the array of C for an
    alloca: names alone, which nothing rests on."""

    def __init__(self, function, names, arrays):
        self.function, self.names, self.arrays, self.symbols = function, names, arrays, {}

    def symbol(self, name):
        """A value as it is at a cut: unknown, but for a pointer that is another one and a constant."""
        if name not in self.symbols:
            step = re.match(rf'getelementptr {KNOWN}({ELEMENT}), ptr ({REGISTER}), i64 (-?\d+)$',
                            self.function.made_of.get(name, ''))
            if step:
                self.symbols[name] = moved(self.symbol(bare(step[2])), int(step[3]) * bytes_of(step[1]))
            elif name in self.arrays:
                self.symbols[name] = z3.BitVec(f'array {self.arrays[name]}', POINTER[0])
            else:
                self.symbols[name] = symbol(f'%{name}', self.function.kinds[name])
        return self.symbols[name]

    def value(self, way, kind, text):
        if text[0] == '%':
            name = bare(text)
            return way.values[name] if name in way.values else self.symbol(name)
        if text[0] == '@':
            return address_of_data(bare(text))
        if re.match(r'-?\d+$', text):
            return number(int(text), bits_of(kind))
        if text in ('undef', 'poison', 'null', 'zeroinitializer', 'false', 'true'):
            return nothing(kind) if text != 'true' else z3.BoolVal(True)
        lanes = re.match(r'splat \(i(\d+) (-?\d+)\)$', text)
        if lanes:
            width = int(lanes[1])
            return z3.Concat(*[number(int(lanes[2]), width)] * (bits_of(kind) // width))
        if text[0] == '{':
            return tuple(self.value(way, *typed(part)) for part in split(text[1:-1]))
        return self.constant_address(kind, text)

    def constant_address(self, kind, text):
        found = re.match(rf'getelementptr {KNOWN}\((i\d+), ptr ({GLOBAL}), i64 (-?\d+)\)$', text)
        if found:
            return moved(address_of_data(bare(found[2])), int(found[3]) * bytes_of(found[1]))
        found = re.match(rf'(?:ptrtoint|ptrtoaddr) \(ptr ({GLOBAL}) to i64\)$', text)
        if found:
            return resized(address_of_data(bare(found[1])), 64)
        found = re.match(r'inttoptr \(i64 (\d+) to ptr\)$', text)
        if found:
            return number(int(found[1]), POINTER[0])
        return refuse(f'constant {kind} {text}')

    # Instructions

    def run(self, way, line):
        name, operation, rest = re.match(rf'(?:({REGISTER}) = )?(?:tail |musttail |notail )?(\w+) (.*)$', line).groups()
        if '@llvm.lifetime' in line or operation in ('alloca', 'phi'):
            return
        made = OPERATIONS.get(operation, lambda *_: refuse(f'instruction {line}'))(self, way, operation, rest)
        if name:
            way.values[bare(name)] = tuple(simple(one) for one in made) if isinstance(made, tuple) else simple(made)

    def two(self, way, rest):
        kind, text = typed(re.sub(rf'^{KNOWN}', '', rest))
        return kind, *(self.value(way, kind, one) for one in split(text))

    def binary(self, way, operation, rest):
        kind, a, b = self.two(way, rest)
        if kind == 'i1':
            return {'and': z3.And, 'or': z3.Or, 'xor': z3.Xor}[operation](a, b)
        if operation == 'add' and kind == '<16 x i8>':
            return lanes_added(a, b)
        if kind[0] == '<' and operation != 'and':
            refuse(f'{operation} of {kind}')
        if operation in ('udiv', 'urem'):
            return way.divide(operation, a, b)
        if operation in ('shl', 'lshr', 'ashr') and not z3.is_bv_value(b):
            b = b & number(width_in_c(a) - 1, a.size())  # more is anyone's choice
        if operation == 'or' and re.match(r'disjoint i64 .*, \d+$', rest):
            operation = 'add'  # the same, if no bit is in both, else anyone's choice
        return BINARY[operation](a, b)

    def compare(self, way, _, rest):
        how, rest = re.sub(rf'^{KNOWN}', '', rest).split(' ', 1)
        _, a, b = self.two(way, rest)
        if z3.is_bool(a):
            return {'eq': a == b, 'ne': z3.Xor(a, b)}[how]
        return compared(SIGNS[how[-2:]], a, b, how[0] == 's')

    def cast(self, way, operation, rest):
        found = re.match(rf'{KNOWN}({TYPE}) (.*) to ({TYPE})$', rest) or refuse(rest)
        a, new = self.value(way, found[1], found[2]), found[3]
        if operation == 'trunc' and new == 'i1':
            return z3.Extract(0, 0, a) == 1
        if z3.is_bool(a):
            made = of_truth(a, bits_of(new))
            return made if operation == 'zext' else -made
        return (widened_signed if operation == 'sext' else resized)(a, bits_of(new))

    def freeze(self, way, _, rest):
        return self.value(way, *typed(rest))

    def select(self, way, _, rest):
        (_, condition), (kind, yes), (_, no) = (typed(one) for one in split(rest))
        condition = self.value(way, 'i1', condition)
        yes, no = self.value(way, kind, yes), self.value(way, kind, no)
        if isinstance(yes, tuple):
            return tuple(chosen(condition, *both) for both in zip(yes, no))
        return chosen(condition, yes, no)

    def place(self, way, _, rest):
        element, pointer, index = split(re.sub(rf'^{KNOWN}', '', rest))
        kind, index = typed(index)
        if kind != 'i64':
            refuse(f'index of {kind}, which is widened by its sign')
        base = self.value(way, *typed(pointer))
        if re.match(r'-?\d+$', index):
            return moved(base, int(index) * bytes_of(element))
        return base + resized(self.value(way, kind, index), POINTER[0]) * number(bytes_of(element), POINTER[0])

    def extract(self, way, _, rest):
        whole, _, place = rest.rpartition(', ')
        return self.value(way, *typed(whole))[int(place)]

    def insert(self, way, _, rest):
        whole, part, place = split(rest)
        kind, begun = typed(whole)
        parts = split(kind[1:-1])
        made = [any_part(i, 8) != 0 if one == 'i1' else any_part(i, bits_of(one)) for i, one in enumerate(parts)]
        if begun not in ('poison', 'undef'):
            made = list(self.value(way, kind, begun))
        made[int(place)] = self.value(way, *typed(part))
        return tuple(made)

    def load(self, way, _, rest):
        found = re.match(rf'({TYPE}), (ptr .*), align (\d+)$', rest) or refuse(f'load {rest}')
        kind, address = found[1], self.value(way, *typed(found[2]))
        if kind != 'ptr' and bits_of(kind) % 8:
            refuse(f'load of {kind}')
        return resized(way.load(address, bytes_of(kind), int(found[3])), bits_of(kind))

    def store(self, way, _, rest):
        found = re.match(rf'({TYPE}) (.*), (ptr .*), align (\d+)$', rest) or refuse(f'store {rest}')
        kind, value = found[1], self.value(way, found[1], found[2])
        if kind != 'ptr' and (kind[0] != 'i' or bits_of(kind) % 8):
            refuse(f'store of {kind}')
        way.store(self.value(way, *typed(found[3])), resized(value, 8 * bytes_of(kind)), int(found[4]))

    def call(self, way, _, rest):
        found = re.match(rf'{KNOWN}({TYPE}) ({GLOBAL})\((.*)\)$', rest) or refuse(f'call {rest}')
        kind, name, given = found[1], bare(found[2]), [typed(one) for one in split(found[3])]
        if name.startswith('llvm.'):
            return self.own_function(way, name[5:], given)
        if name.endswith('has_vectors'):
            return HAS_VECTORS
        way.events.append((f'call of {self.names[name]}', [in_c(simple(self.value(way, *one))) for one in given]))
        return None if kind == 'void' else symbol(f'result {len(way.events)}', kind)

    def own_function(self, way, name, given):
        plain = name.split('.')[0]
        if plain in ('memcpy', 'memmove', 'memset'):
            if given[3][1] != 'false':
                refuse(f'volatile {plain}')
            way.memory_call(plain, *(self.value(way, *one) for one in given[:3]))
            return None
        if name == 'vector.reduce.add.v16i8':
            return sum_of_lanes(self.value(way, *given[0]))
        if name == 'vector.reduce.add.v8i64':
            words = self.value(way, *given[0])
            return sum_of_words([z3.Extract(i + 63, i, words) for i in range(0, 512, 64)])
        plain = re.sub(r'\.i\d+$', '', name)
        words = [self.value(way, *one) for one in given if one[0] != 'i1']
        return intrinsic(NAMES.get(plain) or refuse(f'call of {name}'), words)

    # Ways

    def ways(self, block, way):
        """From a block to the next cuts: each as `cut`, `return` or `unreachable`, the block or the value, and what was
        done. Where a cut is reached, the values that the way brings are in `brought`."""
        *lines, last = self.function.blocks[block]
        for line in lines:
            self.run(way, line)
        operation, _, rest = last.partition(' ')
        if operation == 'ret':
            yield 'return', None if rest == 'void' else self.value(way, *typed(rest)), way
        elif operation == 'unreachable':
            yield 'unreachable', None, way
        else:
            for after, condition in self.after(way, last):
                condition = simple(condition)
                if not z3.is_false(condition):
                    yield from self.arrive(block, after, way if z3.is_true(condition) else way.fork(condition))

    def after(self, way, last):
        """The blocks that may come next, each with its condition."""
        if last.startswith('br label'):
            return [(self.function_block(last), z3.BoolVal(True))]
        found = re.match(rf'br i1 (.*), {LABEL}, {LABEL}$', last)
        if found:
            condition, yes, no = self.value(way, 'i1', found[1]), bare(found[2]), bare(found[3])
            return [(yes, condition), (no, z3.Not(condition))] if yes != no else [(yes, z3.BoolVal(True))]
        found = re.match(rf'switch (i\d+) (\S+), {LABEL} \[(.*)\]$', last) or refuse(last)
        asked, otherwise, ways = self.value(way, found[1], found[2]), bare(found[3]), {}
        for value, label in re.findall(rf'i\d+ (-?\d+), {LABEL}', found[4]):
            if bare(label) != otherwise:
                ways.setdefault(bare(label), []).append(asked == number(int(value), asked.size()))
        every = [one for some in ways.values() for one in some]
        return [*((label, z3.Or(*some)) for label, some in ways.items()), (otherwise, z3.Not(z3.Or(*every)))]

    @staticmethod
    def function_block(last):
        return bare(re.match(rf'br {LABEL}$', last)[1])

    def arrive(self, block, after, way):
        brought = {}
        for line in self.function.blocks[after]:
            phi = re.match(rf'({REGISTER}) = phi {KNOWN}({TYPE}) (.*)$', line)
            if phi:
                ways = {bare(label): value for value, label in re.findall(rf'\[ (.*?), ({REGISTER}) \]', phi[3])}
                brought[bare(phi[1])] = self.value(way, phi[2], ways[block])
        way.values.update(brought)
        if after in self.function.cuts:
            yield 'cut', after, way
        else:
            yield from self.ways(after, way)


BINARY = {'add': operator.add, 'sub': operator.sub, 'mul': operator.mul, 'and': operator.and_, 'or': operator.or_,
          'xor': operator.xor, 'shl': operator.lshift, 'lshr': z3.LShR, 'ashr': operator.rshift}
OPERATIONS = {
    **dict.fromkeys(('add', 'sub', 'mul', 'and', 'or', 'xor', 'shl', 'lshr', 'ashr', 'udiv', 'urem'), Llvm.binary),
    **dict.fromkeys(('zext', 'trunc', 'sext', 'inttoptr', 'ptrtoint', 'ptrtoaddr'), Llvm.cast),
    'icmp': Llvm.compare, 'freeze': Llvm.freeze, 'select': Llvm.select, 'getelementptr': Llvm.place, 'load': Llvm.load,
    'store': Llvm.store, 'extractvalue': Llvm.extract, 'insertvalue': Llvm.insert, 'call': Llvm.call,
}


def any_part(place, width):
    """A part of a pair that isn't set yet, on either side."""
    return z3.BitVec(f'any.{place}.{width}', width)


def nothing(kind):
    """What is chosen where LLVM lets anyone choose, and zeros."""
    if kind[0] == '{':
        return tuple(nothing(part) for part in split(kind[1:-1]))
    return z3.BoolVal(False) if kind == 'i1' else number(0, bits_of(kind))


def read_functions(text):
    """The functions of a module, by name."""
    text = re.sub(r'\[\n((?:    .*\n)*)  \]', lambda found: '[' + ' '.join(found[1].split()) + ']', text)
    types.update(re.findall(rf'^({REGISTER}) = type (\{{.*\}})$', text, re.M))
    functions, lines = {}, iter(text.split('\n'))
    for line in lines:
        if line.startswith('define'):
            made = Function(line, [one.split(' ; preds =')[0].rstrip() for one in iter(lambda: next(lines), '}')])
            functions[made.name] = made
    return functions
