# SPDX-License-Identifier: MIT
"""For scripts/translate/ir2c: what a function's values are in C, and where in memory they are read and written. A value
that is used once, with nothing written in between, is a part of the expression that uses it."""
import re
from typing import NamedTuple

from .flow import Slots
from .header import field
from .text import (ELEMENT, GLOBAL, KNOWN, LABEL, REGISTER, TYPE, Code, bare, bits, c_type, constant, data_names, fail,
                   number, size, split, typed)
from .values import VALUES, Bytes, Known, called

FOLDED = 88  # the longest expression that becomes a part of another
MOST_NOTES = 3  # of what a statement reads


def remark(notes, own=''):
    """The comment of a statement: the member that it writes, and those that it reads."""
    said = list(dict.fromkeys(notes))[:MOST_NOTES]
    said = ([own] if own else []) + ([f'of {", ".join(said)}'] if said and own else said)
    return f' /* {", ".join(said)} */' if said else ''


def named(line):
    """The names of numbers that a note of a phi or a switch has."""
    return dict(one.split('=', 1) for one in getattr(line, 'field', '').split(', ') if '=' in one)


class Pending(NamedTuple):
    """An expression that its one use will take, and the notes of what it is made of."""
    kind: str
    code: Code
    reads: bool
    notes: tuple = ()


class Expressions:
    """The values of a function, and the statements of its instructions."""

    def __init__(self, function, helpers):
        self.function, self.flow, self.helpers = function, function.flow, helpers
        self.slots, self.arrays = Slots(function), set()
        self.pending, self.reads, self.wanted, self.swaps, self.top = {}, False, set(), 0, {}
        self.notes, self.variants = [], {}
        self.defined = {bare(name): block for block, lines in function.blocks.items() for line in lines
                        for name in re.findall(rf'^({REGISTER}) = ', line)}
        self.offsets = self.known_offsets()
        self.phis, self.places, self.live = {}, {}, set()
        self.look_for_uses()
        self.touched, self.touches = self.look_for_memory()
        self.pointers, self.block, self.out, self.shown = {}, None, [], ''
        for _, name in function.arguments:
            function.word(bare(name))

    def uses(self, helper):
        self.helpers.add(helper)
        return helper

    def known_offsets(self):
        """Each pointer that is another one and a constant: that and the constant."""
        found = {}
        pattern = re.compile(rf'({REGISTER}) = getelementptr {KNOWN}({ELEMENT}), ptr ({REGISTER}), i64 (-?\d+)$')
        for block in self.flow.order:
            for line in self.function.blocks[block]:
                step = pattern.match(line)
                if step:
                    found[bare(step[1])] = bare(step[3]), int(step[4]) * size(step[2])

        def root(name):
            offset = 0
            while name in found:
                name, more = found[name]
                offset += more
            return name, offset
        return {name: root(name) for name in found}

    def look_for_uses(self):
        """Where each value is used. Those that nothing is made of in the end are left out."""
        needs, work, users = {}, [], []
        for block in self.flow.order:
            self.phis[block] = []
            for line in self.function.blocks[block]:
                name, text = re.match(rf'(?:({REGISTER}) = )?(.*)$', line).groups()
                name = name and bare(name)
                if '@llvm.lifetime' in text or name in self.offsets:
                    continue
                phi = re.match(rf'phi {KNOWN}({TYPE}) (.*)$', text)
                if phi:
                    self.variants[name] = named(line)
                    ways = {bare(way): value for value, way in re.findall(rf'\[ (.*?), ({REGISTER}) \]', phi[2])}
                    self.phis[block].append((name, phi[1], ways))
                    used = [(self.root(value), way) for way, value in ways.items() if value[0] == '%']
                else:
                    used = [(self.root(value), block) for value in re.findall(REGISTER, re.sub(LABEL, '', text))]
                has_effect = not name or re.match(r'(?:tail )?call', text)
                users.append((name, has_effect, used, bool(phi)))
                needs[name] = [one for one, _ in used]
                work += needs[name] if has_effect else []
        while work:
            name = work.pop()
            if name not in self.live:
                self.live.add(name)
                work += needs.get(name, [])
        for name, has_effect, used, is_phi in users:
            if has_effect or name in self.live:
                for one, block in used:
                    self.places.setdefault(one, []).append((block, is_phi))
        self.phis = {block: [phi for phi in some if phi[0] in self.live] for block, some in self.phis.items()}

    def look_for_memory(self):
        """The lowest offset from each pointer at which each block touches memory, and how often any does."""
        touched, touches = {}, {}
        for block in self.flow.order:
            for line in self.function.blocks[block]:
                if re.search(r'(?:^| = )(?:load|store) ', line):
                    pointers = re.findall(rf', ptr ({REGISTER}), align', line)
                elif re.search(r'@llvm\.mem(?:cpy|move|set)\.', line) and re.search(r', i64 [1-9]\d*, i1 ', line):
                    pointers = re.findall(rf'ptr {KNOWN}({REGISTER}), ', line)
                else:
                    continue
                for pointer in pointers:
                    name, offset = self.offsets.get(bare(pointer), (bare(pointer), 0))
                    touched[block, name] = min(offset, touched.get((block, name), offset))
                    touches[name] = touches.get(name, 0) + 1
        return touched, touches

    def root(self, value):
        name = bare(value)
        return self.offsets.get(name, (name, 0))[0]

    # Operands

    def value(self, kind, text):
        """The expression of an operand."""
        if text[0] == '%':
            name, offset = self.offsets.get(bare(text), (bare(text), 0))
            return self.moved(self.variable(name), offset)
        if text[0] == '@':
            return Code(f'(uptr){data_names[bare(text)]}')
        found = re.match(rf'getelementptr {KNOWN}\((i\d+), ptr ({GLOBAL}), i64 (-?\d+)\)$', text)
        if found:
            return self.moved(Code(f'(uptr){data_names[bare(found[2])]}'), int(found[3]) * size(found[1]))
        found = re.match(rf'(?:ptrtoint|ptrtoaddr) \(ptr ({GLOBAL}) to i64\)$', text)
        if found:
            return Code(f'(u64)(uptr){data_names[bare(found[1])]}')
        found = re.match(r'inttoptr \(i64 (\d+) to ptr\)$', text)
        if found:
            return Code(f'(uptr){found[1]}')
        if kind[0] == '{' and text[0] == '{':
            return Code(f'({c_type(kind)}){{{", ".join(constant(*typed(one)).text for one in split(text[1:-1]))}}}')
        found = re.match(r'-?\d+$|true$|false$|undef$|poison$|null$|zeroinitializer$', text)
        return constant(kind, text) if found else fail(f'{kind} {text}')

    def variable(self, name):
        if name in self.slots.array:
            self.arrays.add(self.slots.array[name][0])
            return Code(f'(uptr){self.slots.array[name][0]}')
        if name in self.pending:
            _, code, reads, notes = self.pending.pop(name)
            self.reads = self.reads or reads
            self.notes += notes
            return code
        return Code(self.function.word(name), True)

    @staticmethod
    def moved(code, offset):
        if not offset:
            return code
        text = code.text if re.match(r'(?:\(uptr\))?\w+$', code.text) else code.part
        return Code(f'{text} {"-" if offset < 0 else "+"} {number(abs(offset))}')

    def place(self, text, length):
        """A pointer to so many bytes and an offset from there: into an array of the function where they lie in it, else at an address."""
        name, offset = self.offsets.get(bare(text), (bare(text), 0)) if text[0] == '%' else (None, 0)
        array, most = self.slots.array.get(name, (None, 0))
        if array and 0 <= offset <= offset + length <= most:
            self.arrays.add(array)
            return array, offset
        if not name:
            return f'AT({self.value("ptr", text).text})', 0
        anchor = self.anchor(name, offset)
        return self.pointer(name, anchor), offset - anchor

    def pointer(self, name, anchor):
        """What points so far from an address: a variable if it is used again, since compilers put accesses together that
        have one pointer."""
        if self.touches.get(name, 0) < 2:
            return f'AT({self.moved(self.variable(name), anchor).text})'
        known = self.pointers.setdefault((name, anchor), [])
        for block, word in known:
            loop = self.flow.loop_of(block)
            if self.flow.dominates(block, self.block) and (loop is None or self.block in loop):
                return word
        word = self.function.word(f'at_{self.function.word(name)}.{anchor}.{len(known)}')
        known.append((self.block, word))
        self.out.append(f'u8 *{word} = AT({self.moved(self.variable(name), anchor).text});')
        return word

    def anchor(self, name, offset):
        """The lowest offset from a pointer at which its memory is touched wherever this block is run. A pointer there is in
        the object, so what compilers know of pointers with offsets from one holds of those from there."""
        block = self.block
        while True:
            offset = min(offset, self.touched.get((block, name), offset))
            above = self.flow.parent[block]
            if above == block:
                return offset
            block = above

    def memory(self, text, length):
        at, offset = self.place(text, length)
        return f'{at} + {offset}' if offset else at

    def byte(self, text):
        at, offset = self.place(text, 1)
        return f'{at}[{offset}]'

    # Lines of a block

    def keep(self, name, kind, code, out, notes=()):
        """Gives a value its variable: here, or at the function's begin if it is used outside of its loop."""
        loop, word = self.flow.loop_of(self.defined[name]), self.function.word(name)
        if loop and any(block not in loop for block, _ in self.places.get(name, [])):
            self.top[word] = c_type(kind)
            out.append(f'{word} = {code.text};' + remark(notes))
        else:
            out.append(f'{c_type(kind)} {word} = {code.text};' + remark(notes))

    def keep_what_reads(self, out):
        """Before memory is written: what was read and isn't used yet."""
        for name in [name for name, pending in self.pending.items() if pending.reads]:
            kind, code, _, notes = self.pending.pop(name)
            self.keep(name, kind, code, out, notes)

    def can_wait(self, name, block, kind, code):
        """Whether an expression can be a part of that of its one use."""
        places = self.places.get(name, [])
        if len(places) != 1 or places[0][0] != block:
            return False
        if places[0][1] and len(self.flow.next[block]) > 1:
            return False  # an assignment of one of several ways
        return kind == '<8 x i64>' or isinstance(code, (Bytes, Known)) or len(code.text) < FOLDED

    def line(self, block, line, out):
        name, operation, rest = re.match(rf'(?:({REGISTER}) = )?(?:tail |musttail |notail )?(\w+) (.*)$', line).groups()
        name = name and bare(name)
        if '@llvm.lifetime' in line or operation in ('phi', 'alloca') or name in self.offsets:
            return
        self.notes, own = [], getattr(line, 'field', '')
        if operation == 'call':
            self.call(block, name, rest, out, own)
        elif operation == 'store':
            text = self.store(rest)
            own, notes = own or self.field(rest), self.notes
            self.keep_what_reads(out)
            out.append(text + remark(notes, own))
        elif operation == 'insertvalue':
            self.insert(name, rest, out)
        elif name in self.live:
            self.reads = False
            kind, code = VALUES.get(operation, lambda *_: fail(line))(self, rest)
            notes = (*self.notes, *([own] if own else []))
            if self.can_wait(name, block, kind, code):
                self.pending[name] = Pending(kind, code, self.reads, notes)
            else:
                self.keep(name, kind, code, out, notes)

    def call(self, block, name, rest, out, own):
        if name and name not in self.live and '@llvm.' in rest:
            return
        self.reads = False
        kind, code, writes = called(self, rest)
        notes = self.notes
        if writes:
            self.keep_what_reads(out)
        if kind == 'void' or name not in self.live:
            out.append(code.text + ';' + remark(notes, own))
        elif not writes and self.can_wait(name, block, kind, code):
            self.pending[name] = Pending(kind, code, self.reads, tuple(notes))
        else:
            self.keep(name, kind, code, out, notes)

    def store(self, rest):
        found = re.match(rf'({TYPE}) (.*), (ptr .*), align (\d+)$', rest) or fail(rest)
        kind, pointer, alignment = found[1], typed(found[3])[1], int(found[4])
        value = self.value(kind, found[2])
        if kind == 'ptr':
            return f'{self.uses("store_address")}({self.memory(pointer, 8)}, {value.text});'
        if bits(kind) == 8:
            return f'{self.byte(pointer)} = {value.text};'
        at = self.memory(pointer, size(kind))
        if bits(kind) in (16, 32, 64):
            suffix = '' if alignment >= size(kind) else 'u'
            return f'{self.uses(f"store{bits(kind)}{suffix}")}({at}, {value.text});'
        return f'{self.uses("store_bytes")}({at}, {value.text}, {size(kind)});' if bits(kind) % 8 == 0 else fail(rest)

    def field(self, rest):
        """Which field of a record that the header has a store writes, if an argument points to that."""
        kind, pointer = re.match(rf'({TYPE}) .*, ptr (\S+), align \d+$', rest).groups()
        name, offset = self.offsets.get(bare(pointer), (bare(pointer), 0))
        record = self.function.records.get(name)
        found = record and field(record, offset, size(kind))
        return found and f'{self.function.own[name]}->{found}'

    def insert(self, name, rest, out):
        whole, part, place = split(rest)
        kind, begun = typed(whole)
        word = self.function.word(name)
        text = self.value(*typed(part)).text
        self.top[word] = c_type(kind)
        if begun not in ('poison', 'undef'):
            out.append(f'{word} = {self.value(kind, begun).text};')
        out.append(f'{word}.{"ab"[int(place)]} = {text};')
