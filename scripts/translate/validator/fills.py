# SPDX-License-Identifier: MIT
"""For scripts/translate/validate: whether translator/fills.py may have changed a module as it did, fills with zeros and
copies that nobody reads: both modules run beside each other from each export, over all that they call.

Of each place (an alloca, or what a function was passed) it follows which bytes may differ between both. A byte that
may differ is read by nobody: then both read the same, and so do the same. A place whose address is stored, made a
number or returned, and memory that isn't a place, never differ. A function is looked at anew for each state of what
it is passed. translator/fills.py looks backwards, from who reads; this looks forwards, from what was written, and
shares no code."""
import re
from typing import NamedTuple

from translate.translator.text import GLOBAL, KNOWN, LABEL, REGISTER, TYPE, bare, split, typed
from .llvm import bytes_of
from .terms import Refused

OTHER = ''
MOST = 16  # the targets of a pointer that are told apart
HARMLESS = '(?:alloca|getelementptr|phi|select|icmp|freeze)'  # what doesn't give an address away


class Bytes(NamedTuple):
    """Of a place, as bits of a number: the bytes that may differ, those that are 0 before (in the module) and after (in
    what translator/fills.py made), and those that are anyone's choice before."""
    differ: int = 0
    zero: int = 0
    zero_after: int = 0
    free: int = 0

    def joined(self, other):
        return Bytes(self.differ | other.differ, self.zero & other.zero, self.zero_after & other.zero_after,
                     self.free & other.free)

    def part(self, begin, mask=-1):
        """The bytes from an offset on."""
        return Bytes(*(bits >> begin & mask for bits in self))

    def put(self, begin, mask, other):
        """With other bytes from an offset on."""
        mask <<= begin
        return Bytes(*(old & ~mask | new << begin & mask for old, new in zip(self, other)))


def mask_of(offset, length):
    """So many bytes from an offset on, or all if either isn't known."""
    return -1 if offset is None or length is None else ((1 << length) - 1) << offset


class Line:
    """What a line does: `writes`, `reads`: the pointer and how many bytes (None if that isn't known); `zeros`,
    whether zeros are written; `copy`, both pointers and the length; `call`, a function of the module and its
    arguments."""

    def __init__(self, line):
        self.reads, self.writes, self.zeros, self.copy, self.call, self.begins = [], [], False, None, None, None
        found = re.match(rf'(?:{REGISTER} = )?(?:tail |musttail |notail )?(load|store|call) (.*)$', line)
        if not found:
            return
        if found[1] == 'load':
            kind, pointer = re.match(rf'({TYPE}), ptr (.*), align', found[2]).groups()
            self.reads.append((pointer, bytes_of(kind)))
        elif found[1] == 'store':
            kind, value, pointer = re.match(rf'({TYPE}) (.*), ptr (.*), align', found[2]).groups()
            self.writes.append((pointer, bytes_of(kind)))
            self.zeros = value in ('0', 'null', 'zeroinitializer')
        else:
            self.of_call(*re.match(rf'{KNOWN}{TYPE} ({GLOBAL})\((.*)\)$', found[2]).groups())

    def of_call(self, name, given):
        given = [typed(one) for one in split(given)]
        operation = re.match(r'@llvm\.(memset|memcpy|memmove|lifetime\.start|lifetime\.end)\.', name)
        if not operation:
            self.call = None if name.startswith('@llvm.') else (bare(name), given)
            return
        if operation[1].startswith('lifetime'):
            self.begins = given[-1][1]
            return
        (_, to), (_, other), (_, length) = given[:3]
        length = int(length) if length.isdigit() else None
        self.writes.append((to, length))
        if operation[1] == 'memset':
            self.zeros = other == '0'
        else:
            self.reads.append((other, length))
            self.copy = to, other, length


class Pointers:
    """What each pointer of a function points to: pairs of a place and an offset, which is None if it isn't known;
    and the places that are kept, as what else may reach them."""

    def __init__(self, function, blocks, keeps):
        self.targets = {name: {(name, 0)} for kind, name in function.arguments if kind == 'ptr'}
        self.kept, self.places = {OTHER}, set(self.targets)
        lines = [line for some in blocks.values() for line in some]
        for name in re.findall(rf'^({REGISTER}) = alloca ', '\n'.join(lines), re.M):
            self.targets[bare(name)] = {(bare(name), 0)}
            self.places.add(bare(name))
        while any([self.follow(line) for line in lines]):
            pass
        for line in lines:
            self.keep(line, keeps)

    def of(self, pointer):
        return self.targets.get(bare(pointer), {(OTHER, None)}) if pointer[0] == '%' else {(OTHER, None)}

    def follow(self, line):
        """Whether this line makes more targets known."""
        found = re.match(rf'({REGISTER}) = (getelementptr|phi|select|freeze) {KNOWN}(.*)$', line)
        if not found or not self.is_pointer(found[2], found[3]):
            return False
        old = self.targets.get(bare(found[1]), set())
        new = old | self.made(found[2], found[3])
        if len(new) > MOST:
            new = {(place, None) for place, _ in new}
        if new <= old:
            return False
        self.targets[bare(found[1])] = new
        return True

    @staticmethod
    def is_pointer(operation, text):
        return operation == 'getelementptr' or text.startswith('ptr ') or operation == 'select' and ', ptr ' in text

    def known(self, pointer):
        """The targets so far: none of what is made later."""
        return self.targets.get(bare(pointer), set()) if pointer[0] == '%' else {(OTHER, None)}

    def made(self, operation, text):
        if operation == 'phi':
            return set().union(*(self.known(value) for value in re.findall(rf'\[ (.*?), {REGISTER} \]', text)))
        parts = [typed(part) for part in split(text)[1 if operation == 'getelementptr' else 0:]]
        if operation != 'getelementptr':
            return set().union(*(self.known(value) for kind, value in parts if kind == 'ptr'))
        step = re.match(r'-?\d+$', parts[1][1])
        size = bytes_of(split(text)[0])
        if not step:
            return {(place, None) for place, _ in self.known(parts[0][1])}
        further = int(step[0]) * size
        return {(place, None if offset is None or offset + further < 0 else offset + further)
                for place, offset in self.known(parts[0][1])}

    def keep(self, line, keeps):
        """Adds the places whose address this line gives away."""
        text = line
        does = Line(line)
        if does.call and does.call[0] in keeps:
            for (kind, value), is_kept in zip(does.call[1], keeps[does.call[0]]):
                if kind == 'ptr' and is_kept:
                    self.kept |= {place for place, _ in self.of(value)}
            return
        store = re.match(rf'store {TYPE} (.*), ptr .*, align', line)
        if store:
            text = store[1]
        elif does.reads or does.writes or does.begins or re.match(rf'{REGISTER} = {HARMLESS} ', line):
            return
        for name in re.findall(REGISTER, re.sub(LABEL, '', text)):
            self.kept |= {place for place, _ in self.of(name) if bare(name) in self.targets}


class Fills:
    """Both modules: functions as they are, and the blocks of each after translator/fills.py."""

    def __init__(self, functions, blocks):
        self.functions, self.blocks, self.pointers, self.keeps, self.done = functions, blocks, {}, {}, {}
        for name in self.callees_first():
            made = Pointers(functions[name], {**functions[name].blocks, **blocks[name]}, self.keeps)
            self.pointers[name] = made
            self.keeps[name] = [kind == 'ptr' and place in made.kept for kind, place in functions[name].arguments]

    def callees_first(self):
        order, seen = [], set()

        def visit(name):
            if name in seen or name not in self.blocks:
                return
            seen.add(name)
            for lines in self.functions[name].blocks.values():
                for line in lines:
                    for other in re.findall(rf'call [^(@]*({GLOBAL})\(', line):
                        visit(bare(other))
            order.append(name)
        for name in self.blocks:
            visit(name)
        return order

    def run(self, name, passed):
        """What is so of what a function was passed where it returns, of that where it is called: for each argument
        Bytes, or None of what isn't a place of the caller's alone."""
        key = name, tuple(passed)
        if key not in self.done:
            self.done[key] = Run(self, name, passed).returned
        return self.done[key]


class Run:
    """One function on one state."""

    def __init__(self, fills, name, passed):
        self.fills, self.function, self.pointers = fills, fills.functions[name], fills.pointers[name]
        self.before, self.after = self.function.blocks, fills.blocks[name]
        given = {place: one for (_, place), one in zip(self.function.arguments, passed) if one is not None}
        arguments = {place for kind, place in self.function.arguments if kind == 'ptr'}
        self.shared = self.pointers.kept | (arguments - set(given))
        self.normal = self.without_fills()
        first = next(iter(self.before))
        begun = {place: Bytes(free=-1) for place in self.pointers.places - arguments - self.shared}
        self.at_begin, self.returned, work = {first: {**begun, **given}}, None, [first]
        while work:
            block = work.pop()
            state = dict(self.at_begin[block])
            self.block(block, state)
            if self.after[block][-1].startswith('ret'):
                here = [state.get(place, Bytes()) if place in given else None for _, place in self.function.arguments]
                self.returned = here if self.returned is None else [
                    one and one.joined(other) for one, other in zip(self.returned, here)]
            for label in re.findall(LABEL, self.after[block][-1]):
                if self.arrive(bare(label), state):
                    work.append(bare(label))
        self.returned = self.returned or list(passed)

    def arrive(self, block, state):
        old = self.at_begin.get(block)
        new = state if old is None else {place: old.get(place, Bytes()).joined(state.get(place, Bytes()))
                                         for place in {*old, *state}}
        if new == old:
            return False
        self.at_begin[block] = dict(new)
        return True

    def without_fills(self):
        """The blocks after, with the ways through blocks that only fill led past them."""
        only = {block: bare(re.match(rf'br {LABEL}$', lines[-1])[1])
                for block, lines in self.after.items() if block not in self.before}
        labels = {block: [bare(one) for one in re.findall(LABEL, lines[-1])] for block, lines in self.after.items()}
        ways = {block: [other for other in labels if block in labels[other]] for block in only}
        made = {}
        for block, lines in self.after.items():
            *inner, last = lines
            for one, to in only.items():
                if len(ways[one]) != 1:
                    raise Refused(f'{self.function.name}: {one} is reached from {ways[one]}')
                last = re.sub(rf'label %{re.escape(one)}(?=[, ]|$)', f'label {register(to)}', last)
                inner = [line.replace(f', %{one} ]', f', {register(ways[one][0])} ]') for line in inner]
            made[block] = [*inner, last]
        return made

    def wrong(self, line, why):
        raise Refused(f'%{self.function.name}: {why}: {line}')

    def block(self, block, state):
        """Both sides of a block's lines: the same ones, or one of one side alone."""
        before, after = list(self.before.get(block, [])), list(self.normal[block])
        if not before:
            after.pop()  # the way to the next block
        while before or after:
            if before and after and before[0] == after[0]:
                self.both(Line(before[0]), state, after.pop(0))
                before.pop(0)
            elif after and re.match(r'%fill\.\d+ = getelementptr i8, ptr ', after[0]):
                after.pop(0)
            elif before and Line(before[0]).writes and (not after or after[0] in before):
                self.before_alone(Line(before[0]), state, before.pop(0))
            elif before and Line(before[0]).copy and after and Line(after[0]).copy:
                self.copies(Line(before.pop(0)), Line(after[0]), state, after.pop(0))
            elif after and Line(after[0]).zeros and '@llvm.memset' in after[0]:
                self.after_alone(Line(after[0]), state, after.pop(0))
            elif before and Line(before[0]).writes:
                self.before_alone(Line(before[0]), state, before.pop(0))
            else:
                self.wrong((before or after)[0], 'only one side does this')

    def one_target(self, pointer, line):
        """The place and offset of what one side alone writes: it has to be known."""
        (place, offset), *more = self.pointers.of(pointer)
        if more or offset is None or place in self.shared:
            self.wrong(line, 'one side alone writes what others may read')
        return place, offset

    def after_alone(self, does, state, line):
        (pointer, length), = does.writes
        place, offset = self.one_target(pointer, line)
        old, mask = state.get(place, Bytes()), mask_of(offset, length)
        differ = old.differ & ~mask | mask & ~(old.zero | old.free)
        state[place] = old._replace(differ=differ, zero_after=old.zero_after | mask)

    def before_alone(self, does, state, line):
        (pointer, length), = does.writes
        place, offset = self.one_target(pointer, line)
        if length is None:
            self.wrong(line, 'one side alone writes so many bytes')
        old, mask = state.get(place, Bytes()), mask_of(offset, length)
        zeros = mask if does.zeros else 0
        differ = old.differ & ~mask | mask & ~(old.zero_after & zeros)
        state[place] = old._replace(differ=differ, zero=old.zero & ~mask | zeros, free=old.free & ~mask)

    def copies(self, does, other, state, line):
        """A copy that is shorter after: what isn't copied any more may differ."""
        (to, source, length), (to_after, source_after, shorter) = does.copy, other.copy
        place, offset = self.one_target(to, line)
        (start_place, start), *more = self.pointers.of(source)
        there, at = self.one_target(to_after, line)
        (from_place, from_at), *_ = self.pointers.of(source_after)
        if more or there != place or from_place != start_place or start is None or from_at is None or \
                at - offset != from_at - start or not offset <= at <= at + shorter <= offset + length:
            self.wrong(line, 'another copy')
        self.copied(state, place, offset, start_place, start, length)
        old, kept = state[place], mask_of(at, shorter)
        state[place] = old._replace(differ=old.differ | mask_of(offset, length) & ~kept, zero_after=old.zero_after & (
            kept | ~mask_of(offset, length)))

    def copied(self, state, place, offset, source, start, length):
        if source in self.shared:
            self.unchanged(state, source)
            new = Bytes()
        else:
            new = state.get(source, Bytes()).part(start, (1 << length) - 1)
        state[place] = state.get(place, Bytes()).put(offset, (1 << length) - 1, new)

    def unchanged(self, state, place):
        if state.get(place, Bytes()).differ:
            raise Refused(f'%{self.function.name}: {place}, which others reach, may differ')

    def both(self, does, state, line):
        if does.begins:
            for place, _ in self.pointers.of(does.begins):
                if place not in self.shared:
                    state[place] = Bytes(free=-1)
            return
        if does.call:
            self.called(does.call, state, line)
            return
        if does.copy and self.is_sure(does):
            (place, offset), = self.pointers.of(does.copy[0])
            (source, start), = self.pointers.of(does.copy[1])
            self.copied(state, place, offset, source, start or 0, does.copy[2])
            return
        for pointer, length in does.reads:
            for place, offset in self.pointers.of(pointer):
                self.read(state, place, offset, length, line)
        for pointer, length in does.writes:
            self.written(state, self.pointers.of(pointer), length, does.zeros)

    def is_sure(self, does):
        to, source = self.pointers.of(does.copy[0]), self.pointers.of(does.copy[1])
        return len(to) == len(source) == 1 and does.copy[2] is not None and all(
            offset is not None or place in self.shared for place, offset in [*to, *source]) and not any(
                place in self.shared for place, _ in to)

    def read(self, state, place, offset, length, line):
        mask = mask_of(offset, length)
        if place not in self.shared and state.get(place, Bytes()).differ & mask:
            self.wrong(line, f'it reads bytes of {place} that differ')

    def written(self, state, targets, length, zeros):
        """Both write the same."""
        (place, offset), *more = targets
        if not more and offset is not None and length is not None and place not in self.shared:
            mask, old = mask_of(offset, length), state.get(place, Bytes())
            state[place] = Bytes(old.differ & ~mask, *(
                bits & ~mask | (mask if zeros else 0) for bits in (old.zero, old.zero_after)), old.free & ~mask)
            return
        for place, offset in targets:
            if place not in self.shared:
                mask, old = mask_of(offset, length), state.get(place, Bytes())
                state[place] = Bytes(old.differ, old.zero & ~mask, old.zero_after & ~mask, old.free & ~mask)

    def called(self, call, state, line):
        """A function gets the state of a place that one argument alone points into, at a place that is known."""
        name, given = call
        targets = [self.pointers.of(value) if kind == 'ptr' else set() for kind, value in given]
        every = [place for some in targets for place in {place for place, _ in some}]
        passed, is_known = [], name in self.fills.blocks
        for k, some in enumerate(targets):
            (place, offset), *more = some or {(OTHER, None)}
            own = is_known and not more and offset is not None and place not in self.shared
            own = own and every.count(place) == 1 and not self.fills.keeps[name][k]
            if not own:
                for place, offset in some:
                    if place not in self.shared and state.get(place, Bytes()).differ:
                        self.wrong(line, f'it is passed {place}, which differs')
                self.written(state, some, None, False) if some else None
            passed.append(state.get(place, Bytes()).part(offset) if own else None)
        if is_known:
            for some, one in zip(targets, self.fills.run(name, passed)):
                if one is not None:
                    (place, offset), = some
                    state[place] = state.get(place, Bytes()).put(offset, -1, one)


def register(name):
    return f'%{name}' if re.match(r'[\w.$-]+$', name) else f'%"{name}"'


def check_fills(functions, blocks, exports):
    """Raises Refused unless the blocks do what the functions do, from each export."""
    fills = Fills(functions, blocks)
    for name in exports:
        fills.run(name, [None] * len(functions[name].arguments))
