# SPDX-License-Identifier: MIT
"""For fills.py: the places of a function, and which of their bytes are live.

A place is an alloca, or what an argument points to, that is reached by no pointer but those made of it in the function
and in those that get it: it is kept out if its address is stored, returned, or made a number. Each byte of a place is a
bit of a number. A byte is live where it may be read before it is written again."""
import re
from typing import NamedTuple

from .text import GLOBAL, KNOWN, REGISTER, TYPE, bare, size, split, typed

ALL = -1    # each byte of a place, however long that is
MANY = 8    # the most offsets that a pointer is followed at
OTHER = ''  # the place of pointers that aren't made of a place; always kept out


def span(offset, length):
    return ALL if offset is None or length is None else ((1 << length) - 1) << offset


def moved(mask, offset):
    """The bytes of a place, of those from an offset in it on."""
    return ALL if mask < 0 or (offset is None and mask) else mask << (offset or 0)


def is_sure(targets):
    """Whether a pointer has one target that is known."""
    return len(targets) == 1 and all(offset is not None for _, offset in targets)


class Line:
    """What a line does with places. Pairs of a place and some of its bytes: in `reads` those that it may read, in
    `sets` that it is sure to write, in `may` that it may write, and `fill` that it sets to zero. `copy` has both places
    of a copy, the offset in each, and its length. `given` has, for each argument of a function of the module, its name,
    which it is, and its targets. The time of the places in `ends` begins or ends."""

    def __init__(self):
        self.reads, self.sets, self.may, self.given, self.ends = [], [], [], [], []
        self.fill = self.copy = None


class Places:
    """The places of a function, and what its lines do. A pointer's targets are pairs of a place and an offset, which is
    None if it isn't known."""

    def __init__(self, function, effects):
        self.function, self.effects = function, effects
        self.arguments = [bare(name) if kind == 'ptr' else None for kind, name in function.arguments]
        self.length = {OTHER: None, **{name: None for name in self.arguments if name}}
        # The memory of callers outside of the module may be reached by anything.
        self.kept = {OTHER, *(name for name in self.arguments if name and function.is_export)}
        for lines in function.blocks.values():
            for line in lines:
                found = re.match(rf'({REGISTER}) = alloca (?:\[(\d+) x i8\]|({TYPE})), align \d+$', line)
                if found:
                    self.length[bare(found[1])] = int(found[2]) if found[2] else size(found[3])
        self.targets = {name: {(name, 0)} for name in self.length if name != OTHER}
        for self.others in (set(), {(OTHER, 0)}):  # then those that are made of what is no place, too
            while self.follow():
                pass
        self.lines = {block: [self.of(line) for line in lines] for block, lines in function.blocks.items()}

    def full(self, place):
        return ALL if self.length[place] is None else (1 << self.length[place]) - 1

    def to(self, text):
        return self.targets.get(bare(text), set()) if text[0] == '%' else set()

    def follow(self):
        """One step to the targets of the pointers that are made of others. Whether any is new."""
        is_new = False
        for lines in self.function.blocks.values():
            for line in lines:
                made = re.match(rf'({REGISTER}) = (getelementptr|phi|select) {KNOWN}(.*)$', line)
                more = made and self.made_of(made[2], made[3])
                if more:
                    old = self.targets.setdefault(bare(made[1]), set())
                    if len(old | more) > MANY:
                        more = {(place, None) for place, _ in old | more}
                    is_new = is_new or not more <= old
                    old |= more
        return is_new

    def made_of(self, operation, text):
        if operation == 'phi':
            values = re.findall(rf'\[ (.*?), {REGISTER} \]', text) if text.startswith('ptr ') else []
            return set().union(*(self.to(value) or self.others for value in values))
        parts = [typed(part) for part in split(text)[1:]]
        if operation == 'select':
            return set().union(*(self.to(value) or self.others for kind, value in parts if kind == 'ptr'))
        step, made = re.match(r'-?\d+$', parts[1][1]), set()
        for place, offset in self.to(parts[0][1]):
            at = None if offset is None or not step else offset + int(step[0]) * size(split(text)[0])
            if at is not None and at < 0:
                self.kept.add(place)
            made.add((place, at))
        return made

    def of(self, line):
        """What a line does. A use of a pointer that isn't known here keeps its place out."""
        does = Line()
        load = re.match(rf'{REGISTER} = load ({TYPE}), ptr ({REGISTER}), align', line)
        store = re.match(rf'store ({TYPE}) (.*), ptr ({REGISTER}), align', line)
        call = re.match(rf'(?:{REGISTER} = )?(?:tail |musttail |notail )?call {KNOWN}{TYPE} ({GLOBAL})\((.*)\)$', line)
        if load:
            length = 64 if load[1] == '<8 x i64>' else size(load[1])
            does.reads = [(place, span(offset, length)) for place, offset in self.to(load[2])]
        elif store:
            self.keep(store[2])
            self.write(does, store[3], size(store[1]))
        elif call:
            self.call(does, bare(call[1]), [typed(argument) for argument in split(call[2])])
        elif not re.match(rf'{REGISTER} = (?:getelementptr|phi|select|icmp|alloca) ', line):
            self.keep(line)
        return does

    def keep(self, text):
        for name in re.findall(REGISTER, text):
            self.kept |= {place for place, _ in self.to(name)}

    def write(self, does, pointer, length):
        targets = self.to(pointer)
        written = does.sets if is_sure(targets) and length is not None else does.may
        written.extend((place, span(offset, length)) for place, offset in targets)

    def call(self, does, name, arguments):
        operation = re.match(r'llvm\.(memset|memcpy|memmove|lifetime)\.', name)
        if not operation:
            for k, (kind, text) in enumerate(arguments):
                is_known = kind == 'ptr' and name in self.effects
                if is_known:
                    does.given.append((name, k, self.to(text)))
                if not is_known or self.effects[name][k].keeps:
                    self.keep(text)
        elif operation[1] == 'lifetime':
            does.ends = [place for place, _ in self.to(arguments[-1][1])]
        else:
            self.memory(does, operation[1], *(text for _, text in arguments[:3]))

    def memory(self, does, operation, to, other, length):
        length = int(length) if length.isdigit() else None
        self.write(does, to, length)
        if operation == 'memset':
            if other == '0' and does.sets:
                does.fill, = does.sets
        elif does.sets and is_sure(self.to(other)):
            does.copy = *min(self.to(to)), *min(self.to(other)), length
        else:
            does.reads = [(place, span(offset, length)) for place, offset in self.to(other)]


class Effects(NamedTuple):
    """What a function does with an argument's place: whether it keeps the address, the bytes that it may read before it
    writes them and that it writes on each way, and whether it writes any."""
    keeps: bool
    reads: int
    sets: int
    writes: bool


def sets_of(places, does):
    """The bytes that a line is sure to write."""
    made = list(does.sets)
    for name, k, targets in does.given:
        if is_sure(targets):
            (place, offset), = targets
            made.append((place, moved(places.effects[name][k].sets, offset)))
    return made


def read_by_copy(places, does, live):
    """Of a copy, the bytes of the place that it is from which are live in the other one after it."""
    place, offset, source, start, length = does.copy
    is_live = ALL if place in places.kept else live.get(place, 0)
    return source, (is_live >> offset & (1 << length) - 1) << start


def step_back(places, does, live):
    """Changes what is live after a line to what is before it."""
    reads = does.reads + ([read_by_copy(places, does, live)] if does.copy else [])
    for place, mask in sets_of(places, does):
        live[place] = live.get(place, 0) & ~mask
    live.update((place, 0) for place in does.ends)
    for name, k, targets in does.given:
        reads += [(place, moved(places.effects[name][k].reads, offset)) for place, offset in targets]
    for place, mask in reads:
        live[place] = live.get(place, 0) | mask & places.full(place)


def live_at_end(places, block, live, returned):
    """The bytes that are live at a block's end. `returned` has those of arguments where the function returns."""
    if places.function.blocks[block][-1].startswith('ret'):
        return dict(returned)
    now = {}
    for after in places.function.flow.next[block]:
        for place, mask in live.get(after, {}).items():
            now[place] = now.get(place, 0) | mask
    return now


def live_at_begins(places, returned):
    """The bytes that are live at each block's begin."""
    live, is_new = {}, True
    while is_new:
        is_new = False
        for block in reversed(places.function.flow.order):
            now = live_at_end(places, block, live, returned)
            for does in reversed(places.lines[block]):
                step_back(places, does, now)
            if live.get(block) != now:
                live[block], is_new = now, True
    return live


def surely_written(places):
    """The bytes that are written on each way to where the function returns."""
    flow, at_end, is_new = places.function.flow, {}, True
    while is_new:
        is_new = False
        for block in flow.order:
            now = common(at_end[way] for way in flow.before[block] if way in at_end)
            for does in places.lines[block]:
                for place, mask in sets_of(places, does):
                    now[place] = now.get(place, 0) | mask
            if at_end.get(block) != now:
                at_end[block], is_new = now, True
    return common(at_end[block] for block in flow.order if places.function.blocks[block][-1].startswith('ret'))


def common(ways):
    """The bytes that are in each of some."""
    ways = list(ways)
    made = dict(ways[0]) if ways else {}
    for way in ways[1:]:
        made = {place: mask & way.get(place, 0) for place, mask in made.items()}
    return made


def effects_of(places):
    """What a function does with the place of each argument. What it copies to one counts as read."""
    arguments = [place for place in places.arguments if place]
    kept, places.kept = places.kept, places.kept | set(arguments)
    reads, sets = live_at_begins(places, {})[places.function.flow.order[0]], surely_written(places)
    places.kept = kept
    written = set()
    for lines in places.lines.values():
        for does in lines:
            written |= {place for place, _ in does.sets + does.may}
            for name, k, targets in does.given:
                written |= {place for place, _ in targets if places.effects[name][k].writes}
    return [Effects(place in kept, reads.get(place, 0), sets.get(place, 0), place in written)
            for place in places.arguments]
