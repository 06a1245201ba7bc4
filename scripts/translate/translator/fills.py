# SPDX-License-Identifier: MIT
"""For scripts/translate/ir2c: fills with zeros later or never, and no copies of what nobody reads.

The module fills each record of a function with zeros where the function begins, and LLVM leaves a fill if on any way
through a function that is called a byte isn't written. Here each byte waits, on each way, until it may be read. What is
written before isn't filled, nor is what isn't live: only bytes that aren't live differ from the module's.

- A byte waits where the module has put zero into it and memory doesn't have that yet. What may read or write it, and
  isn't sure to write it, has it filled before. So has a way between two blocks, if on another way to the second it
  doesn't wait. Where it isn't live it waits no more.
- A function fills what waits at each of its calls: there it waits from the begin on.
- What is live where a function returns is what is live after any of its calls."""
import itertools
import re

from .flow import Flow
from .places import (ALL, Places, common, effects_of, is_sure, live_at_begins, live_at_end, moved, read_by_copy,
                     sets_of, step_back)
from .text import GLOBAL, bare

fresh = (f'fill.{number}' for number in itertools.count(1))


def sink_fills(functions):
    """Changes the functions of a module."""
    order, effects, places = callees_first(functions), {}, {}
    for name in order:
        places[name] = Places(functions[name], effects)
        effects[name] = effects_of(places[name])
    calls = {name: [Calls() for _ in functions[name].arguments] for name in order}
    waiting = [Waiting(places[name], calls) for name in reversed(order)]
    for one in waiting:
        one.write()


def callees_first(functions):
    order, seen = [], set()

    def visit(name):
        if name not in functions or name in seen:
            return
        seen.add(name)
        for lines in functions[name].blocks.values():
            for line in lines:
                for other in re.findall(rf'call [^(@]*({GLOBAL})\(', line):
                    visit(bare(other))
        order.append(name)
    for name in functions:
        visit(name)
    return order


class Calls:
    """What the calls of a function have in common for an argument: the bytes that wait at each, those that are live
    after any, and whether each has a place that nothing else reaches."""

    def __init__(self):
        self.waits, self.live, self.is_own = ALL, 0, True


class Waiting:
    """The bytes of a function's places that wait. Its callers come before it."""

    def __init__(self, places, calls):
        self.places, self.calls, self.function = places, calls, places.function
        self.flow = self.function.flow
        here = dict(zip(places.arguments, calls[self.function.name]))
        here.pop(None, None)
        places.kept |= {place for place, call in here.items() if not call.is_own}
        self.returned = {place: ALL if place in places.kept else call.live for place, call in here.items()}
        self.live = live_at_begins(places, self.returned)
        # Of a function that is called nowhere nothing waits.
        first = {place: max(call.waits, 0) for place, call in here.items() if place not in places.kept}
        self.at_begin, self.on_way = {self.flow.order[0]: first}, {}
        while self.pass_on():
            pass
        self.steps = {block: list(self.through(block)) for block in self.flow.order}
        for block in self.flow.order:
            for step in self.steps[block]:
                for name, k, targets in step.does.given:
                    self.join(step, calls[name][k], name, k, targets)

    def pass_on(self):
        """One step to what waits at each block's begin, and what is filled on the ways there. Whether any is new."""
        is_new = False
        for block in self.flow.order:
            if block not in self.at_begin:
                continue
            *_, last = self.through(block)
            for after in self.flow.next[block]:
                here = {place: mask & self.live[after].get(place, 0) for place, mask in last.waits_after.items()}
                old = self.at_begin.get(after)
                new = common([here if old is None else old, here])
                new = {place: mask for place, mask in new.items() if mask}
                self.on_way[block, after] = {place: mask & ~new.get(place, 0) for place, mask in here.items()}
                if new != old:
                    self.at_begin[after], is_new = new, True
        return is_new

    def through(self, block):
        """A Step for each line of a block."""
        places, waits = self.places, self.at_begin[block]
        live = live_at_end(places, block, self.live, self.returned)
        lives = [dict(live)]
        for does in reversed(places.lines[block]):
            step_back(places, does, live)
            lives.append(dict(live))
        lives.reverse()
        for i, does in enumerate(places.lines[block]):
            is_return = self.function.blocks[block][i].startswith('ret')
            step = Step(places, does, waits, lives[i], lives[i + 1], is_return)
            yield step
            waits = step.waits_after

    def join(self, step, call, name, k, targets):
        """Adds a call."""
        places = self.places
        call.is_own = call.is_own and bool(targets) and step.is_own(targets)
        for place, offset in targets:
            live = ALL if place in places.kept else step.after.get(place, 0)
            call.live |= live >> offset if offset is not None else ALL if live else 0
        call.waits &= step.offered(targets) if step.is_own(targets) and is_sure(targets) else 0

    # The function's lines

    def write(self):
        for block in self.flow.order:
            new = []
            for step, line in zip(self.steps[block], self.function.blocks[block]):
                new += fill_lines(self.needed(step), step.before, step.waits) + shortened(line, step)
            self.function.blocks[block] = new
        for (block, after), masks in self.on_way.items():
            lines = fill_lines(masks, self.live[after], {})
            if lines:
                self.fill_way(block, after, lines)
        self.function.flow = Flow(self.function.name, self.function.blocks)
        self.function.blocks = {block: self.function.blocks[block] for block in self.function.flow.order}

    def needed(self, step):
        """What is filled before a line: without what a function that it calls fills."""
        masks = dict(step.must)
        for name, k, targets in step.does.given:
            if step.is_offered(name, k, targets):
                (place, offset), = targets
                filled = max(self.calls[name][k].waits, 0) << offset if self.calls[name][k].is_own else 0
                masks[place] = masks.get(place, 0) | step.waits.get(place, 0) & step.before.get(place, 0) & ~filled
        return masks

    def fill_way(self, block, after, lines):
        """Fills on the way between two blocks: in a block of its own, if other ways begin at the first."""
        blocks = self.function.blocks
        if len(self.flow.next[block]) == 1:
            blocks[block][-1:-1] = lines
            return
        name = next(fresh)
        blocks[name] = lines + [f'br label {register(after)}']
        there = rf'label {re.escape(register(after))}(?![\w.$-])'
        blocks[block][-1] = re.sub(there, f'label %{name}', blocks[block][-1])
        blocks[after] = [line.replace(f', {register(block)} ]', f', %{name} ]') if ' = phi ' in line else line
                         for line in blocks[after]]


class Step:
    """A line: what waits before it, what is live before and after it, what of that must be filled before it, without
    what functions that it calls may fill, and what waits then."""

    def __init__(self, places, does, waits, before, after, is_return):
        self.places, self.does, self.waits, self.before, self.after = places, does, waits, before, after
        self.must = {place: waits.get(place, 0) & mask for place, mask in after.items()} if is_return else {}
        for place, mask in does.reads + does.may + ([read_by_copy(places, does, after)] if does.copy else []):
            self.fill_before(place, mask)
        for name, k, targets in does.given:
            effects = places.effects[name][k]
            for place, offset in targets:
                if not effects.writes:
                    self.fill_before(place, moved(effects.reads, offset))
                elif not self.is_offered(name, k, targets):
                    self.fill_before(place, before.get(place, 0))
        self.waits_after = self.rest()

    def fill_before(self, place, mask):
        self.must[place] = self.must.get(place, 0) | self.waits.get(place, 0) & mask

    def rest(self):
        places, does = self.places, self.does
        waits = {place: mask & ~self.must.get(place, 0) for place, mask in self.waits.items()}
        for name, k, targets in does.given:
            if places.effects[name][k].writes:
                waits.update((place, 0) for place, _ in targets)
        for place, mask in sets_of(places, does):
            waits[place] = waits.get(place, 0) & ~mask
        if self.filled():
            place, mask = does.fill
            waits[place] = waits.get(place, 0) | mask & places.full(place)
        waits = {place: mask & self.after.get(place, 0) for place, mask in waits.items()}
        return {place: mask for place, mask in waits.items() if mask}

    def filled(self):
        return self.does.fill and self.does.fill[0] not in self.places.kept

    def is_own(self, targets):
        """Whether a function that is called reaches places by this argument alone."""
        others = [place for _, _, some in self.does.given for place in {place for place, _ in some}]
        return all(place not in self.places.kept and others.count(place) == 1 for place, _ in targets)

    def is_offered(self, name, k, targets):
        """Whether a function may fill what waits."""
        return self.places.effects[name][k].writes and is_sure(targets) and self.is_own(targets)

    def offered(self, targets):
        """What a function may fill of a place: what waits, and of an alloca what isn't live."""
        (place, offset), = targets
        free = 0 if self.places.length[place] is None else self.places.full(place) & ~self.before.get(place, 0)
        return (self.waits.get(place, 0) | free) >> offset


# Lines ------------------------------------------------------------------------------------------------------------


def register(name):
    return f'%{name}' if re.match(r'[\w.$-]+$', name) else f'%"{name}"'


def at(place, offset, lines):
    """A pointer into a place, which the lines make."""
    if not offset:
        return register(place)
    lines.append(f'%{next(fresh)} = getelementptr i8, ptr {register(place)}, i64 {offset}')
    return lines[-1].split()[0]


def fill_lines(masks, live, waits):
    """Lines that fill bytes. Those between two that wait too, or aren't live, may be filled with them."""
    lines = []
    for place, mask in sorted(masks.items()):
        free, end = ~live.get(place, 0) | waits.get(place, 0), 0
        while mask >> end:
            begin = end + ((mask >> end) & -(mask >> end)).bit_length() - 1
            end = begin
            while mask >> end & 1 or mask >> end and can_join(mask, free, end):
                end += 1
            to = at(place, begin, lines)
            lines.append(f'call void @llvm.memset.p0.i64(ptr {to}, i8 0, i64 {end - begin}, i1 false)')
    return lines


def can_join(mask, free, end):
    """Whether all bytes up to the mask's next may be filled."""
    while not mask >> end & 1:
        if not free >> end & 1:
            return False
        end += 1
    return True


def shortened(line, step):
    """A line without what it writes where that isn't live; a copy keeps its words of eight bytes."""
    does = step.does
    if step.filled():
        return []
    if not does.sets or does.sets[0][0] in step.places.kept:
        return [line]
    (place, mask), = does.sets
    live = step.after.get(place, 0) & mask
    if not live or not does.copy:
        return [line] if live else []
    _, offset, source, start, length = does.copy
    live >>= offset
    begin, end = (live & -live).bit_length() - 1 & ~7, min(live.bit_length() + 7 & ~7, length)
    if (begin, end) == (0, length):
        return [line]
    name, lines = re.search(r'@llvm\.mem\w+', line)[0], []
    to, other = at(place, offset + begin, lines), at(source, start + begin, lines)
    return lines + [f'call void {name}.p0.p0.i64(ptr {to}, ptr {other}, i64 {end - begin}, i1 false)']
