# SPDX-License-Identifier: MIT
"""The functions of a module for scripts/translate/ir2c: their blocks, loops and dominators, and the arrays of their
allocas."""
import re

from .text import KNOWN, LABEL, REGISTER, RESERVED, TYPE, bare, fail, size, split, typed


class Flow:
    """Of a function's blocks: which follow and precede each, their order, dominators and loops."""

    def __init__(self, name, blocks):
        self.next = {block: list(dict.fromkeys(bare(label) for label in re.findall(LABEL, lines[-1])))
                     for block, lines in blocks.items()}
        self.order = self.reversed_postorder(next(iter(blocks)))
        self.at = {block: i for i, block in enumerate(self.order)}
        self.before = {block: [] for block in self.order}
        for block in self.order:
            for after in self.next[block]:
                self.before[after].append(block)
        self.parent = self.dominators()
        self.children = {block: [] for block in self.order}
        for block in self.order[1:]:
            self.children[self.parent[block]].append(block)
        self.loops = self.found_loops(name)
        # Those that more than one way leads to, without the ways back to a loop's begin.
        self.joins = {block for block in self.order
                      if sum(self.at[before] < self.at[block] for before in self.before[block]) > 1}

    def reversed_postorder(self, root):
        seen, done, work = {root}, [], [(root, iter(self.next[root]))]
        while work:
            block, rest = work[-1]
            after = next((other for other in rest if other not in seen), None)
            if after is None:
                done.append(work.pop()[0])
            else:
                seen.add(after)
                work.append((after, iter(self.next[after])))
        return done[::-1]

    def dominators(self):
        """Each block's nearest dominator (Cooper, Harvey and Kennedy, A Simple, Fast Dominance Algorithm)."""
        parent, changed = {self.order[0]: self.order[0]}, True
        while changed:
            changed = False
            for block in self.order[1:]:
                known = [before for before in self.before[block] if before in parent]
                new = known[0]
                for other in known[1:]:
                    while new != other:
                        if self.at[new] > self.at[other]:
                            new = parent[new]
                        else:
                            other = parent[other]
                if parent.get(block) != new:
                    parent[block], changed = new, True
        return parent

    def dominates(self, above, block):
        while self.at[block] > self.at[above]:
            block = self.parent[block]
        return block == above

    def found_loops(self, name):
        """The blocks of each loop, by the block at its begin."""
        loops = {}
        for block in self.order:
            for begin in self.next[block]:
                if self.at[begin] > self.at[block]:
                    continue
                if not self.dominates(begin, block):
                    fail(f'a loop with two begins in {name}')
                body, work = loops.setdefault(begin, {begin}), [block]
                while work:
                    inner = work.pop()
                    if inner not in body:
                        body.add(inner)
                        work += self.before[inner]
        return loops

    def loop_of(self, block):
        """The blocks of the innermost loop around a block."""
        return min((body for body in self.loops.values() if block in body), key=len, default=None)


class Line(str):
    """An instruction, with what it is of in the source, and where it writes, if the module has notes of them."""
    source = field = ''


def noted(text):
    """The instruction of a line, without metadata and groups of attributes, which tell nothing that C needs."""
    code, _, notes = text.strip().partition(' ;@')
    line = Line(re.sub(r', ![\w.]+ !\d+| #\d+$', '', code))
    line.source, _, line.field = notes.partition(' ;=')
    return line


class Function:
    def __init__(self, name, head, arguments, flags, lines, comment=()):
        self.name, self.is_export, self.comment = name, 'internal' not in head, comment
        self.result = re.search(rf'({TYPE}) $', head)[1]
        self.arguments = [typed(argument) for argument in split(arguments)]
        # Of a sum, which LLVM is kept from copying so that it is decided here, compilers may make many.
        self.is_apart = 'noinline' in flags and not any('has_vectors' in line for line in lines)
        self.blocks = {}
        for line in lines:
            label = re.match(r'("[^"]*"|[\w.$-]+):', line)
            if label:
                block = self.blocks.setdefault(label[1].strip('"'), [])
            elif line.strip():
                line = noted(line)
                if not re.search(r'@llvm\.(assume|experimental\.noalias)', line):
                    block.append(line)
        self.flow = Flow(name, self.blocks)
        self.blocks = {block: self.blocks[block] for block in self.flow.order}
        self.words, self.taken, self.copies, self.calls = {}, set(RESERVED), {}, []
        self.is_inlined = False  # whether compilers make it a part of its callers

    def word(self, name):
        """The variable of a register: LLVM's name as far as it is the source's, and a number if that is taken."""
        if name not in self.words:
            word = re.split(r'[.$-]', name)[0]
            word = re.sub(r'\W', '_', word)
            word = 't' + word if not word or word[0].isdigit() else word
            made = word
            while made in self.taken:
                self.copies[word] = self.copies.get(word, 1) + 1
                made = f'{word}_{self.copies[word]}'
            self.taken.add(made)
            self.words[name] = made
        return self.words[name]


class Slots:
    """The arrays of a function's allocas. C frees none before the function ends, so those of which never two live at once
    share one, if it is worth it."""
    WORTH = 32

    def __init__(self, function):
        self.length, self.alignment, self.array, self.lines = {}, {}, {}, {}
        for lines in function.blocks.values():
            for line in lines:
                found = re.match(rf'({REGISTER}) = alloca (?:\[(\d+) x i8\]|({TYPE})), align (\d+)$', line)
                if found:
                    name = bare(found[1])
                    self.length[name] = int(found[2]) if found[2] else size(found[3])
                    self.alignment[name] = min(int(found[4]), 8)
        lifetimes, clash = self.lifetimes(function)
        groups = []
        for name in sorted(self.length, key=lambda name: (-self.length[name], name)):
            group = None
            if name in lifetimes and self.length[name] >= self.WORTH:
                group = next((one for one in groups if not clash[name] & set(one) and one[0] in lifetimes), None)
            if group is None:
                groups.append([name])
            else:
                group.append(name)
        for group in groups:
            array, length = function.word(group[0]), self.length[group[0]]
            alignment = max(self.alignment[name] for name in group)
            self.array.update({name: (array, length) for name in group})
            aligned = {1: '', 8: 'ALIGNED(EIGHT) '}.get(alignment, f'ALIGNED({alignment}) ')
            # Of a place of no bytes the address alone counts.
            self.lines[array] = f'{aligned}u8 {array}[{length or 1}];'

    def lifetimes(self, function):
        """Which allocas begin to live somewhere else than at the function's begin, and which live with which."""
        flow, marks = function.flow, {}
        for block, lines in function.blocks.items():
            found = [re.search(rf'@llvm\.lifetime\.(start|end)\.p0\(.*ptr.* ({REGISTER})\)', line) for line in lines]
            marks[block] = [(mark[1], bare(mark[2])) for mark in found if mark]
        started = {name for some in marks.values() for what, name in some if what == 'start'}
        live, clash = {block: set() for block in flow.order}, {name: set() for name in self.length}
        changed = True
        while changed:
            changed = False
            for block in flow.order:
                now = set(live[block])
                for what, name in marks[block]:
                    if what == 'end':
                        now.discard(name)
                        continue
                    for other in now - {name}:
                        clash[name].add(other)
                        clash[other].add(name)
                    now.add(name)
                for after in flow.next[block]:
                    if not now <= live[after]:
                        live[after] |= now
                        changed = True
        return started, clash
