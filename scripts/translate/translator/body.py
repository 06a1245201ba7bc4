# SPDX-License-Identifier: MIT
"""For scripts/translate/ir2c: the lines of a function, put together from the tree of dominators: what a block dominates
is written inside of it. A line is text, a Label, a Begin, or a list of lines that are farther in."""
import re
from typing import NamedTuple

from .expressions import Expressions, named, remark
from .names import said_of
from .structure import structured
from .text import LABEL, bare, c_type, constant, fail, typed
from .values import negated


PLACES = [False]  # whether comments have the place of each line of the source


class Label(NamedTuple):
    block: str


class Begin(NamedTuple):
    """Where the code of a block begins: at its label, but inside of the loop that begins with it."""
    block: str


class Before(Begin):
    """As Begin, of a loop that asks before its first line."""


def ends(lines):
    """Whether what comes after the lines isn't reached from them."""
    return bool(lines) and isinstance(lines[-1], str) and bool(re.match(r'(?:goto|return|break|continue|UNREACHABLE)\b', lines[-1]))


def one_line(head, lines, notes=''):
    if len(lines) == 1 and isinstance(lines[0], str) and ends(lines):
        return [f'{head} {lines[0]}{notes}']
    return [f'{head} {{{notes}', lines, '}']


class Body(Expressions):
    """The lines of a function."""
    is_started = False  # whether there is the choice by a source's start

    def write(self):
        lines = []
        self.tree(self.flow.order[0], lines, None, [])
        if lines[-1] == 'return;':
            lines.pop()
        for block in self.phis:
            for name, kind, _ in self.phis[block]:
                self.top[self.function.word(name)] = c_type(kind)
        lines, self.wanted, self.copies = structured(self.function, lines, Label, self.label, set(self.flow.loops),
                                                     Before, self.top, c_type(self.function.result))
        return lines

    def tree(self, block, out, follow, around):
        """A block and all that it dominates. `follow` is the block that comes next; `around` has, for each loop and
        switch around, the block after it and, of a loop, that at its begin."""
        joins = sorted((child for child in self.flow.children[block] if child in self.flow.joins), key=self.flow.at.get)
        body = self.flow.loops.get(block)
        out.append(Label(block))
        if body is None:
            out.append(Begin(block))
            self.code(block, out, joins, follow, around)
            return
        inner, after = [join for join in joins if join in body], [join for join in joins if join not in body]
        lines, end = [Begin(block)], after[0] if after else follow
        self.code(block, lines, inner, block, around + [(end, block)])
        if lines and lines[-1] == 'continue;':
            lines.pop()
        out += ['for (;;) {', lines, '}']
        self.one_after_another(after, out, follow, around)

    def one_after_another(self, joins, out, follow, around):
        for join, after in zip(joins, joins[1:] + [follow]):
            self.tree(join, out, after, around)

    def code(self, block, out, joins, follow, around):
        lines, self.block, self.out = self.function.blocks[block], block, out
        for line in lines[:-1]:
            begin = len(out)
            self.line(block, line, out)
            self.say(line, out, begin)
        begin, self.shown = len(out), getattr(lines[-1], 'source', '') or self.shown
        self.end(block, lines[-1], out, joins[0] if joins else follow, around)
        if self.pending:
            fail(f'{self.function.name}: unused {self.pending}')
        self.one_after_another(joins, out, follow, around)

    def say(self, line, out, begin):
        """Says what of the source an instruction is of, if it made lines, and others of the source were before."""
        source = getattr(line, 'source', '')
        if source and source != self.shown and len(out) > begin:
            self.shown = source
            text = self.shown_source(source)
            if text:
                out.insert(begin, f'/* {text} */')

    def shown_source(self, source):
        """A line of the source, with its file if that isn't the function's; with its number too for a debugger."""
        if PLACES[0]:
            return source
        file, _, text = re.match(r'(\S+):(\d+)(?:: (.*))?$', source).groups()
        own = self.function.comment and self.function.comment[0].startswith(f'{file}:')
        return text and (text if own else f'{file.split("/")[-1]}: {text}')

    def end(self, block, line, out, follow, around):
        operation, _, rest = line.partition(' ')
        self.notes = []
        if operation == 'ret':
            out.append('return;' if rest == 'void' else f'return {self.value(*typed(rest)).text};')
        elif operation == 'unreachable':
            out.append('UNREACHABLE();')
        elif operation == 'br' and rest.startswith('label'):
            self.jump(block, self.flow.next[block][0], out, follow, around)
        elif operation == 'br':
            self.branch(block, rest, out, follow, around)
        elif operation == 'switch':
            self.choose(block, rest, named(line), out, follow, around)
        else:
            fail(line)

    def branch(self, block, rest, out, follow, around):
        found = re.match(rf'i1 (.*), {LABEL}, {LABEL}$', rest) or fail(rest)
        asked, first, second = self.value('i1', found[1]), [], []
        notes = remark(self.notes)
        self.jump(block, bare(found[2]), first, follow, around)
        if found[2] == found[3]:
            out += first
            return
        self.jump(block, bare(found[3]), second, follow, around)
        if ends(second) and not ends(first) or not first:
            first, second, asked = second, first, negated(asked)
        if not first:
            return
        out += one_line(f'if ({asked.text})', first, notes)
        if ends(first):
            out += second
        elif second:
            out += one_line('else', second)

    def choose(self, block, rest, names, out, follow, around):
        found = re.match(rf'(i\d+) (\S+), {LABEL} \[(.*)\]$', rest) or fail(rest)
        kind, otherwise, ways = found[1], bare(found[3]), {}
        for value, label in re.findall(rf'i\d+ (-?\d+), {LABEL}', found[4]):
            said = f'case {constant(kind, value).text}:'
            ways.setdefault(bare(label), []).append(said + (f' /* {names[value]} */' if value in names else ''))
        inside, arms = around + [(follow, None)], []
        asked = self.value(kind, found[2]).text
        numbers = set(re.findall(r'i\d+ (-?\d+),', found[4]))
        if said_of(self.function.name, 'started') and {'3', '4'} <= numbers <= set('01234'): # others aren't of starts
            asked, self.is_started = f'KNOWN_START({asked})', True
        text = f'switch ({asked}) {{'
        out.append(text + remark(self.notes))
        for way in dict.fromkeys([*ways, otherwise]):
            lines = []
            self.jump(block, way, lines, None, inside)
            if not ends(lines):
                lines.append('break;')
            cases = ways.get(way, []) if way != otherwise else ['default:']
            if any('/*' in case for case in cases):  # each with its name on a line of its own
                arms += cases[:-1]
                cases = cases[-1:]
            arms += one_line(' '.join(cases), lines)
        out += [arms, '}']

    def jump(self, block, way, out, follow, around):
        self.assign(block, way, out)
        if self.flow.at[way] > self.flow.at[block] and way not in self.flow.joins:
            self.tree(way, out, follow, around)
        elif way == follow:
            pass
        elif around and around[-1][0] == way:
            out.append('break;')
        elif next((begin for _, begin in reversed(around) if begin), None) == way:
            out.append('continue;')
        else:
            self.wanted.add(way)
            out.append(f'goto {self.label(way)};')

    def label(self, block):
        """By the file of the source that it leads to, if the module has notes of that, or else LLVM's name."""
        notes = (getattr(line, 'source', '') for line in self.function.blocks[block])
        place = next(filter(None, (re.match(r'(?:\w+/)*(\w+)\.rs:', note) for note in notes)), None)
        led = place[1] if place else block.split('.')[0]
        return self.function.word(f'to_{led}.{block}')

    def assign(self, block, way, out):
        """The values that a way into a block brings, as if all at once."""
        moves = [(self.function.word(name), self.value(kind, ways[block]).text, kind) for name, kind, ways in self.phis[way]]
        moves = [move for move in moves if move[0] != move[1]]
        names = {self.function.word(name): self.variants[name].get(ways[block]) for name, _, ways in self.phis[way]}

        def reads(text, word):
            return re.search(rf'\b{word}\b', text)
        while moves:
            free = next((move for move in moves if not any(reads(other[1], move[0]) for other in moves if other is not move)), None)
            if free:
                out.append(f'{free[0]} = {free[1]};' + remark([], names[free[0]]))
                moves.remove(free)
                continue
            self.swaps += 1
            word, old = moves[0][0], f'old_{self.swaps}'
            out.append(f'{c_type(moves[0][2])} {old} = {word};')
            moves = [(to, re.sub(rf'\b{word}\b', old, text), kind) for to, text, kind in moves]
