# SPDX-License-Identifier: MIT
"""For structure.py: a function's lines as nodes, and nodes as lines."""
import re

from .conditions import bracketed, negated


class Mark:
    """Of a block: its label, or where its code begins."""

    def __init__(self, node):
        self.node, self.block = node, node.block


class Jump:
    def __init__(self, text, notes=''):
        self.text, self.notes = text, notes
        self.kind = re.match(r'\w+', text)[0]
        self.to = text[5:-1] if self.kind == 'goto' else None


class If:
    def __init__(self, condition, notes, yes, no):
        self.condition, self.notes, self.yes, self.no = condition, notes, yes, no

    def parts(self):
        return [self.yes, self.no]


class Loop:
    def __init__(self, body):
        self.body = body

    def parts(self):
        return [self.body]


class Switch:
    def __init__(self, head, arms):
        self.head, self.arms = head, arms

    def parts(self):
        return [body for _, body in self.arms]


JUMP = re.compile(r'((?:goto \w+|return(?: .*?)?|break|continue|UNREACHABLE\(\));)( /\*.*\*/)?$')


def parsed(lines, label_type):
    out, at = [], 0
    while at < len(lines):
        line = lines[at]
        at += 1
        if isinstance(line, tuple):
            out.append(Mark(line))
        elif line.startswith('if ('):
            end = bracketed(line, 3)
            condition, rest = line[4:end], line[end + 2:]
            jump = JUMP.match(rest)
            if jump:
                out.append(If(condition, jump[2] or '', [Jump(jump[1])], []))
            else:
                yes, at, notes = parsed(lines[at], label_type), at + 2, rest[1:]
                out.append(If(condition, notes, yes, []))
            if at < len(lines) and isinstance(lines[at], str) and lines[at].startswith('else'):
                if lines[at] == 'else {':
                    out[-1].no, at = parsed(lines[at + 1], label_type), at + 3
                else:
                    out[-1].no, at = [Jump(lines[at][5:])], at + 1
        elif line == 'for (;;) {':
            out.append(Loop(parsed(lines[at], label_type)))
            at += 2
        elif line.startswith('switch ('):
            out.append(Switch(line, arms_of(lines[at], label_type)))
            at += 2
        elif JUMP.match(line):
            out.append(Jump(*JUMP.match(line).groups(default='')))
        elif line.endswith('{'):
            raise ValueError(line)
        else:
            out.append(line)
    return out


def arms_of(lines, label_type):
    arms, cases, at = [], [], 0
    while at < len(lines):
        line = lines[at]
        at += 1
        found = re.match(r'((?:(?:case \w+|default):(?: /\*.*?\*/)? ?)+)(.*)$', line)
        cases.append(found[1].strip())
        if found[2] == '{':
            arms.append((cases, parsed(lines[at], label_type)))
            cases, at = [], at + 2
        elif found[2]:
            arms.append((cases, [Jump(*JUMP.match(found[2]).groups(default=''))]))
            cases = []
    return arms


def written(nodes, before):
    """The lines of nodes. `before` makes the mark of a loop that asks before its first line."""
    out = []
    for node in nodes:
        if isinstance(node, str):
            out.append(node)
        elif isinstance(node, Mark):
            out.append(node.node)
        elif isinstance(node, Jump):
            out.append(node.text + node.notes)
        elif isinstance(node, Loop):
            out += written_loop(node, before)
        elif isinstance(node, Switch):
            arms = []
            for cases, body in node.arms:
                arms += cases[:-1]
                arms += alone(cases[-1], written(body, before))
            out += [node.head, arms, '}']
        else:
            out += alone(f'if ({node.condition})', written(node.yes, before), node.notes)
            if node.no:
                inner = [one for one in node.no if not (isinstance(one, Mark))]
                if len(inner) == 1 and isinstance(inner[0], If) and len(node.no) == 1:
                    rest = written(node.no, before)
                    out.append(f'else {rest[0]}')
                    out += rest[1:]
                else:
                    out += alone('else', written(node.no, before))
    return out


def written_loop(node, before):
    """As `while` or `do` where the exit is at its begin or its end."""
    body = node.body
    marks = [one for one in body if isinstance(one, Mark)][:1] if body and isinstance(body[0], Mark) else []
    rest = body[len(marks):]
    head = next((at for at, one in enumerate(rest) if is_real(one)), None)
    first = rest[head] if head is not None else None
    if isinstance(first, If) and not any(isinstance(one, Mark) for one in rest[:head]):
        leaves = [getattr(one, 'text', None) for one in first.yes] == ['break;']
        if leaves and not first.no:
            said = [one for one in rest[:head] if isinstance(one, str)]
            note = first.notes
            begun = [before(one.block) for one in marks]
            inner = begun + written(rest[head + 1:], before)
            return [*said, f'while ({negated(first.condition)}) {{{note}', inner, '}']
    last = rest[-1] if rest else None
    if isinstance(last, If) and [getattr(one, 'text', None) for one in last.yes] == ['break;'] and not last.no and \
            not any(goes_on(one) for one in rest) and \
            not set(re.findall(r'\w+', last.condition)) & set(declared(rest)):
        return ['do {', written(body[:-1], before), f'}} while ({negated(last.condition)});{last.notes}']
    return ['for (;;) {', written(body, before), '}']


def goes_on(node):
    """Whether there is a `continue` of the loop that a node is in."""
    if isinstance(node, Jump):
        return node.kind == 'continue'
    return isinstance(node, (If, Switch)) and any(goes_on(one) for part in node.parts() for one in part)


def alone(head, lines, notes=''):
    if len(lines) == 1 and isinstance(lines[0], str) and JUMP.match(lines[0]):
        return [f'{head} {lines[0]}{notes}']
    return [f'{head} {{{notes}', lines, '}']


def is_real(node):
    """Whether a node is code."""
    return not isinstance(node, Mark) and not (isinstance(node, str) and node.startswith('/*'))


DECLARED = re.compile(r'(?:const )?(?:u8 \*|(?:uptr|u\d+|s\d+|_Bool|lanes|struct \w+) )(\w+)(?: =|;)')


def declared(nodes):
    for node in nodes:
        if isinstance(node, str):
            found = DECLARED.match(node)
            if found:
                yield found[1]
        elif hasattr(node, 'parts'):
            for part in node.parts():
                yield from declared(part)
