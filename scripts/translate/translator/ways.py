# SPDX-License-Identifier: MIT
"""For structure.py: where a function's code comes from each place."""
from .nodes import If, Jump, Loop, Mark, Switch, is_real, parsed


class Ways:
    """A function's nodes: where each is, and where the code comes from each place. What changes nodes has `look` see
    them anew."""

    def __init__(self, function, lines, label_type, label, headers):
        self.function, self.label_type, self.label, self.headers = function, label_type, label, headers
        self.nodes = parsed(lines, label_type)
        self.look()

    def look(self):
        self.place, self.where, self.uses, self.up, self.breaks = {}, {}, {}, {}, {}

        def visit(seq, parent, breakable, loop):
            self.up[id(seq)] = (parent, breakable, loop)
            for at, node in enumerate(seq):
                if isinstance(node, str):
                    continue
                self.place[id(node)] = (seq, at)
                if isinstance(node, Mark) and isinstance(node.node, self.label_type):
                    self.where[node.block] = (seq, at)
                elif isinstance(node, Jump):
                    if node.to:
                        self.uses.setdefault(node.to, []).append(node)
                    elif node.kind == 'break':
                        self.breaks.setdefault(id(breakable), []).append(node)
                elif isinstance(node, If):
                    visit(node.yes, node, breakable, loop)
                    visit(node.no, node, breakable, loop)
                elif isinstance(node, Loop):
                    visit(node.body, node, node, node)
                elif isinstance(node, Switch):
                    for _, body in node.arms:
                        visit(body, node, node, loop)
        visit(self.nodes, None, None, None)
        self.by_word = {}
        for block, place in self.where.items():
            self.by_word[self.label(block)] = place
        self.memo = {}

    def target(self, seq, at, seen=()):
        """What is done first from a place: as the place of a node in its list, or the function's end."""
        key = (id(seq), at)
        if key in seen:
            return key
        if key in self.memo:
            return self.memo[key]
        result = self.target_of(seq, at, (*seen, key))
        self.memo[key] = result
        return result

    def target_of(self, seq, at, seen):
        while at < len(seq):
            node = seq[at]
            if isinstance(node, Jump):
                if node.to:
                    return self.target(*self.by_word[node.to], seen)
                if node.kind in ('break', 'continue'):
                    return self.jumped(seq, node.kind, seen)
                return ('jump', node.text)
            if isinstance(node, Loop):
                return self.target(node.body, 0, seen)
            if is_real(node) or self.is_header(node):
                return (id(seq), at)
            at += 1
        return self.after(seq, seen)

    def after(self, seq, seen=()):
        parent, _, _ = self.up[id(seq)]
        if parent is None:
            return 'end'
        if isinstance(parent, Loop):
            return self.target(parent.body, 0, seen)
        outer, at = self.place[id(parent)]
        return self.target(outer, at + 1, seen)

    def is_label(self, node):
        return isinstance(node, Mark) and isinstance(node.node, self.label_type)

    def is_header(self, node):
        return isinstance(node, Mark) and not isinstance(node.node, self.label_type) and node.block in self.headers

    def jumped(self, seq, kind, seen=()):
        _, breakable, loop = self.up[id(seq)]
        if kind == 'break':
            if breakable is None:
                return None
            outer, at = self.place[id(breakable)]
            return self.target(outer, at + 1, seen)
        return self.target(loop.body, 0, seen) if loop is not None else None

    def every(self, seq=None):
        """All lists of nodes, inner ones first."""
        seq = self.nodes if seq is None else seq
        for node in seq:
            if hasattr(node, 'parts'):
                for part in node.parts():
                    yield from self.every(part)
        yield seq

    def is_arm(self, seq):
        return isinstance(self.up[id(seq)][0], Switch)

    def needed(self, nodes):
        """Whether there is a label that is jumped to."""
        for node in nodes:
            if self.is_label(node) and self.uses.get(self.label(node.block)):
                return True
            if hasattr(node, 'parts') and any(self.needed(part) for part in node.parts()):
                return True
        return False

    def ends(self, seq):
        """Whether the code doesn't come to the end of a list."""
        last = next((one for one in reversed(seq) if is_real(one) or self.needed([one])), None)
        if isinstance(last, Jump):
            return True
        if isinstance(last, If):
            return bool(last.no) and self.ends(last.yes) and self.ends(last.no)
        if isinstance(last, Loop):
            return not self.breaks.get(id(last))
        if isinstance(last, Switch):
            return not self.breaks.get(id(last)) and any('default:' in ' '.join(cases) for cases, _ in last.arms) and \
                self.ends(last.arms[-1][1])
        return False

    def simple(self, node):
        """Whether all in the arms is statements, or a return."""
        return all(isinstance(one, str) or isinstance(one, Jump) and one.kind == 'return'
                   for part in node.parts() for one in part)

    def place_of(self, node):
        for seq in self.every():
            for at, one in enumerate(seq):
                if one is node:
                    return seq, at
        raise LookupError

    def inside_of(self, seq, nodes):
        return any(hasattr(node, 'parts') and any(part is seq or self.inside_of(seq, part) for part in node.parts())
                   for node in nodes)

    def context(self, node, loops=False, breaks=False):
        """Whether a node has a `break` or a `continue` of what is around it."""
        if isinstance(node, Jump):
            return node.kind == 'break' and not breaks or node.kind == 'continue' and not loops
        if isinstance(node, Loop):
            return any(self.context(one, True, True) for one in node.body)
        if isinstance(node, Switch):
            return any(self.context(one, loops, True) for part in node.parts() for one in part)
        if isinstance(node, If):
            return any(self.context(one, loops, breaks) for part in node.parts() for one in part)
        return False

    def within(self, node, loop):
        return any(self.within_list(node, part) for part in loop.parts())

    def within_list(self, node, seq):
        return any(one is node or hasattr(one, 'parts') and any(self.within_list(node, part) for part in one.parts())
                   for one in seq)
