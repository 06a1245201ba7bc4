# SPDX-License-Identifier: MIT
"""For scripts/translate/ir2c: gotos of a function's lines that C has other words for are written so. A jump to where
the code comes to anyway is left out; one to the end of a loop or a switch is `break`; what follows an `if` whose arm
jumps over it becomes its `else`; a short end of the function that several ways lead to is written at each; conditions
that lead to one place become one.

Nothing rests on it: scripts/translate/validate proves the function that comes out."""
import re

from .conditions import both, negated
from .nodes import If, Jump, Loop, Mark, Switch, declared, is_real, written
from .ways import Ways

STATEMENTS = 3  # of an end that is written at each place from where it is reached


class Structure(Ways):
    """The rules. Each makes one change and says whether it made any."""

    def __init__(self, function, lines, label_type, label, headers):
        super().__init__(function, lines, label_type, label, headers)
        self.copies = {}

    def empty_marks(self, seq):
        """Takes out the marks of blocks without code, through which all ways go the same."""
        for at in range(len(seq) - 1, -1, -1):
            node = seq[at]
            if hasattr(node, 'parts'):
                for part in node.parts():
                    self.empty_marks(part)
            if isinstance(node, Mark) and not isinstance(node.node, self.label_type) and node.block not in self.headers:
                rest = next((one for one in seq[at + 1:] if is_real(one) or isinstance(one, Mark)), None)
                if rest is None or isinstance(rest, (Mark, Jump)):
                    del seq[at]

    def jumps(self):
        """Jumps to where the code comes anyway, or `break` or `continue` leads, or that lead to a jump."""
        for seq in self.every():
            for at, node in enumerate(seq):
                if not isinstance(node, Jump) or node.kind in ('return', 'UNREACHABLE'):
                    continue
                to = self.target(seq, at)
                is_last = at == len(seq) - 1
                falls = self.target(seq, at + 1) if not (self.is_arm(seq) and is_last) else None
                if falls == to:
                    del seq[at]
                    return True
                if node.to is None:
                    continue
                for kind in ('break', 'continue'):
                    if self.jumped(seq, kind) == to:
                        seq[at] = Jump(f'{kind};', node.notes)
                        return True
                if to == 'end':
                    seq[at] = Jump('return;')
                    return True
                if isinstance(to, tuple) and to[0] == 'jump':
                    seq[at] = Jump(to[1], node.notes)
                    return True
        return False

    def conditions(self):
        """Two ifs that lead to one place, and an if in an if."""
        for seq in self.every():
            for at, node in enumerate(seq):
                if not isinstance(node, If):
                    continue
                if not node.yes and node.no:
                    node.yes, node.no, node.condition = node.no, [], negated(node.condition)
                    return True
                if not any(map(is_real, node.yes)) and not any(map(is_real, node.no)) and not node.yes and not node.no:
                    if 'load' not in node.condition and '[' not in node.condition:
                        del seq[at]
                        return True
                inner = [one for one in node.yes if is_real(one)]
                if not node.no and len(inner) == 1 and isinstance(inner[0], If) and not inner[0].no and \
                        not self.needed(node.yes):
                    made = both(node.condition, '&&', inner[0].condition)
                    if made:
                        notes = node.notes + inner[0].notes
                        seq[at] = If(made, notes.replace(' */ /* ', ', '), inner[0].yes, [])
                        return True
                if node.no or len(node.yes) != 1 or not isinstance(node.yes[0], Jump):
                    continue
                after = next((one for one in range(at + 1, len(seq)) if is_real(seq[one])), None)
                if after is None or self.needed(seq[at + 1:after]):
                    continue
                other = seq[after]
                if isinstance(other, If) and not other.no and len(other.yes) == 1 and \
                        isinstance(other.yes[0], Jump) and other.yes[0].text == node.yes[0].text:
                    made = both(node.condition, '||', other.condition)
                    if made:
                        notes = node.notes + other.notes
                        seq[at:after + 1] = [If(made, notes.replace(' */ /* ', ', '), node.yes, [])]
                        return True
        return False

    def arms(self):
        """What an arm of an `if` jumps over becomes the other arm."""
        for seq in self.every():
            for at, node in enumerate(seq):
                if not isinstance(node, If):
                    continue
                for arm, other in ((node.yes, node.no), (node.no, node.yes)):
                    last = arm[-1] if arm and isinstance(arm[-1], Jump) else None
                    if last is None or not last.to or self.ends(other):
                        continue
                    to = self.target(*self.place[id(last)])
                    end = next((one for one in range(at + 1, len(seq) + 1) if self.target(seq, one) == to), None)
                    if end is None or self.needed(seq[at + 1:end]) or not any(map(is_real, seq[at + 1:end])):
                        continue
                    # up to the label itself, so that marks stay where they are
                    while end > at + 1 and isinstance(seq[end - 1], Mark):
                        end -= 1
                    if end == len(seq) and self.is_arm(seq):
                        # `break;` stays the arm's last line
                        continue
                    other += seq[at + 1:end]
                    del seq[at + 1:end]
                    arm.pop()
                    if arm is node.no and not node.no:
                        pass
                    elif arm is node.yes and not node.yes:
                        node.yes, node.no, node.condition = node.no, [], negated(node.condition)
                    return True
        return False

    def tail(self, seq, at, most):
        """The code from a place to a jump: its nodes, its number of statements, and where it leads. None if it is too
        long, or has a loop, a label that is wanted, or something else."""
        out, count = [], 0
        first = True
        for place in range(at, len(seq)):
            node = seq[place]
            if isinstance(node, Mark):
                if not first and isinstance(node.node, self.label_type) and self.uses.get(self.label(node.block)):
                    return out, count, self.target(seq, place), None
                continue
            first = False
            if isinstance(node, Jump):
                return out, count, self.target(seq, place), node
            if isinstance(node, str):
                count += is_real(node)
                out.append(node)
            elif isinstance(node, If) and self.simple(node):
                count += 1 + sum(map(is_real, node.yes)) + sum(map(is_real, node.no))
                out.append(node)
            else:
                return None
            if count > most:
                return None
        return out, count, self.after(seq), None

    def copy(self, nodes):
        """The same nodes with new names for what they declare, without marks."""
        names = {}
        for word in declared(nodes):
            base, number = re.match(r'(.*?)(?:_(\d+))?$', word).groups()
            number = int(number or 1)
            made = word
            while made in self.function.taken:
                number += 1
                made = f'{base}_{number}'
            self.function.taken.add(made)
            names[word] = made
            self.copies[made] = self.copies.get(word, word)
        pattern = re.compile(r'\b(?:' + '|'.join(map(re.escape, names)) + r')\b') if names else None

        def text(one):
            if not pattern:
                return one
            code, sign, comment = one.partition(' /*')
            return pattern.sub(lambda found: names[found[0]], code) + sign + comment

        def of(node):
            if isinstance(node, str):
                return node if node.startswith('/*') else text(node)
            if isinstance(node, Jump):
                return Jump(text(node.text), node.notes)
            return If(text(node.condition), node.notes, [of(one) for one in node.yes], [of(one) for one in node.no])
        return [of(node) for node in nodes if not isinstance(node, Mark)]

    def unmark(self, seq, at, nodes):
        """Takes the marks of blocks out whose code is now elsewhere too."""
        last = max((seq.index(node) for node in nodes if not isinstance(node, str)), default=at)
        count = sum(isinstance(node, str) for node in nodes)
        place = at
        while place < len(seq) and (count or place <= last):
            node = seq[place]
            if isinstance(node, str):
                count -= 1
            if isinstance(node, Mark) and not isinstance(node.node, self.label_type):
                del seq[place]
                continue
            place += 1

    def moves(self):
        """What one jump alone leads to is written there."""
        for word, (seq, at) in list(self.by_word.items()):
            uses = self.uses.get(word, [])
            if len(uses) != 1:
                continue
            before = at
            while before and not is_real(seq[before - 1]) and not self.needed([seq[before - 1]]):
                before -= 1
            if not before or not is_real(seq[before - 1]) or not self.ends([seq[before - 1]]):
                continue
            # to the end of the list, or the next label that is wanted
            end = at + 1
            while end < len(seq) and not (isinstance(seq[end], Mark) and self.needed([seq[end]])):
                end += 1
            if any(self.needed([one]) for one in seq[at + 1:end]):
                continue
            there, place = self.place[id(uses[0])]
            if self.inside_of(there, seq[at:end]) or any(self.context(one) for one in seq[at:end]):
                continue
            moved = seq[at:end]
            if not self.ends(moved):
                to = self.target(seq, end) if end < len(seq) else self.after(seq)
                falls = self.target(there, place + 1) if not (self.is_arm(there) and place == len(there) - 1) else None
                if falls == to:
                    rest = []
                elif self.jumped(there, 'break') == to:
                    rest = [Jump('break;')]
                elif self.jumped(there, 'continue') == to:
                    rest = [Jump('continue;')]
                else:
                    continue
            else:
                rest = []
            del seq[at:end]
            there, place = self.place_of(uses[0])
            there[place:place + 1] = moved + rest
            return True
        return False

    def ends_at(self, there, place, to, jump):
        """The jump from a place that leads where a tail does, or None."""
        if isinstance(to, tuple) and to[0] == 'jump':
            return [Jump(to[1])]
        if to == 'end':
            return [Jump('return;')]
        falls = self.target(there, place + 1) if not (self.is_arm(there) and place == len(there) - 1) else None
        if falls == to:
            return []
        for kind in ('break', 'continue'):
            if self.jumped(there, kind) == to:
                return [Jump(f'{kind};')]
        return None

    def duplicable(self):
        for word, (seq, at) in self.by_word.items():
            uses = self.uses.get(word, [])
            if not uses:
                continue
            found = self.tail(seq, at, STATEMENTS if len(uses) > 1 else 2 * STATEMENTS)
            if found is None or not found[0]:
                continue
            yield word, seq, at, uses, found

    def loop_ends(self):
        """What follows a loop or a switch, and isn't where another way out of it leads, is written at its breaks."""
        for seq in self.every():
            for at, node in enumerate(seq):
                if not isinstance(node, (Loop, Switch)):
                    continue
                breaks = self.breaks.get(id(node), [])
                found = self.tail(seq, at + 1, STATEMENTS)
                if not breaks or found is None or not found[0] or found[1] * len(breaks) > 3 * STATEMENTS:
                    continue
                nodes, count, to, jump = found
                if jump is not None and jump.kind not in ('goto', 'return'):
                    continue
                last = jump if jump is not None else nodes[-1]
                end = next(place for place in range(len(seq) - 1, at, -1) if seq[place] is last) + 1
                if self.needed(seq[at + 1:end]):
                    continue
                after = self.target(seq, end) if end < len(seq) or not self.is_arm(seq) else None
                if after is None or not any(self.within(use, node) and self.target(*self.place[id(use)]) == after
                                            for uses in self.uses.values() for use in uses):
                    continue
                for one in breaks:
                    there, place = self.place_of(one)
                    there[place:place + 1] = self.copy([*nodes, Jump(jump.text if jump is not None else 'break;')])
                del seq[at + 1:end]
                return True
        return False

    def nexts(self):
        """A jump back to the begin of an outer loop becomes one forward, to its end."""
        for word, (seq, at) in list(self.by_word.items()):
            loop = next((one for one in seq[at:] if not self.is_label(one)), None)
            if not isinstance(loop, Loop):
                continue
            inner = [use for use in self.uses.get(word, []) if self.within(use, loop)]
            if inner:
                made, number = 'next', 1
                while made in self.function.taken:
                    number += 1
                    made = f'next_{number}'
                self.function.taken.add(made)
                for use in inner:
                    use.text, use.to = f'goto {made};', None
                loop.body.append(f'{made}:;')

    def returns(self, types, result):
        """What is put into a variable of the function's type, and returned at once, is returned."""
        for seq in self.every():
            while True:
                at = len(seq) - 1
                if at < 0 or not isinstance(seq[at], Jump) or seq[at].kind != 'return':
                    break
                places = range(at - 1, -1, -1)
                before = next((one for one in places if is_real(seq[one]) or self.needed([seq[one]])), None)
                found = before is not None and isinstance(seq[before], str) and \
                    re.match(r'(?:const )?(?:(\w+) )?(\w+) = (.*);( /\*.*\*/)?$', seq[before])
                if not found or seq[at].text != f'return {found[2]};' or (found[1] or types.get(found[2])) != result:
                    break
                seq[at] = Jump(f'return {found[3]};', found[4] or '')
                del seq[before]

    def dead(self):
        """Code after a jump, up to a label that is wanted."""
        for seq in self.every():
            for at, node in enumerate(seq):
                if not isinstance(node, (Jump, If, Loop, Switch)) or not self.ends([node]):
                    continue
                end = at + 1
                while end < len(seq) and not self.needed([seq[end]]):
                    end += 1
                if any(is_real(one) for one in seq[at + 1:end]):
                    del seq[at + 1:end]
                    return True
        return False

    def ends_rule(self):
        """A short end that several ways lead to is written at each of them from where the same follows."""
        for word, seq, at, uses, (nodes, count, to, jump) in list(self.duplicable()):
            for use in uses:
                there, place = self.place[id(use)]
                if there is seq and place > at:
                    continue
                rest = self.ends_at(there, place, to, jump)
                if rest is None:
                    continue
                made = self.copy([*nodes, *rest])
                there[place:place + 1] = made
                self.unmark(seq, at + len(made) - 1 if there is seq else at, nodes)
                return True
        return False


def structured(function, lines, label_type, label, headers, before, types, result):
    """The lines with gotos as C has them, the blocks whose labels are wanted, and the variable that each copy is of."""
    made = Structure(function, lines, label_type, label, headers)
    made.empty_marks(made.nodes)
    rules = made.jumps, made.dead, made.conditions, made.arms, made.moves, made.ends_rule, made.loop_ends
    made.look()
    while any(rule() for rule in rules):
        made.look()
    made.nexts()
    made.returns(types, result)
    if made.nodes and isinstance(made.nodes[-1], Jump) and made.nodes[-1].text == 'return;':
        made.nodes.pop()
    made.look()
    wanted = {block for block in made.where if made.uses.get(label(block))}
    return written(made.nodes, before), wanted, made.copies
