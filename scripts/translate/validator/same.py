# SPDX-License-Identifier: MIT
"""For scripts/translate/validate: whether a function of C does what one of LLVM does.

Both are run from each cut (the begin, and each block that more than one way leads to) to the next cuts or the end,
on unknown values. On each way that LLVM's may take, every way that C's may take ends at the same place, has done the
same events with the same words (so memory is the same), and has the same values. It reads no byte, and takes no
alignment for granted, that LLVM's doesn't. By induction over the cuts both do the same for good: each variable of C
that is read from an earlier part has been given the value of LLVM that it is said to be on every way there."""
import z3

from .llvm import Llvm, in_c
from .terms import EFFORT, Refused, Way, moved, simple
from .values import C, to, truth


class Same:
    def __init__(self, function, hints, text, numbers, names, known):
        self.llvm = Llvm(function, names, hints['arrays'])
        self.c = C(text, numbers, hints, self.llvm, known)
        self.function, self.solver = function, z3.Solver()
        self.solver.set('rlimit', EFFORT // 10)
        self.edges, self.taken, self.begin = [], {}, None

    def choose_cuts(self):
        """Of the blocks that more than one way leads to, those that C has at one place. Each loop has to have one."""
        marks, first = self.c.steps.marks, self.function.first
        cuts = [cut for cut in self.function.cuts if cut == first or cut in marks]
        state = {}

        def visit(block):
            state[block] = 'begun'
            for after in self.function.following[block]:
                if after in cuts or state.get(after) == 'done':
                    continue
                if state.get(after) == 'begun':
                    raise Refused(f'no mark in a loop with {after}')
                visit(after)
            state[block] = 'done'
        for cut in cuts:
            if cut not in state:
                visit(cut)
        self.function.cuts = cuts

    def prove(self):
        self.choose_cuts()
        for cut in self.function.cuts:
            if cut != self.function.first and cut not in self.c.steps.marks:
                raise Refused(f'no mark of {cut}')
            self.begin, self.c.taken = cut, set()
            for end, what, way in self.llvm.ways(cut, Way()):
                if end != 'unreachable' and not any(z3.is_false(one) for one in way.conditions):
                    self.one_way(end, what, way)
            self.taken[cut] = set(self.c.taken)
        self.look_at_values()

    # Questions to z3

    def may_be(self, *terms):
        """Whether all may hold, with what has to on the way. What z3 can't tell may be."""
        self.solver.push()
        self.solver.add(*terms)
        answer, solver = self.solver.check(), self.solver
        if answer == z3.unknown and self.alone(terms).check() == z3.unsat:  # whatever holds on the way
            answer = z3.unsat
        if answer == z3.unknown:  # of a solver that isn't asked step by step, which is often quicker
            solver = self.alone(self.solver.assertions())
            answer = solver.check()
        example = solver.model() if answer == z3.sat else None
        self.solver.pop()
        return answer != z3.unsat and Answer(example)

    @staticmethod
    def alone(terms):
        """A solver that is asked whether all of some terms may hold."""
        solver = z3.SolverFor('QF_UFBV')
        solver.set('rlimit', EFFORT)
        solver.add(*terms)
        return solver

    def one_way(self, end, what, way):
        divisors = [simple(divisor != 0) for divisor in way.divisors]
        self.known = {term.get_id(): term for term in way.conditions + divisors}
        self.solver.push()
        self.solver.add(*self.known.values())
        found = False
        for c_end, c_what, line, c_way in self.run(self.first_way(), self.first_step()):
            found = True
            self.solver.push()
            self.solver.add(*c_way.conditions)
            self.compare(end, what, way, c_end, c_what, c_way, line)
            self.solver.pop()
        if not found and self.may_be():
            raise Refused(f'from {self.begin}: C takes no way to {end} {what}')
        self.solver.pop()

    def first_step(self):
        return self.c.steps.marks[self.begin] + 1 if self.begin != self.function.first else 0

    def first_way(self):
        way = Way()
        if self.begin == self.function.first:
            given = [in_c(self.llvm.symbol(name)) for _, name in self.function.arguments]
            if len(given) != len(self.c.steps.parameters):
                raise Refused('another number of parameters')
            for one, term in zip(self.c.steps.parameters, given):
                way.values[one.name] = self.c.typed_parameter(one.name, term)
        return way

    # The ways of C

    def run(self, way, at):
        """To the next cuts: where each ends, and the line of C."""
        seen, steps = set(), self.c.steps
        while True:
            if (at, len(way.events)) in seen:
                raise Refused(f'line {steps.steps[at].line}: a loop without a cut')
            seen.add((at, len(way.events)))
            step = steps.steps[at]
            what, words = step.what, step.words
            if what == 'mark' and words[0] in self.function.cuts and words[0] != self.function.first:
                yield 'cut', words[0], step.line, way
                return
            if what in ('return', 'unreachable'):
                value = self.c.value(way, words[0]) if what == 'return' and words[0] is not None else None
                yield what, value, step.line, way
                return
            if what in ('if', 'switch'):
                ways = list(self.choices(way, step))
                for label, other in ways[1:]:
                    yield from self.run(self.scoped(other, steps.labels[label]), steps.labels[label])
                if not ways:
                    return
                (label, way), at = ways[0], steps.labels[ways[0][0]]
            else:
                at = self.step(way, step, at)
            self.scoped(way, at)

    def step(self, way, step, at):
        if step.what == 'goto':
            return self.c.steps.labels[step.words[0]]
        if step.what == 'set':
            self.c.set(way, step.words[0], self.c.value(way, step.words[1]))
        elif step.what == 'do':
            self.c.statement(way, step.words[0])
        return at + 1

    def scoped(self, way, at):
        """A variable whose block is left has no value any more."""
        scope = self.c.steps.scopes[at]
        for name in way.values:
            if name not in scope:
                way.values[name] = None
        return way

    def choices(self, way, step):
        """Where an `if` or a `switch` may lead."""
        value = self.c.value(way, step.words[0])
        if step.what == 'if':
            condition = truth(value)
            ways = [(step.words[1], condition), (step.words[2], simple(z3.Not(condition)))]
        else:
            by = {}
            for number, label in step.words[1]:
                by.setdefault(self.c.steps.labels[label], (label, []))[1].append(value.term == number)
            every = [one for _, some in by.values() for one in some]
            ways = [(label, simple(z3.Or(*some))) for label, some in by.values()]
            ways.append((step.words[2], simple(z3.Not(z3.Or(*every)))))
        may = [(label, term) for label, term in ways if self.may_hold(way, term)]
        for label, term in may:
            yield label, way.fork(term) if len(may) > 1 else way

    def may_hold(self, way, term):
        known = {**self.known, **{one.get_id(): one for one in way.conditions}}
        if z3.is_true(term) or term.get_id() in known:
            return True
        if z3.is_false(term) or simple(z3.Not(term)).get_id() in known:
            return False
        return bool(self.may_be(term, *way.conditions))

    # Both

    def compare(self, end, what, way, c_end, c_what, c_way, line):
        place = f'from {self.begin} to {end if end != "cut" else what}, line {line}'
        if (end, what if end == 'cut' else None) != (c_end, c_what if end == 'cut' else None):
            self.unless_impossible(f'{place}: C comes to {c_end} {c_what if c_end == "cut" else ""}')
            return
        if len(way.events) != len(c_way.events):
            names = [', '.join(name for name, _ in events) or 'nothing' for events in (c_way.events, way.events)]
            self.unless_impossible(f'{place}: C does {names[0]}, not {names[1]}')
            return
        for (name, words), (c_name, c_words) in zip(way.events, c_way.events):
            if name != c_name or len(words) != len(c_words):
                self.unless_impossible(f'{place}: {c_name}, not {name}')
                return
            for word, c_word in zip(words, c_words):
                self.equal(word, c_word, f'{place}: {name}')
        self.defined(way, c_way, place)
        if end == 'return' and what is not None:
            self.equal_value(what, to(self.c.steps.result, c_what), f'{place}: what is returned')
        elif end == 'return' and c_what is not None:
            raise Refused(f'{place}: C returns a value')
        elif end == 'cut':
            self.equal_variables(what, way, c_way, place)

    def unless_impossible(self, why):
        answer = self.may_be()
        if answer:
            raise Refused(f'{why}{answer.example()}')

    def equal(self, term, c_term, why):
        if term.size() != c_term.size():
            raise Refused(f'{why}: {c_term.size()} bits, not {term.size()}')
        term, c_term = simple(term), simple(c_term)
        if not term.eq(c_term):
            answer = self.may_be(term != c_term)
            if answer:
                raise Refused(f'{why}: {answer.of(c_term)}, not {answer.of(term)}{answer.example()}')

    def equal_value(self, term, value, why):
        self.equal_terms(in_c(term), value, why)

    def equal_terms(self, terms, value, why):
        if isinstance(terms, tuple):
            for one, part in zip(terms, value.term):
                self.equal_terms(one, part, why)
        else:
            self.equal(terms, value.term, why)

    def defined(self, way, c_way, place):
        """What C asks for besides: nothing is read that LLVM's doesn't read, no alignment that it hasn't, and
        nothing is undefined."""
        for name, address in c_way.read.items():
            if name not in way.read:
                self.one_of(address, way.read.values(), f'{place}: C reads a byte that LLVM does not, at')
        for name, (alignment, address) in c_way.aligned.items():
            if way.aligned.get(name, (1,))[0] < alignment:
                others = [other for enough, other in way.aligned.values() if enough >= alignment]
                self.one_of(address, others, f'{place}: C takes for aligned to {alignment}')
        for divisor in c_way.divisors:
            self.holds(divisor != 0, f'{place}: a divisor that is 0')
        for why, condition in c_way.owed:
            self.holds(condition, f'{place}: not {why}')

    def one_of(self, address, others, why):
        """An address is always one of some others."""
        answer = self.may_be(*(address != other for other in others))
        if answer:
            raise Refused(f'{why} {answer.of(address)}{answer.example()}')

    def holds(self, condition, why):
        condition = simple(condition)
        if z3.is_true(condition) or condition.get_id() in self.known:
            return
        answer = self.may_be(z3.Not(condition))
        if answer:
            raise Refused(f'{why}{answer.example()}')

    def equal_variables(self, cut, way, c_way, place):
        """At a cut each variable that was written has the value of LLVM that it is said to be. One that wasn't, though
        that value is new, keeps what it had, or has no value from here on."""
        new, gone = set(), set()
        for name, value in c_way.values.items():
            if value is None or name not in self.c.value_of:
                gone.add(name)
                continue
            wanted, offset = self.c.value_of[name]
            term = in_c(way.values[wanted] if wanted in way.values else self.llvm.symbol(wanted))
            self.equal_terms(moved(term, offset) if offset else term, value, f'{place}: {name}')
            new.add(name)
        for name, (wanted, _) in self.c.value_of.items():
            if name not in c_way.values and wanted in way.values and name in self.c.steps.types:
                if wanted in self.function.phis[cut] and self.keeps(name, wanted, way):
                    continue
                gone.add(name)
        scope = self.c.steps.scopes[self.c.steps.marks[cut]]
        gone |= set(self.c.steps.types) - scope
        self.edges.append((self.begin, cut, new - gone, gone))

    def keeps(self, name, wanted, way):
        """Whether a value that a way brings to a cut is the one that the variable has."""
        new, old = in_c(way.values[wanted]), in_c(self.llvm.symbol(wanted))
        if isinstance(new, tuple):
            return all(a.eq(b) for a, b in zip(new, old))
        if new.eq(old) or not self.may_be(new != old):
            self.c.taken.add(name)
            return True
        return False

    def look_at_values(self):
        """That what is read from before a cut has its value on every way there."""
        every = set(self.c.value_of)
        have = {cut: set(every) for cut in self.function.cuts}
        have[self.function.first] = set()
        is_new = True
        while is_new:
            is_new = False
            for begin, end, new, gone in self.edges:
                there = have[end] & ((have[begin] | new) - gone)
                if there != have[end]:
                    have[end], is_new = there, True
        for cut, taken in self.taken.items():
            for name in sorted(taken - have[cut]):
                raise Refused(f'{name} is read after {cut}, where it may have another value or none')


class Answer:
    """What z3 says may be."""

    def __init__(self, model):
        self.model = model

    def of(self, term):
        return str(self.model.eval(term, model_completion=True)) if self.model else f'maybe {str(term)[:100]}'

    def example(self):
        """Values for which it is so."""
        if self.model is None:
            return ' (z3 does not know)'
        names = [one for one in self.model.decls() if one.arity() == 0]
        given = ', '.join(f'{one.name()} = {self.model[one]}' for one in names[:12])
        return f' where {given}' if given else ''
