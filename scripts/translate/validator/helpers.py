# SPDX-License-Identifier: MIT
"""For scripts/translate/validate: whether the operations of scripts/translate/translator/head.c that are one expression
do what LLVM says of what they stand for. The others (cttz64, umul_over64, udiv64 and modulo_65535 without a division,
lanes, loads, stores and copies) are tried by tests/c/helpers.c alone."""
import re

import z3

from .llvm import in_c
from .terms import EFFORT, INTRINSICS, Refused, Way, rotated
from .values import C, to

ONE_LINE = re.compile(r'^INLINE (u\d+) (\w+?)(8|16|32|64)\((u\d+ \w+(?:, u\d+ \w+)*)\) (\{ return .*; \})$', re.M)
LLVM = {**INTRINSICS, 'fshl': rotated}


def meaning(name, words):
    """What LLVM says. A shift by the width or more is anyone's choice, and here modulo the width."""
    if name == 'ashr':
        return words[0] >> words[1]
    return LLVM[name](*words)


def wrong_helpers(text):
    """Why an operation isn't what it stands for, or None, by its name."""
    for result, name, width, given, body in ONE_LINE.findall(text):
        if name in LLVM:
            yield f'{name}{width}', why_wrong(result, name, int(width), given, body)


def why_wrong(result, name, width, given, body):
    kinds = [one.split() for one in given.split(', ')]
    head = f'LOCAL {result} {name}{width}({given}) {body}'
    try:
        c = C(head, [1] * 9, {'words': {}, 'pointers': []}, None, None)
        words = [z3.BitVec(word, int(kind[1:])) for kind, word in kinds]
        way = Way({word: c.with_type(kind, term) for (kind, word), term in zip(kinds, words)})
        found = to(result, c.value(way, c.steps.steps[0].words[0])).term
    except Refused as error:
        return str(error)
    solver = z3.Solver()
    solver.set('rlimit', EFFORT)
    solver.add(found != in_c(meaning(name, words)))
    if name == 'ashr':
        solver.add(z3.ULT(words[1], width))
    answer = solver.check()
    if answer != z3.unsat:
        return f'it is another for {solver.model()}' if answer == z3.sat else 'z3 does not know'
    for why, condition in way.owed:
        solver = z3.Solver()
        solver.add(z3.Not(condition))
        if name == 'ashr':
            solver.add(z3.ULT(words[1], width))
        if solver.check() != z3.unsat:
            return f'not {why}'
    return None
