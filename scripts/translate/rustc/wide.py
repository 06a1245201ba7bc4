# SPDX-License-Identifier: MIT
"""For scripts/translate/rustc/names.py: numbers of 65 to 128 bits, of which LLVM makes comparisons of short arrays with
zeros, as two numbers of at most 64 bits. They are in arrays of the function's own; their lower bits begin."""
import re
import sys

from .debug import REGISTER

WIDE = re.compile(r'(?<![\w.%])i(6[5-9]|[7-9]\d|1[01]\d|12[0-8])\b')


def without_wide(lines):
    """The lines of a function without such numbers."""
    made = []
    for line in lines:
        code, at, notes = line.partition(' ;@')
        found = WIDE.search(code) if code.startswith('  ') else None
        made += [one + at + notes for one in split_up(code, int(found[1]))] if found else [line]
    return made


def split_up(code, bits):
    """The instructions that one of such a number becomes: of %r they make %r.low and %r.high."""
    number, above = rf'({REGISTER})', bits - 64
    for pattern, to in [
            (rf'{number} = alloca i{bits}, align \d+$', r'\1 = alloca [{bytes} x i8], align 8'),
            (rf'{number} = load i{bits}, ptr {number}, align \d+$',
             r'\1.low = load i64, ptr \2, align 8|\1.at = getelementptr inbounds nuw i8, ptr \2, i64 8|'
             r'\1.part = load i{above}, ptr \1.at, align 4|\1.high = zext i{above} \1.part to i64'),
            (rf'{number} = icmp (eq|ne) i{bits} {number}, 0$',
             r'\1.any = or i64 \3.low, \3.high|\1 = icmp \2 i64 \1.any, 0'),
            (rf'{number} = trunc (?:nuw |nsw )*i{bits} {number} to i64$', r'\1 = add i64 \2.low, 0'),
            (rf'{number} = trunc (?:nuw |nsw )*i{bits} {number} to (i\d+)$', r'\1 = trunc i64 \2.low to \3')]:
        found = re.match(rf'  {pattern}', code)
        if found:
            return ['  ' + found.expand(one.format(bytes=bits // 8, above=above)) for one in to.split('|')]
    found = re.match(rf'  {number} = lshr (?:exact )?i{bits} {number}, (\d+)$', code)
    if not found or not 0 < int(found[3]) < 64:
        sys.exit(f'rustc/wide.py: {code}')
    made, of, shift = found.groups()
    return [f'  {made}.a = lshr i64 {of}.low, {shift}', f'  {made}.b = shl i64 {of}.high, {64 - int(shift)}',
            f'  {made}.low = or i64 {made}.a, {made}.b', f'  {made}.high = lshr i64 {of}.high, {shift}']
