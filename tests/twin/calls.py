#!/usr/bin/env python3
# SPDX-License-Identifier: MIT
"""calls.py FOLDER: makes in FOLDER what tests/twin is built over: rust, the Rust package with its records laid out as
C's; src/exports.rs, the exports of crates/acpi_c without what Rattle has beyond Rust, as functions of Rust; and
src/calls.rs: the records of include/zacpi.h with the places of their fields, and of each call what each argument is,
the export of the C library, and the function of Rust that has the same words; and calls.c, which makes the calls by
their numbers for child.c."""
import re
import sys
from pathlib import Path

sys.dont_write_bytecode = True
sys.path.insert(0, str(Path(__file__).resolve().parents[2] / 'scripts'))
from erase_programs import copy_packages
from lib.commands import command
from lib.header import SIZES, abi, calls, lists, structs
from lib.rattle import ROOT, erased

EXPORTS = ROOT / 'crates/acpi_c/src/made'
RUST = {1: 'u8', 2: 'u16', 4: 'u32', 8: 'u64'}
NUMBERS = {**SIZES, 'uint64_t': 8, 'size_t': 8}


def exports(erase):
    """The exports, by their files as modules: plain functions, since the names and the ABI of C are the object's."""
    places = {crate: 'zacpi' if module in ('acpi', 'fixed') else f'zacpi::{module}'
              for crate, module in erase.MODULES.items()}
    made = ['//! Made by calls.py of crates/acpi_c.']
    for path in sorted(EXPORTS.glob('*.rt')):
        text = path.read_text().replace('#[unsafe(no_mangle)]\n', '').replace('pub extern "C" fn', 'pub fn')
        text = re.sub(r'(?m)^ *//[/!].*\n', '', erase.placed(erased(text, False)[0], '', places))
        made.append(f'pub mod {path.stem} {{\n{text}}}')
    return '\n'.join(made) + '\n'


class Records:
    """The records of the header, and numbers as records of one field, in the order in which calls need them."""

    def __init__(self):
        # (name, size, alignment, [(name, at, size, item, changed)], [(at, the record that is there)])
        self.all, self.places = [], {}

    def record(self, kind):
        """The index of a record."""
        kind = kind.replace('const ', '').replace('struct ', '').rstrip(' *')
        if kind not in self.places:
            size = NUMBERS.get(kind)
            made = ((RUST[size], size, size, [('', 0, size, -1, False)], []) if size else
                    (kind, *self.laid(structs[kind])))
            self.all.append(made)
            self.places[kind] = len(self.all) - 1
        return self.places[kind]

    def laid(self, fields):
        """The size, the alignment, the numbers and the records of a record. A list, a pointer and its length, is one
        of its numbers."""
        at, most, made, parts = 0, 1, [], []
        listed = {place: item for place, item, *_ in lists(fields)}
        for place, (word, name) in enumerate(fields):
            name, number = re.match(r'(\w+)(?:\[(\d+)\])?', name).groups()
            if place in listed:
                at, most = at + -at % 8, 8
                made.append((name, at, 8, self.record(listed[place]), 'const' not in word))
            if place in listed or place - 1 in listed:
                at += 8
                continue
            _, size, alignment, inner, _ = self.all[self.record(word)]
            at += -at % alignment
            most = max(most, alignment)
            for i in range(int(number or 1)):
                part = f'{name}[{i}]' if number else name
                made += [(f'{part}.{field}'.rstrip('.'), at + start, *rest) for field, start, *rest in inner]
                parts += [(at, self.record(word))] if len(inner) > 1 else []
                at += size
        return at + -at % most, most, made, parts


def passed(records, kind, field, word, is_list):
    """What an argument is, how C declares its words, and how C and Rust are passed them."""
    constant, a, record = kind.startswith('const'), f'a[{word}]', records.record(kind)
    if is_list:
        what = 'InList' if constant else 'OutList' if field == 'out' else 'ChangedList'
        taken = f'{"list" if constant else "list_mut"}({a}, a[{word + 1}])'
        return (what, record, field), ['usize', 'usize'], [a, f'a[{word + 1}]'], taken
    if '*' in kind:
        what = ('Source' if constant and 'zacpi_source' in kind else 'In' if constant else
                'Named' if 'zacpi_signature' in kind else
                'Changed' if 'zacpi_source' in kind or 'platform_lists' in kind else
                'Count' if kind == 'size_t *' else 'Out')
        return (what, record, field), ['usize'], [a], f'{"at" if constant else "at_mut"}({a})'
    if kind.startswith('struct'):
        return ('Letters', record, field), ['u32'], [f'{a} as u32'], f'letters({a} as u32)'
    shown = 'usize' if kind == 'size_t' else RUST[NUMBERS[kind]]
    return ('Number', record, field), [shown], [f'{a} as _'], f'{a} as _'


def table(homes):
    """src/calls.rs."""
    records, declared, rows = Records(), [], []
    for name, fields in calls.items():
        symbol = name.replace('zacpi_', f'zacpi_{abi}_', 1)
        listed = {place for place, *_ in lists(fields)}
        arguments, shown, given, taken = [], [], [], []
        for place, (kind, field) in enumerate(fields):
            if place - 1 in listed:
                continue
            argument, words, to_c, to_rust = passed(records, kind, field, len(shown), place in listed)
            arguments.append('(%s, %d, "%s")' % argument)
            shown, given, taken = shown + words, given + to_c, taken + [to_rust]
        declared.append(f'    fn {symbol}({", ".join(f"_: {kind}" for kind in shown)}) -> u32;')
        rows.append(f'    Call {{ name: "{name}", arguments: &[{", ".join(arguments)}], '
                    f'c: |a| unsafe {{ {symbol}({", ".join(given)}) }}, '
                    f'rust: |a| unsafe {{ crate::exports::{homes[symbol]}::{symbol}({", ".join(taken)}) }} }},')
    shown, field = [], 'Field {{ name: "{}", at: {}, size: {}, item: {}, changed: {} }}'
    for name, size, _, fields, parts in records.all:
        numbers = ', '.join(field.format(*numbers, str(changed).lower()) for *numbers, changed in fields)
        parts = ', '.join(map(str, parts))
        shown.append(f'    Record {{ name: "{name}", size: {size}, fields: &[{numbers}], parts: &[{parts}] }},')
    return '\n'.join(['//! Made by calls.py of include/zacpi.h.',
                      'use crate::words::{Call, Field, Kind::*, Record, at, at_mut, letters, list, list_mut};',
                      'pub static RECORDS: &[Record] = &[', *shown, '];', 'unsafe extern "C" {', *declared, '}',
                      'pub static CALLS: &[Call] = &[', *rows, '];', ''])


def calls_by_number():
    """calls.c. A record that is passed is one of four bytes."""
    made = ['/* Made by calls.py of include/zacpi.h. */', '#include "zacpi.h"', 'struct word { uint32_t number; };',
            'uint32_t make_call(uint64_t index, const uint64_t *words);',
            'uint32_t make_call(uint64_t index, const uint64_t *words) {', '    switch (index) {']
    for number, (name, fields) in enumerate(calls.items()):
        given = []
        for place, (kind, _) in enumerate(fields):
            word = f'words[{place}]'
            if kind.startswith('struct') and '*' not in kind:
                given.append(f'*(const {kind} *)&(const struct word){{(uint32_t){word}}}')
            else:
                given.append(f'(void *)(uintptr_t){word}' if '*' in kind else word)
        symbol = name.replace('zacpi_', f'zacpi_{abi}_', 1)
        made.append(f'    case {number}: return {symbol}({", ".join(given)});')
    return '\n'.join([*made, '    }', '    return UINT32_MAX;', '}', ''])


def main():
    folder = Path(sys.argv[1])
    erase = command('erase')
    (folder / 'src').mkdir(parents=True, exist_ok=True)
    copy_packages(erase, folder)
    library = folder / 'rust/src/lib.rs'
    # The exports name functions by their crates.
    library.write_text(re.sub(r'(?m)^mod (?=c_)', '#[allow(missing_docs)]\npub mod ', library.read_text()))
    (folder / 'src/exports.rs').write_text(exports(erase))
    homes = {name: path.stem for path in EXPORTS.glob('*.rt')
             for name in re.findall(r'fn (zacpi_\w+)', path.read_text())}
    (folder / 'src/calls.rs').write_text(table(homes))
    (folder / 'calls.c').write_text(calls_by_number())


main()
