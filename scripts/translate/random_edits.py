# SPDX-License-Identifier: MIT
"""For scripts/translate/random_edits: wrong edits of single lines of the C that scripts/translate/ir2c makes, and one
file that has many of them, of which a number chooses one when it runs. An edit is of one of eleven kinds: an operator,
a constant by one, an offset by one, the width of a load, a store or a cast, a sign, a condition negated, the ends of a
choice or a switch swapped, or a statement that is left out."""
import random
import re
from typing import NamedTuple

OPERATORS = {'==': ['!='], '!=': ['=='], '<': ['<=', '>='], '<=': ['<', '>'], '>': ['>=', '<='], '>=': ['>', '<'],
             '+': ['-', '|'], '-': ['+'], '*': ['+'], '&': ['|', '^'], '|': ['&', '^'], '^': ['|', '&'],
             '<<': ['>>'], '>>': ['<<'], '/': ['%']}
LOADS = {'16': ['32'], '32': ['16', '64'], '64': ['32']}
STORES = {'16': '32', '32': '16', '64': '32'}
CASTS = {'8': '16', '16': '8', '32': '16', '64': '32'}
TYPES = 'u8|u16|u32|u64|uptr|_Bool'
FRONT = 'static const u'  # with which the first line after the front begins: scripts/check/edits_c tries that
CHOSEN = 'IS_CHOSEN(@)'


class Edit(NamedTuple):
    line: int  # from 0
    kind: str
    old: str
    new: str  # the line as it would stand there
    text: str  # the line with both, and CHOSEN

    def __str__(self):
        return f'{self.line + 1}: {self.kind}: {self.old} => {self.new}'


def of_operators(text):
    for found in re.finditer(r' (==|!=|<=|>=|<<|>>|<|>|\+|-|\*|&|\||\^|/) ', text):
        for other in OPERATORS[found[1]]:
            yield 'operator', text[:found.start(1)] + other + text[found.end(1):]


def of_numbers(text):
    for found in re.finditer(r'(?<![\w.])(0x[0-9a-f]+|\d+)(u|ull)?(?![\w])', text):
        number = int(found[1], 0)
        is_offset = text[found.end():found.end() + 1] in (')', ']') and \
            re.search(r'(?:at_\w+|\bAT\()[^()]*[+\[] ?$', text[:found.start()])
        for other in sorted({number + 1, number - 1}) if number else [1]:
            shown = (str(other) if number < 4096 else hex(other)) + (found[2] or '')
            yield 'offset' if is_offset else 'constant', text[:found.start()] + shown + text[found.end():]


def of_widths(text):
    for found in re.finditer(r'\bload(16|32|64)(u?)\(', text):
        for width in LOADS[found[1]]:
            yield 'load width', f'{text[:found.start()]}load{width}{found[2]}({text[found.end():]}'
    for found in re.finditer(r'\(u(8|16|32|64)\)', text):
        yield 'cast width', f'{text[:found.start()]}(u{CASTS[found[1]]}){text[found.end():]}'
    for found in re.finditer(r'\(s(8|16|32|64)\)', text):
        yield 'sign', f'{text[:found.start()]}(u{found[1]}){text[found.end():]}'


def of_value(text):
    """Each kind and other text of a value."""
    yield from of_operators(text)
    yield from of_numbers(text)
    yield from of_widths(text)
    found = re.match(r'(.*) \? (.*) : (.*)$', text)
    if found and text.count('?') == 1 and not re.search(r'[(][^()]*$', found[1]):
        yield 'choice swapped', f'{found[1]} ? {found[3]} : {found[2]}'


def of_assignment(line, types):
    """A number or a place that is declared with its value, or a variable that is set."""
    found = re.match(rf'({TYPES}) (\w+) = (.*);$', line)
    if found:
        kept, to = found[1], f'{found[1]} {found[2]} ='
        types[found[2]] = kept
        for kind, other in of_value(found[3]):
            yield kind, f'{to} {other};', f'{to} {CHOSEN} ? ({kept})({other}) : ({kept})({found[3]});'
        return
    found = re.match(r'u8 \*(\w+) = (.*);$', line)
    if found:
        to = f'u8 *{found[1]} ='
        for _, other in of_value(found[2]):
            yield 'offset', f'{to} {other};', f'{to} {CHOSEN} ? ({other}) : ({found[2]});'
        return
    found = re.match(r'(\w+) = (.*);$', line)
    if found and found[1] in types:
        kept, to = types[found[1]], f'{found[1]} ='
        for kind, other in of_value(found[2]):
            yield kind, f'{to} {other};', f'{to} {CHOSEN} ? ({kept})({other}) : ({kept})({found[2]});'
        yield 'left out', ';', f'if (!{CHOSEN}) {line}'


def of_condition(line, _):
    found = re.match(r'if \((.*)\) (\{|(?:goto|break|continue|return).*;)$', line)
    if found:
        negated = ('negated', f'!({found[1]})')
        for kind, other in [*of_value(found[1]), negated]:
            yield kind, f'if ({other}) {found[2]}', f'if ({CHOSEN} ? ({other}) : ({found[1]})) {found[2]}'
        if found[2] != '{':
            yield 'left out', ';', f'if (!{CHOSEN} && ({found[1]})) {found[2]}'
    found = re.match(r'switch \((.*)\) \{$', line)
    if found:
        for kind, other in [*of_value(found[1]), ('switch by one', f'({found[1]}) + 1')]:
            both = f'{CHOSEN} ? (u64)({other}) : (u64)({found[1]})'
            yield kind, f'switch ({other}) {{', f'switch ({both}) {{'


def of_effect(line, _):
    """What is stored, called or returned."""
    found = re.match(r'((?:AT\(.*\)|\w+)\[\d+\] =) (.*);$', line)
    if found:
        for kind, other in of_value(found[2]):
            yield kind, f'{found[1]} {other};', f'{found[1]} {CHOSEN} ? (u8)({other}) : (u8)({found[2]});'
    called = re.match(r'(?!if|switch|return|MARK|UNREACHABLE|while|for)\w+\(.*\);$', line)
    if called:
        for kind, other in of_value(line[:-1]):
            yield kind, f'{other};', f'if ({CHOSEN}) {other}; else {line}'
    stored = re.match(r'store(16|32|64)(u?\(.*;)$', line)
    if stored:
        other = f'store{STORES[stored[1]]}{stored[2]}'
        yield 'store width', other, f'if ({CHOSEN}) {other} else {line}'
    if found or called:
        yield 'left out', ';', f'if (!{CHOSEN}) {line}'
    found = re.match(r'return (.+);$', line)
    if found:
        for kind, other in of_value(found[1]):
            yield kind, f'return {other};', f'return {CHOSEN} ? ({other}) : ({found[1]});'


def edits_of(lines):
    """All edits of the functions."""
    first = next(place for place, line in enumerate(lines) if line.startswith(FRONT))
    made, types = [], {}
    for place in range(first, len(lines)):
        line = lines[place].strip()
        if not lines[place].startswith(' '):
            types = {}
        declared = re.match(rf'({TYPES}) ([\w, ]+);$', line)
        if declared:
            types.update(dict.fromkeys(declared[2].split(', '), declared[1]))
            continue
        for of in (of_assignment, of_condition, of_effect):
            made += [Edit(place, kind, line, new, text) for kind, new, text in of(line, types)]
    return made


def choose(edits, count, seed):
    """So many of them at random, of at most one of each line, and of each kind alike often."""
    chance, kinds = random.Random(seed), {}
    for edit in edits:
        kinds.setdefault(edit.kind, []).append(edit)
    for kind in sorted(kinds):
        chance.shuffle(kinds[kind])
    chosen, lines = [], set()
    while len(chosen) < count and any(kinds.values()):
        for kind in sorted(kinds):
            while kinds[kind] and len(chosen) < count:
                edit = kinds[kind].pop()
                if edit.line not in lines:
                    lines.add(edit.line)
                    chosen.append(edit)
                    break
    return chosen


# Number 0 is the file as it is. The file that EDITS_REACHED names gets a byte for each edit, which becomes 1 when
# anything comes to its line.
DECLARED = '''extern int chosen_edit;
extern unsigned char *reached_edits;
#define IS_CHOSEN(n) (reached_edits[n] = 1, chosen_edit == (n))
'''
CHOOSES = '''#include <fcntl.h>
#include <stdlib.h>
#include <sys/mman.h>
#include <unistd.h>
static unsigned char for_none[MOST + 1];
int chosen_edit;
unsigned char *reached_edits = for_none;
__attribute__((__constructor__)) static void choose(void) {
    const char *text = getenv("EDIT"), *name = getenv("EDITS_REACHED");
    int file;
    chosen_edit = text ? atoi(text) : 0;
    if (!name) return;
    file = open(name, O_RDWR | O_CREAT, 0600);
    if (file < 0 || ftruncate(file, sizeof for_none)) abort();
    reached_edits = mmap(NULL, sizeof for_none, PROT_READ | PROT_WRITE, MAP_SHARED, file, 0);
    if (reached_edits == MAP_FAILED) abort();
}
'''


def indent_of(line):
    return line[:len(line) - len(line.lstrip())]


def with_all(lines, chosen):
    """The file that has each of them, by numbers from 1."""
    made = list(lines)
    for number, edit in enumerate(chosen, 1):
        made[edit.line] = indent_of(lines[edit.line]) + edit.text.replace('@', str(number))
    place = next(place for place, line in enumerate(made) if line.startswith('typedef uintptr_t uptr'))
    made[place] += '\n' + DECLARED.rstrip('\n')
    return '\n'.join(made)


def with_one(lines, edit):
    """The lines with one edit."""
    return [*lines[:edit.line], indent_of(lines[edit.line]) + edit.new, *lines[edit.line + 1:]]


def functions_of(lines):
    """Of each function its name, its first line, the line of its body's brace, and its last line."""
    place = next(place for place, line in enumerate(lines) if line.startswith(FRONT))
    while place < len(lines):
        body = place
        if re.match(r'\w.*\(', lines[place]):
            while not lines[body].endswith((';', '{')):
                body += 1
        if body > place or lines[place].endswith(') {'):
            head = ' '.join(line.strip() for line in lines[place:body + 1])
            found = re.match(r'[^(]*?(\w+)\(.*\) \{$', head)
            if found:
                end = lines.index('}', body)
                yield found[1], place, body, end
                body = end
        place = body + 1


def alone(lines, line):
    """What is needed to compile the function of a line: the front, the static arrays, what is inline, and the heads of
    the other functions."""
    made, name = list(lines), None
    for named, place, body, end in functions_of(lines):
        if place <= line <= end:
            name = named
        elif not lines[place].startswith('INLINE'):
            made[body] = made[body][:-2] + ';'
            made[body + 1:end + 1] = [''] * (end - body)
    return '\n'.join([*made, f'const void *const kept = (const void *){name};', ''])
