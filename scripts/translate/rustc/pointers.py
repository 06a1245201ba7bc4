# SPDX-License-Identifier: MIT
"""For scripts/translate/rustc/names.py: pointers that may be no addresses, as numbers of 64 bits. An enum has an
error's number where another of its variants has a pointer, and LLVM moves both as a pointer. Where pointers have 32
bits, C's `uptr` would lose the upper half of such a number.

These are the registers that are read from memory, or made of numbers, and come, also by phis and selects, to memory or
to a number again. Whatever else uses one gets its address, %NAME.address."""
import re

from .debug import REGISTER

FLOWS = rf'\s+({REGISTER}) = (?:phi ptr|select i1 [^,]+, ptr|freeze ptr) '
BEGINS = rf'\s+({REGISTER}) = (?:load ptr,|inttoptr i64 %)'
ENDS = rf'\s+(?:store ptr ({REGISTER}), ptr|{REGISTER} = ptrto(?:int|addr) ptr ({REGISTER}) )'


def operands(line):
    """What a phi, a select or a freeze of pointers may be."""
    rest = line.split(' = ', 1)[1].split(', !', 1)[0]
    if rest.startswith('phi'):
        return re.findall(rf'\[ ([^,]+), {REGISTER} \]', rest)
    return re.findall(r'ptr ((?:inttoptr \(.*?\))|[^ ,]+)', rest)


def numbers_of(body):
    """The registers of a function that are to be numbers."""
    flows = {re.match(FLOWS, line)[1]: set(operands(line)) for line in body if re.match(FLOWS, line)}
    began = {found[1] for found in (re.match(BEGINS, line) for line in body) if found}
    ended = {found[1] or found[2] for found in (re.match(ENDS, line) for line in body) if found}
    is_new = True
    while is_new:
        more = {name for name, parts in flows.items() if parts & began} - began
        needed = {part for name in ended & set(flows) for part in flows[name]} - ended
        began, ended, is_new = began | more, ended | needed, bool(more or needed)
    return began & ended


class Numbers:
    """Rewrites the lines of a function."""

    def __init__(self, body):
        self.body, self.numbers, self.before, self.copies = body, numbers_of(body), {}, 0
        self.addressed = set()

    def address(self, text):
        """A text in which registers that are numbers are their addresses."""
        def one(found):
            if found[0] not in self.numbers:
                return found[0]
            self.addressed.add(found[0])
            return address_of(found[0])
        return re.sub(REGISTER, one, text)

    def number(self, value, lines):
        """A pointer as a number, which lines make if it isn't one."""
        if value in self.numbers:
            return value
        if value in ('null', 'undef', 'poison'):
            return '0' if value == 'null' else value
        found = re.match(r'inttoptr \(i64 (\d+) to ptr\)$', value)
        if found:
            return found[1]
        self.copies += 1
        lines.append(f'  %number.{self.copies} = ptrtoint ptr {value} to i64')
        return f'%number.{self.copies}'

    def line(self, line):
        """The lines that take a line's place."""
        made, flow = [], re.match(FLOWS, line)
        if flow and flow[1] in self.numbers:
            return self.flow(line)
        begin, end = re.match(BEGINS, line), re.match(ENDS, line)
        if begin and begin[1] in self.numbers:
            head, rest = line.split(' = ', 1)
            rest = rest.replace('load ptr,', 'load i64,', 1)
            rest = re.sub(r'inttoptr i64 (\S+) to ptr', r'add i64 \1, 0', rest)
            return [f'{head} = {self.address(rest) if rest.startswith("load") else rest}']
        if end and (end[1] or end[2]) in self.numbers:
            line = re.sub(r'ptrto(?:int|addr) ptr (\S+) to i64', r'add i64 \1, 0', line)
            stored = re.match(rf'(\s+store )ptr ({REGISTER})(, .*)', line)
            return [stored[1] + f'i64 {stored[2]}' + self.address(stored[3])] if stored else [line]
        return made + [self.address(line)]

    def flow(self, line):
        head, rest = line.split(' = ', 1)
        if rest.startswith('phi'):
            def way(found):
                return f'[ {self.number(found[1], self.before.setdefault(found[2], []))}, {found[2]} ]'
            return [f'{head} = ' + re.sub(rf'\[ ([^,]+), ({REGISTER}) \]', way, rest.replace('phi ptr', 'phi i64', 1))]
        made = []
        for value in operands(line):
            rest = rest.replace(f'ptr {value}', f'i64 {self.number(value, made)}', 1)
        return made + [f'{head} = {rest}']

    def rewritten(self):
        """The function's lines: in a block first its phis, then the addresses of those that are numbers."""
        made = [self.line(line) if not line.lstrip().startswith('#dbg') else [line] for line in self.body]
        lines, late, block = [], [], '%' + (re.match(r'("[^"]*"|[\w.$-]+):', self.body[0]) or ['', '0'])[1]
        for line, new in zip(self.body, made):
            name = (re.match(rf'\s+({REGISTER}) = ', line) or ['', ''])[1]
            begun = [f'  {address_of(name)} = inttoptr i64 {name} to ptr'] if name in self.addressed else []
            if ' = phi ' in line:
                late += begun
            elif line.startswith('  ') and late and not line.lstrip().startswith('#dbg'):
                lines, late = lines + late, []
            if re.match(r'\S', line):
                block = '%' + re.match(r'("[^"]*"|[\w.$-]+):', line)[1]
            if re.match(r'  (?:br|switch|ret|unreachable)\b', line):
                lines += self.before.get(block, [])
            lines += new + ([] if ' = phi ' in line else begun)
        return lines


def address_of(register):
    return f'{register[:-1]}.address"' if register.endswith('"') else f'{register}.address'


def with_numbers(body):
    """The lines of a function, in which no register that isn't an address is a pointer."""
    numbers = Numbers(body)
    return numbers.rewritten() if numbers.numbers else body
