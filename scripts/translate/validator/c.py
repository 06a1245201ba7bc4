# SPDX-License-Identifier: MIT
"""For scripts/translate/validate: the functions of a file of C, each as a list of steps. pycparser reads them; of the
front's macros AT, UNREACHABLE, HAS_VECTORS and KNOWN_START, as it is without ZACPI_NO_SEARCH, are words that
validator/values.py knows, and the others say nothing of what is computed.

`MARK("block")` stands where a block of LLVM begins (scripts/translate/ir2c --marks)."""
import re
from typing import NamedTuple

from pycparser import c_ast, c_parser

from .terms import Refused

TYPES = '''typedef unsigned char u8; typedef unsigned short u16; typedef unsigned u32; typedef unsigned long long u64;
typedef signed char s8; typedef short s16; typedef int s32; typedef long long s64; typedef u64 uptr; typedef u64 size_t;
typedef u8 uint8_t; typedef u16 uint16_t; typedef u32 uint32_t; typedef u64 uint64_t; typedef u64 uintptr_t;
typedef u32 zacpi_status; typedef u64 zacpi_number; typedef int lanes;
'''
PARSER = c_parser.CParser()
WORDS = r'\b(?:COLD|ENTRY|SECTION|ZACPI_CALL|ALIGNED\(\w+\))'
WORDS_OF_STATIC = r'\b(?:APART|LOCAL|INLINE)\b'


class Step(NamedTuple):
    """`what` is mark, set, do, if, switch, goto, return, unreachable or end, each with words of its own."""
    what: str
    words: tuple
    line: int


def functions_of(text):
    """The text of each function of C, by name, and of each of its lines the number in the file without marks. Its lines
    begin at the margin with its head and a bracket alone."""
    found, begun, lines, numbers = {}, None, text.split('\n'), [0]
    for at, line in enumerate(lines):
        numbers.append(numbers[-1] + (not line.lstrip().startswith('MARK')))
        if begun is None and re.match(r'(?:APART|LOCAL|INLINE|zacpi_status)\b', line) and not line.endswith(('}', ';')):
            begun = at
        if begun is not None and line == '}':
            name = re.search(r'(\w+)\(', re.sub(WORDS, '', lines[begun]))[1]
            found[name] = '\n'.join(lines[begun:at + 1]), numbers[begun + 1:at + 2]
            begun = None
    return found


def with_numbers(text):
    """The text of a file with the numbers of its enumerators in their places; lines stay as they are."""
    made = re.search(r'^enum \{(.*?)\};', text, re.M | re.S)
    if not made:
        return text
    numbers = dict(re.findall(r'(\w+) = (\d+)', made[1]))
    return re.sub(r'\bZ_\w+\b', lambda word: numbers.get(word[0], word[0]), text[:made.start()]) + made[0] + \
        re.sub(r'\bZ_\w+\b', lambda word: numbers.get(word[0], word[0]), text[made.end():])


def parsed(text):
    """A function as pycparser reads it."""
    plain = re.sub(WORDS_OF_STATIC, 'static', re.sub(WORDS, '', re.sub(r'/\*.*?\*/', '', text, flags=re.S)))
    try:
        made = PARSER.parse(TYPES + plain)
    except c_parser.ParseError as error:
        raise Refused(f'pycparser: {error}') from error
    return next(one for one in made.ext if isinstance(one, c_ast.FuncDef))


def type_of(node):
    """A type as text: `pointer` of anything, `array N`, or its words."""
    if isinstance(node, c_ast.PtrDecl):
        return 'pointer'
    if isinstance(node, c_ast.ArrayDecl):
        return f'array {node.dim.value}'
    if isinstance(node, (c_ast.TypeDecl, c_ast.Typename)):
        return type_of(node.type)
    if isinstance(node, c_ast.Struct):
        return f'struct {node.name}'
    if isinstance(node, c_ast.IdentifierType):
        return ' '.join(node.names)
    raise Refused(f'a type {type(node).__name__}')


def constant_of(node):
    return int(re.sub('[uUlL]+$', '', node.value), 0)


class Steps:
    """The steps of a function, where its labels and marks are, its variables' types, and which of them are in scope at
    each step: one that is declared in a block is no more once that is left."""

    def __init__(self, text, numbers):
        self.function, self.numbers = parsed(text), numbers
        self.steps, self.labels, self.marks, self.types, self.scopes = [], {}, {}, {}, []
        self.scope, self.around, self.made, self.line = frozenset(), [], 0, 0
        given = self.function.decl.type.args
        self.parameters = [one for one in (given.params if given else []) if isinstance(one, c_ast.Decl)]
        for one in self.parameters:
            self.declare(one)
        self.result = type_of(self.function.decl.type.type)
        self.statement(self.function.body)
        self.put('return', None)

    def declare(self, node):
        if node.name in self.types:
            raise Refused(f'two variables of the name {node.name}')
        self.types[node.name] = type_of(node.type)
        self.scope |= {node.name}

    def put(self, what, *words):
        self.steps.append(Step(what, words, self.line))
        self.scopes.append(self.scope)

    def new(self):
        self.made += 1
        return f'.{self.made}'

    def label(self, name):
        self.labels[name] = len(self.steps)

    def statement(self, node):
        if getattr(node, 'coord', None):
            self.line = self.numbers[node.coord.line - TYPES.count('\n') - 1]
        kind = type(node).__name__
        if kind not in STATEMENTS:
            self.put('do', node)
        else:
            STATEMENTS[kind](self, node)

    def several(self, node):
        outer = self.scope
        for one in node.block_items or []:
            self.statement(one)
        self.scope = outer
        self.put('end')

    def declaration(self, node):
        self.declare(node)
        if node.init is not None:
            self.put('set', node.name, node.init)

    def declarations(self, node):
        for one in node.decls:
            self.declaration(one)

    def labelled(self, node):
        self.label(node.name)
        self.statement(node.stmt)

    def asked(self, node, yes, no):
        """A condition, of which C looks at the second part only if the first doesn't tell."""
        if isinstance(node, c_ast.BinaryOp) and node.op in ('&&', '||'):
            more = self.new()
            self.asked(node.left, *((more, no) if node.op == '&&' else (yes, more)))
            self.label(more)
            self.asked(node.right, yes, no)
        elif isinstance(node, c_ast.UnaryOp) and node.op == '!':
            self.asked(node.expr, no, yes)
        else:
            self.put('if', node, yes, no)

    def choice(self, node):
        yes, no, end = self.new(), self.new(), self.new()
        self.asked(node.cond, yes, no)
        self.label(yes)
        self.statement(node.iftrue)
        self.put('goto', end)
        self.label(no)
        self.statement(node.iffalse)
        self.label(end)

    def loop(self, node):
        begin, step, end, body = self.new(), self.new(), self.new(), self.new()
        outer = self.scope
        self.statement(node.init)
        self.label(begin)
        if node.cond is not None:
            self.put('if', node.cond, body, end)
        self.label(body)
        self.around.append((end, step))
        self.statement(node.stmt)
        self.around.pop()
        self.label(step)
        self.statement(node.next)
        self.put('goto', begin)
        self.scope = outer
        self.label(end)

    def repeated(self, node):
        """A `while`, whose mark, if it has one, is where it asks, or a `do`."""
        begin, asks, end, body = self.new(), self.new(), self.new(), self.new()
        outer, is_while = self.scope, isinstance(node, c_ast.While)
        self.around.append((end, begin if is_while else asks))
        if is_while:
            self.label(begin)
            first = node.stmt.block_items[0] if node.stmt.block_items else None
            if isinstance(first, c_ast.FuncCall) and first.name.name == 'MARK_BEFORE':
                self.call(first)
            self.asked(node.cond, body, end)
            self.label(body)
            self.statement(node.stmt)
            self.put('goto', begin)
        else:
            self.label(begin)
            self.statement(node.stmt)
            self.label(asks)
            self.asked(node.cond, begin, end)
        self.around.pop()
        self.scope = outer
        self.label(end)

    def switch(self, node):
        end, place, outer = self.new(), len(self.steps), self.scope
        self.put('switch')
        self.around.append((end, next((step for _, step in reversed(self.around) if step), None)))
        cases, otherwise = [], end
        for one in node.stmt.block_items:
            label = self.new()
            self.label(label)
            if isinstance(one, c_ast.Case):
                cases.append((constant_of(one.expr), label))
            else:
                otherwise = label
            for inner in one.stmts or []:
                self.statement(inner)
        self.around.pop()
        self.scope = outer
        self.label(end)
        self.steps[place] = self.steps[place]._replace(words=(node.cond, cases, otherwise))

    def call(self, node):
        name = node.name.name
        if name == 'MARK_BEFORE' and node.args.exprs[0].value[1:-1] in self.marks:
            return
        if name in ('MARK', 'MARK_BEFORE'):
            block = node.args.exprs[0].value[1:-1]
            if block in self.marks:
                raise Refused(f'two marks of {block}')
            self.marks[block] = len(self.steps)
            self.put('mark', block)
        elif name == 'UNREACHABLE':
            self.put('unreachable')
        else:
            self.put('do', node)


def ignored(_, node):
    return node


STATEMENTS = {
    'Compound': Steps.several, 'Decl': Steps.declaration, 'DeclList': Steps.declarations, 'Label': Steps.labelled,
    'While': Steps.repeated, 'DoWhile': Steps.repeated, 'If': Steps.choice, 'For': Steps.loop,
    'Switch': Steps.switch, 'FuncCall': Steps.call,
    'Goto': lambda self, node: self.put('goto', node.name),
    'Break': lambda self, _: self.put('goto', self.around[-1][0]),
    'Continue': lambda self, _: self.put('goto', self.around[-1][1]),
    'Return': lambda self, node: self.put('return', node.expr), 'EmptyStatement': ignored, 'NoneType': ignored,
}
