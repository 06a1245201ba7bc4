# SPDX-License-Identifier: MIT
"""Expressions of definitions in Rust, for scripts/shown. A type is a crate and what it is in that crate's text, as
('acpi_arm', 'Option<SpiRange>'); that of a number is None until it is known."""
import re
import sys
from lib.contracts import fields_of, found, path_to, payload, returning
from lib.definitions import definitions, fields, meaning, tree

NUMBERS = ('u8', 'u16', 'u32', 'u64', 'usize')
STD = {'unwrap_or': 'unwrap_or', 'result_unwrap_or': 'unwrap_or', 'is_some': 'is_some'}
BOOL, BYTE = ('', 'bool'), ('', 'u8')


def inner(kind):
    """The type of what an Option or a Result contains."""
    return kind and (kind[0], re.sub(r'^(?:Option|Result|AcpiResult)<(.*)>$', r'\1', kind[1]))


def bracketed(text):
    return text if re.fullmatch(r'(?:[\w.:]|\((?:[^()]|\([^()]*\))*\))+', text) else f'({text})'


def deeper(text):
    return text.replace('\n', '\n    ')


class Terms:
    """Writes the expressions of definitions for a module of a crate."""

    def __init__(self, crate, path):
        self.crate, self.path = crate, path
        self.used = {}  # the names that are brought in, each with the modules that it is of
        self.clashing = set()  # those that are of two: the crate's own gets the name, the other is written by its path

    def enter(self, one, values=None):
        """Begins with a definition, whose parameters are these values, or those of a function."""
        self.text, self.home = one.file.read_text(), f'{one.crate}.specs.{one.file.stem}'
        kinds = {name: self.type_of(kind) for name, kind in zip(one.parameters, one.types)}
        self.scope = dict(zip(kinds, values)) if values else {name: [name, kind] for name, kind in kinds.items()}
        if not values:
            self.lent = {name for name, kind in kinds.items() if kind and found(*kind)}

    def is_of(self, one, module):
        return f'{self.crate}.specs.{one.file.stem}' == module

    def type_of(self, kind):
        """The type in Rust that a definition's text names, unless that is a number's."""
        if kind in ('ℕ', 'Bool'):
            return BOOL if kind == 'Bool' else None
        if kind.startswith('Option '):
            of = self.type_of(kind.removeprefix('Option ').strip('()'))
            return of and (of[0], f'Option<{of[1]}>')
        module, name = meaning(self.text, kind) or ('', kind)
        return module.split('.')[0], name

    def name(self, kind):
        """The name of a type, which is brought in."""
        if kind[1].startswith('Option<'):
            return f'Option<{self.name(inner(kind))}>'
        crate = found(*kind)
        return self.brought(path_to(self.crate, (crate, kind[1])), crate) if crate else kind[1]

    def brought(self, path, crate):
        before, _, name = path.rpartition('::')
        self.used.setdefault(name, set()).add(before)
        return path if name in self.clashing and crate != self.crate else name

    def value(self, node, kind):
        """An expression as a value of a type."""
        text, has = self.expression(node, kind)
        is_cast = kind and has and has[1] != kind[1] and {has[1], kind[1]} <= {*NUMBERS}
        return f'{bracketed(text)} as {kind[1]}' if is_cast else text

    def expression(self, node, kind):
        """An expression where a type is expected, with the type that it has."""
        what, *parts = node if isinstance(node, list) else ('word', node)
        if what == 'record':
            return self.record(parts[0], kind), kind
        if what == 'tuple':
            return f'({", ".join(self.value(part, None) for part in parts)})', None
        if what == 'field':
            return self.expression(parts[0], None)[0] + parts[1], None
        if what == '==':
            first, has = self.expression(parts[0], None)
            return f'{first} == {self.value(parts[1], has)}', BOOL
        if what == 'word':
            return self.word(node, kind)
        return self.choice(*parts, kind) if what == 'if' else self.applied(parts[0], parts[1:], kind)

    def word(self, word, kind):
        """A number, a parameter with the fields that are taken of it, or a constant."""
        first, *rest = word.split('.')
        if re.match(r'\d', word) or word in ('true', 'false', 'None'):
            return word, None
        if first not in self.scope:
            return self.applied(word, [], kind)
        value = self.scope[first]
        if not rest and not value[1]:
            value[1] = kind
        text, has = value
        for field in rest:
            has = found(*has), fields_of(found(*has), has[1])[field]
        return '.'.join([text, *rest]), has

    def choice(self, test, first, second, kind):
        """`if`, or as an Option what a test allows."""
        if first == 'None' and test[0] == '==':
            return self.choice(['apply', 'not', test], second, first, kind)
        test, _ = self.expression(test, None)
        if second == 'None' and first[:2] == ['apply', 'Some']:
            return f'{bracketed(test)}.then_some({self.value(first[2], inner(kind))})', kind
        first, second = (deeper(self.value(part, kind)) for part in (first, second))
        return f'if {test} {{\n    {first}\n}} else {{\n    {second}\n}}', kind

    def applied(self, word, given, kind):
        """A definition's word that is applied to something."""
        if word == 'flag':
            return f'{bracketed(self.value(given[0], BOOL))} as u8', BYTE
        if word == 'not':
            return self.expression(given[0], None)[0].replace(' == ', ' != '), BOOL
        if word == 'Some':
            return f'Some({self.value(given[0], inner(kind))})', kind
        if word == 'replicate':
            return f'[{given[1]}; {given[0]}]', kind
        if word in STD:
            of, has = self.expression(given[0], None)
            rest = [self.value(one, inner(has)) for one in given[1:]]
            return f'{of}.{STD[word]}({", ".join(rest)})', inner(has) if rest else BOOL
        meant = meaning(self.text, word) or (self.home, word)
        if meant[0].endswith('.TheVariants'):
            owner = meant[0].split('.')[0], meant[0].split('.')[-2]
            values = [self.value(one, (owner[0], payload(*owner, meant[1]))) for one in given]
            return f'{self.name(owner)}::{meant[1]}' + f'({", ".join(values)})' * bool(given), owner
        function = self.made(meant) or returning(self.crate, meant)
        return self.call(function, given) if function else self.body(meant, given, kind)

    def call(self, function, given):
        """A call of a function that returns what is meant."""
        values = []
        for (name, kind), node in zip(function.parameters.items(), given):
            text = self.value(node, None if name.endswith('self') else (function.crate, kind.removeprefix('&')))
            is_lent = text in self.lent
            if name.endswith('self'):
                text = bracketed(text)
            elif is_lent != kind.startswith('&'):
                text = ('*' if is_lent else '&') + text
            values.append(text)
        result = function.crate, function.result.replace('Self', function.owner)
        if next(iter(function.parameters), '').endswith('self'):
            return f'{values[0]}.{function.name}({", ".join(values[1:])})', result
        if function.owner:
            name = f'{self.name((function.crate, function.owner))}::{function.name}'
        elif (function.crate, function.module) == (self.crate, self.path):
            name = function.name
        elif function.crate == self.crate:
            name = self.brought('::'.join(('crate', *function.module, function.name)), self.crate)
        else:
            name = self.brought(path_to(self.crate, (function.crate, function.name)), function.crate)
        return f'{name}({", ".join(values)})', result

    def body(self, meant, given, kind):
        """The body of a definition that no function returns, over what it is applied to."""
        those = [one for one in definitions(self.crate) if one.name == meant[1] and self.is_of(one, meant[0])]
        if len(those) != 1 or len(those[0].equations) != 1:
            sys.exit(f'scripts/shown: no function returns {meant[1]} of {meant[0]}, by its contract')
        before = self.text, self.home, self.scope
        values = [list(self.expression(node, None)) for node in given]
        self.enter(those[0], values)
        result = self.type_of(those[0].result) or kind
        text = self.whole(those[0], result)
        self.text, self.home, self.scope = before
        return text, result

    def whole(self, one, kind):
        """The body of a definition as a value of a type."""
        if one.body.lstrip().startswith('record {'):
            return self.record(one.body, kind)
        return self.value(tree(re.sub(r'--.*', '', one.body)), kind)

    def record(self, text, kind):
        """A record of a type, a field a line."""
        crate, lines = found(*kind), []
        for field, expression, comment in fields(text):
            value = deeper(self.value(tree(expression), (crate, fields_of(crate, kind[1])[field])))
            line = f'{field}{f": {value}" * (value != field)},'
            is_above = len(line) + len(comment) > 104  # beside it there are 120 columns, in a record of a record
            beside = f' // {comment}' * bool(comment and not is_above)
            lines.append(f'\n    // {comment}' * bool(comment and is_above) + f'\n    {line}{beside}')
        return f'{self.name(kind)} {{{"".join(lines)}\n}}'
