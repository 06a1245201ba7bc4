# SPDX-License-Identifier: MIT
"""The definitions of specs/*.antt and the structs of src/*.rt, for the scripts that make code of them.

A `Definition` has the crate and the file it is in, its name, the comment above it, its types (those of its parameters,
then its result's), and its equations: each the patterns of its parameters, and its body. What a body has field by field
is `fields(body)` of `name = expression;  -- comment` in a record's braces, and `items(body)` of a list of `item ∷`.
An expression is `tree(text)`: a word, or a list that begins with what it is."""
import re
from dataclasses import dataclass
from functools import cache
from pathlib import Path

ROOT = Path(__file__).resolve().parents[2]
HEAD = re.compile(r'(?m)^((?:\w+ )*)pub ([^\s(]+) ((?:[({].*)?): (.+(?:\n .*)*)\n')
STRUCT = re.compile(r'(?m)^((?: *#\[.*\]\n)*) *(?:pub(?:\(\w+\))? )?struct (\w+)[^{;]*\{\n((?:.*\n)*?)\}')
FIELD = re.compile(r'(?m)^ +(?!ghost )(?:pub(?:\(\w+\))? )?(\w+): (.*),$')
IMPORT = re.compile(r'\buse Rattle\.([\w.]+)(?:\.\{([^}]*)\}| as (\w+))')
PIECE = re.compile(r'--[^\n]*|[(\[{]|[)\]}]|[;,∷→]|[^\s\-(){}\[\];,∷→]+|\s+|.', re.S)

TOKEN = re.compile(r'record \{|==|[(){},]|[^\s(){},]+')


@dataclass
class Definition:
    """A definition of a crate's specs/."""
    crate: str
    file: Path
    name: str
    comment: str
    types: list
    equations: list
    unfoldable: bool

    @property
    def result(self):
        return self.types[-1]

    @property
    def parameters(self):
        return self.equations[0][0]

    @property
    def body(self):
        return self.equations[0][1]


@dataclass
class Part:
    """A part of a text between two separators, and the comment after it."""
    text: str
    comment: str = ''


@dataclass
class Struct:
    """A struct of a crate's src/: the types of its fields by their names."""
    crate: str
    file: Path
    name: str
    attributes: str
    fields: dict


def parts(text, separator):
    """The parts of a text between separators outside its brackets. A comment is of what is before it in its line."""
    found, depth, blank = [Part('')], 0, True
    for piece in PIECE.findall(text):
        if piece.startswith('--'):
            last = found[-1] if found[-1].text.strip() or len(found) == 1 else found[-2]
            if not blank:
                last.comment = piece[2:].strip()
            continue
        depth += (piece in '([{') - (piece in ')]}')
        if piece == separator and depth == 0:
            found.append(Part(''))
        else:
            found[-1].text += piece
        blank = '\n' in piece if piece.isspace() else False
    for part in found:
        part.text = ' '.join(part.text.split())
    return [part for part in found if part.text]


def fields(text):
    """The fields of the first record in a text, in order: the name, the expression and the comment of each."""
    _, _, inside = text.partition('record {')
    depth, end = 1, 0
    while depth and end < len(inside):
        piece = PIECE.match(inside, end)[0]
        depth += 0 if piece.startswith('--') else (piece in '([{') - (piece in ')]}')
        end += len(piece) if depth else 0
    return [(*part.text.split(' = ', 1), part.comment) for part in parts(inside[:end], ';')]


def items(text):
    """The items of a list, in order: the expression and the comment of each, without the `[]` that it ends with."""
    return [(part.text, part.comment) for part in parts(text, '∷') if part.text != '[]']


def tree(text):
    """An expression: `apply` to what, `if`, `==`, `tuple`, `field` of what is in brackets, `record` with its text."""
    return whole(TOKEN.findall(text))


def whole(tokens):
    if tokens[0] == 'if':
        return [tokens.pop(0), *(whole(tokens) for _ in range(3))]
    atoms = []
    while tokens and tokens[0] not in (')', ',', 'then', 'else', '=='):
        atoms.append(atom(tokens))
    first = atoms[0] if len(atoms) == 1 else ['apply', *atoms]
    following = tokens.pop(0) if tokens and tokens[0] in ('then', 'else', '==') else None
    return ['==', first, whole(tokens)] if following == '==' else first


def atom(tokens):
    word = tokens.pop(0)
    if word == 'record {':
        text, depth = word, 1
        while depth:
            depth += (tokens[0] == 'record {') - (tokens[0] == '}')
            text += f' {tokens.pop(0)}'
        return ['record', text]
    if word != '(':
        return word
    inside = ['tuple', whole(tokens)]
    while tokens.pop(0) == ',':
        inside.append(whole(tokens))
    node = inside if len(inside) > 2 else inside[1]
    return ['field', node, tokens.pop(0)] if tokens and tokens[0].startswith('.') else node


def equations(name, text):
    """The patterns and the body of each equation of a definition."""
    for one in re.split(rf'(?m)^{re.escape(name)}(?= )', text)[1:]:
        patterns, _, body = one.partition(' =')
        yield patterns.split(), body


def definitions(crate):
    """The definitions of a crate, in the order of its files."""
    for file in sorted((ROOT / 'crates' / crate / 'specs').glob('*.antt')):
        text = re.sub(r'(?m)^pub (use|mod) .*', '', file.read_text())
        heads = list(HEAD.finditer(text))
        for head, after in zip(heads, [*(head.start() for head in heads[1:]), len(text)]):
            above = re.search(r'((?:^--.*\n)*)\Z', text[:head.start()], re.M)[0]
            yield Definition(crate, file, head[2], ' '.join(re.findall(r'(?m)^-- *(.*)', above)),
                             [part.text for part in parts(head[4], '→')],
                             list(equations(head[2], text[head.end():after])), 'unfoldable' in head[1])


@cache
def imports(text):
    """What the imports of a text bring in: by each name its module and its name there, and the modules by theirs."""
    names, modules = {}, {}
    for module, listed, alias in IMPORT.findall(text):
        modules.update({alias: module} if alias else {})
        for one in filter(None, map(str.strip, listed.split(','))):
            name, _, other = one.partition(' as ')
            names[other or name] = module, name
    return names, modules


def meaning(text, word):
    """The module that defines what a word of a text means, and its name there."""
    names, modules = imports(text)
    alias, _, name = word.rpartition('.')
    found = (modules[alias], name) if alias in modules else names.get(word)
    while found:
        crate, _, path = found[0].partition('.specs.')
        file = ROOT / 'crates' / crate / 'specs' / f'{path}.antt'
        after = imports(file.read_text())[0].get(found[1]) if file.exists() else None
        if not after:
            break
        found = after
    return found


def structs(crate):
    """The structs of a crate that have named fields."""
    for file in sorted((ROOT / 'crates' / crate / 'src').rglob('*.rt')):
        for attributes, name, body in STRUCT.findall(file.read_text()):
            yield Struct(crate, file, name, attributes, dict(FIELD.findall(body)))


def crates():
    """The names of the crates, in the order of crates.txt."""
    return [re.match(r'\w+', line)[0] for line in (ROOT / 'crates.txt').read_text().splitlines()
            if line.strip() and not line.startswith('#')]
