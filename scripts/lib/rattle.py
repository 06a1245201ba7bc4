# SPDX-License-Identifier: MIT
"""What Rattle's text has beyond Rust's, for scripts/erase: `erased(text)` drops it, respells the few constructs that
Rust spells otherwise, and stops at what it knows nothing of (`Unknown`).

Dropped: `ghost` members, fields and imports; `requires` and `ensures`; the attributes `tactic` and `cycle`; the `Drop`
of derives and bounds; an `impl Model`; comments that are directly above what is dropped. Respelled: what RESPELLED
lists."""
import re
from pathlib import Path

ROOT = Path(__file__).resolve().parents[2]
TOKEN = re.compile(r"""(?P<doc>//[/!][^\n]*)|(?P<comment>//[^\n]*)|(?P<text>b?r(?P<hashes>\#*)".*?"(?P=hashes)
    |b?"(?:\\.|[^"\\])*"|b?'(?:\\(?:x..|u\{[^}]*\}|.)|[^\\'\n])')|(?P<lifetime>'[A-Za-z_]\w*)|(?P<word>[A-Za-z_]\w*)
    |(?P<number>\d\w*)|(?P<space>\s+)|(?P<sign>.)""", re.S | re.X)
CLOSERS = {'{': '}', '(': ')', '[': ']'}
GONE = '\0'  # stands where text was dropped
STATEMENTS = ('return', 'let', 'for', 'while', 'if', 'match')
# Words of contracts and proofs: one that is left is of a construct that isn't known here. Macros of Rattle's alone too.
LEFT = {'ghost', 'requires', 'ensures', 'tactic', 'cycle', 'Model', 'unsafe', 'prove', 'transmute'}
# The attribute of what is called from C. Nothing else may be unsafe.
EXPORTED = '#[unsafe(no_mangle)]'
# Where each module of Rattle's std is in Rust: the rest isn't known.
CORE = {'borrow', 'cell', 'char', 'cmp', 'convert', 'error', 'fmt', 'hash', 'iter', 'marker', 'mem', 'ops', 'option',
        'result', 'slice', 'str', 'array'}
# Those that a caller of the eraser gives a place of its own, since what allocates is passed an allocator.
OWN = {'alloc', 'collections', 'vec', 'string', 'boxed', 'num', 'io', 'fs', 'env', 'process', 'os', 'rt', 'simd',
       'time'}
# Rust's methods of these names take no allocator.
METHODS = {'to_vec': 'ToVecIn', 'collect': 'CollectIn', 'read_to_end': 'ReadToEndIn'}
# Names of Rattle's prelude that Rust's hasn't, or has of another meaning.
PRELUDE = ['AsSlice', 'AsStr', 'Box', 'HostRuntime', 'String', 'ToString', 'TryClone', 'Vec']
MACROS = ['format', 'println', 'vec']


class Unknown(Exception):
    """A construct that the eraser knows nothing of."""


class Source:
    """The tokens of a file, of which some are dropped."""

    def __init__(self, text):
        self.tokens = [[m.lastgroup if m.lastgroup != 'hashes' else 'text', m.group()] for m in TOKEN.finditer(text)]

    def words(self, at, step=1):
        """The places of the tokens from one on (or before it) that are neither blanks nor comments."""
        while 0 <= at < len(self.tokens):
            if self.tokens[at][0] not in ('space', 'doc', 'comment', 'gone'):
                yield at
            at += step

    def after(self, at):
        return next(self.words(at + 1), None)

    def before(self, at):
        return next(self.words(at - 1, -1), None)

    def is_at(self, at, *texts):
        return at is not None and self.tokens[at][1] in texts

    def is_path(self, at):
        """Whether a `::` begins at a place."""
        return at is not None and at >= 0 and self.is_at(at, ':') and self.is_at(at + 1, ':')

    def closer(self, at):
        """The place of the bracket that closes the one at a place. In terms of contracts only brackets of its kind
        count."""
        opened, depth = self.tokens[at][1], 0
        for i in range(at, len(self.tokens)):
            if self.tokens[i][0] == 'sign':
                depth += (self.tokens[i][1] == opened) - (self.tokens[i][1] == CLOSERS[opened])
                if depth == 0:
                    return i
        raise Unknown(f'no end of {self.tokens[at][1]}')

    def drop(self, first, last, comments=True):
        """Drops these tokens and, if wanted, the lines of comments directly above them."""
        for token in self.tokens[first:last + 1]:
            token[:] = ['gone', GONE]
        while comments and first > 1 and self.is_comment_line(first - 2):
            self.tokens[first - 2][:] = self.tokens[first - 1][:] = ['gone', GONE]
            first -= 2

    def is_comment_line(self, at):
        """Whether a comment has a line by itself, and what follows is on the next one."""
        return (self.tokens[at][0] == 'comment' and self.tokens[at + 1][0] == 'space'
                and self.tokens[at + 1][1].count('\n') == 1 and (at == 0 or '\n' in self.tokens[at - 1][1]))

    def erase(self):
        for at in range(len(self.tokens)):
            kind, text = self.tokens[at]
            if kind == 'word' and text == 'ghost':
                self.drop(at, self.end_of_ghost(at))
            elif kind == 'word' and text in ('requires', 'ensures'):
                self.clause(at)
            elif kind == 'word' and text == 'impl':
                self.implementation(at)
            elif kind == 'sign' and text == '#':
                self.attribute(at)
            elif kind == 'word' and text == 'Drop':
                self.bound(at)

    def end_of_ghost(self, at):
        """The `;` or `,` that ends a ghost member, outside the braces of its terms."""
        i = at
        while i is not None and not self.is_at(i, ';', ','):
            i = self.after(self.closer(i) if self.is_at(i, '{') else i)
        if i is None:
            raise Unknown('ghost without an end')
        return i

    def clause(self, at):
        """Drops a clause: its word, `*`, a name, and the term in braces."""
        opened = self.after(at)
        while opened is not None and not self.is_at(opened, '{') and \
                (self.is_at(opened, '*') or self.tokens[opened][0] == 'word'):
            opened = self.after(opened)
        if self.is_at(opened, '{'):
            self.drop(at, self.closer(opened))

    def implementation(self, at):
        """Drops a whole `impl Model for ..`, which only contracts look at, with its documentation."""
        names, i = [], at
        while not self.is_at(i, '{', ';', None):
            i = self.after(i)
            if i is None:
                return
            names.append(self.tokens[i][1])
        if 'Model' not in names or 'for' not in names or names.index('Model') > names.index('for'):
            return
        first = at
        while self.tokens[first - 1][0] in ('space', 'doc') and (self.tokens[first - 1][0] == 'doc'
                                                                 or self.tokens[first - 2][0] == 'doc'):
            first -= 1
        self.drop(first, self.closer(i))

    def attribute(self, at):
        opened = self.after(at)
        if self.is_at(opened, '!'):
            opened = self.after(opened)
        name = self.after(opened) if self.is_at(opened, '[') else None
        if self.is_at(name, 'tactic', 'cycle'):
            # A comment above a function is its own; one above a statement is about the tactic.
            closer = self.closer(opened)
            self.drop(at, closer, self.is_at(self.after(closer), *STATEMENTS))
        elif self.is_at(name, 'rattlefmt'):
            self.tokens[name][1] = 'rustfmt'
        elif self.is_at(name, 'derive'):
            self.derive(at, name, self.closer(opened))

    def derive(self, at, name, closer):
        """Drops `Drop` of the derived traits, and the attribute if there is no other."""
        names = [i for i in range(name + 1, closer) if self.tokens[i][0] == 'word']
        for i in names:
            if self.tokens[i][1] != 'Drop':
                continue
            if len(names) == 1:
                self.drop(at, closer, False)
            elif i == names[-1]:
                self.drop(self.before(i), i, False)
            else:
                self.drop(i, self.with_space(self.after(i)), False)

    def bound(self, at):
        """Drops a bound `Drop`: of `T: Drop`, `T: Drop + U`, `T: U + Drop`. A trait's becomes `Sized`, as its types
        are."""
        before, after = self.before(at), self.after(at)
        if self.is_at(before, '+'):
            self.drop(before - (self.tokens[before - 1][0] == 'space'), at, False)
        elif self.is_at(before, ':') and self.is_at(after, '+'):
            self.drop(at, after + 1, False)
        elif self.is_at(before, ':') and self.is_at(after, '{'):
            self.tokens[at][1] = 'Sized'
        elif self.is_at(before, ':') and not self.is_at(self.before(before), ':'):
            self.drop(before, at, False)

    def with_space(self, at):
        """The place of the blank after a token, if there is one."""
        return at + (self.tokens[at + 1][0] == 'space')

    def drop_global(self):
        """Drops each parameter of the global allocator."""
        for at, (kind, text) in enumerate(self.tokens):
            if kind == 'word' and text == 'Global':
                self.global_allocator(at)

    def global_allocator(self, at):
        """Drops a parameter `NAME: Global`: the global allocator is any code's in Rust, so the body names it itself,
        and a call `::new(NAME, ..)` in it isn't passed it. Such a function is there only if there is a global
        allocator."""
        colon = self.before(at)
        name = self.before(colon)
        after = self.after(at)
        opened = self.before(name)
        if not (self.is_at(colon, ':') and self.is_at(opened, '(', ',') and self.is_at(after, ')', ',')):
            return
        word = self.tokens[name][1]
        body = next(i for i in self.words(after) if self.is_at(i, '{'))
        for i in range(body, self.closer(body)):
            if self.tokens[i] == ['word', word]:
                if self.is_at(self.before(i), '(') and self.is_at(self.before(self.before(i)), 'new'):
                    self.drop(i, self.with_space(self.after(i)), False)
                else:
                    self.tokens[i][1] = 'Global'
        if self.is_at(opened, ','):
            self.drop(opened, at, False)
        else:
            self.drop(name, self.with_space(after) if self.is_at(after, ',') else at, False)
        first = next(i for i in range(name, -1, -1) if self.tokens[i] == ['word', 'pub'])
        self.tokens[first][1] = '#[cfg(feature = "alloc")]\npub'

    def text(self):
        text = ''.join(text for _, text in self.tokens)
        text = re.sub(r'(?m)^[ \t]*\0[\0 \t]*\n', '\0', text)  # lines of which nothing is left
        text = re.sub(r'[ \t\n]*\0[\0\s]*(?=;)', '', text)
        return re.sub(r'\n\n+', '\n\n', text.replace(GONE, ''))


# What Rust spells otherwise: a pattern over the text that is left, and what stands for it.
RESPELLED = [
    # A formatter is over any writer.
    (r'<(\w+): fmt::Write>\((&self, \w+: &mut fmt::Formatter)<\1>', r"(\2<'_>"),
    # A drop borrows.
    (r'fn drop\(self\)', 'fn drop(&mut self)'),
    # A copy can't fail in Rust. Any other clone may: below.
    (r'fn clone\(&self\) -> Result<Self, AllocError> \{\s*Ok\(\*self\)\s*\}', 'fn clone(&self) -> Self { *self }'),
    # These take nothing in Rust.
    (rf"\.({'|'.join(METHODS)})\((?!\))", r'.\1_in('),
    # Whether lanes of bytes are added at once. It has no contract, so its callers are proved for either result.
    (r'(fn has_vectors\(\) -> bool \{\s*)true', r'\1cfg!(any(target_feature = "sse2", target_feature = "neon"))'),
    (r'(?m)^use std::marker::Model;\n', ''),
    (r'(?m)^use std::\{(\w+(?:, \w+)*)\};\n',
     lambda m: ''.join(f'use std::{name};\n' for name in m[1].split(', '))),
    (r'fn main\(rt: HostRuntime\)( -> [^{]*)?\{', r'fn main()\1{\n    let rt = HostRuntime::new();'),
]
# A clone that can't fail: a derived one, and one that returns the value itself.
PLAIN_CLONE = (r'(#\[derive\([^)]*\)\]|fn clone\(&self\) -> Self'
               r'|impl(?:<[^{]*>)? Clone for [^{]*\{\s*fn clone\(&self\) -> Self)')


def respelled(text):
    for pattern, to in RESPELLED:
        text = re.sub(pattern, to, text)
    parts = re.split(PLAIN_CLONE, text)
    for i in range(0, len(parts), 2):
        parts[i] = re.sub(r'\bClone\b', 'TryClone', parts[i])
        parts[i] = re.sub(r'(\.|fn )clone\((?=\)|&self)', r'\1try_clone(', parts[i])
    return ''.join(parts)


def code_of(text):
    """A text with blanks in place of its comments and literals."""
    return ''.join(text if kind not in ('doc', 'comment', 'text') else ' ' for kind, text in Source(text).tokens)


def check(code):
    """Stops at what is left of a construct that isn't known."""
    for word in re.findall(r'[A-Za-z_]\w*', code.replace(EXPORTED, '')):
        if word in LEFT:
            raise Unknown(word)
    strange = re.search(r'[^\x00-\x7f]', code)
    if strange:
        raise Unknown(f'{strange[0]} outside of a contract')
    for module in re.findall(r'\bstd::(\w+)', code):
        if module not in CORE | OWN:
            raise Unknown(f'std::{module}')


def imports(code):
    """The names of Rattle's prelude, and the traits and macros beside Rust's, that a file uses and doesn't bring in."""
    brought = ' '.join(re.findall(r'\buse [^;]*;|\b(?:trait|struct|enum) \w+', code))
    yield from (name for name in PRELUDE
                if re.search(rf'(?<!::)\b{name}\b', code) and not re.search(rf'\b{name}\b', brought))
    yield from (METHODS[name] for name in METHODS if f'.{name}_in(' in code)
    yield from (name for name in MACROS if re.search(rf'\b{name}!(?:\(|\[)(?:in\b|rt\b|&)', code))


def erased(text, is_library):
    """The text as Rust's, with `std` still as Rattle has it, and the names that it has to bring in. A library isn't
    passed the global allocator."""
    source = Source(text)
    source.erase()
    if is_library:
        source.drop_global()
    text = respelled(source.text())
    code = code_of(text)
    check(code)
    return text, list(imports(code))
