# SPDX-License-Identifier: MIT
"""The words of Rattle's and of Rust's texts, for scripts/check/erased: a crate's file without the contracts, which may
stand only where Rattle's grammar has them; what paths and imports name; and both without what a formatter may change.
It shares no code with scripts/erase, which it is there to judge."""
import collections
import re

TOKEN = re.compile(
    r'//[^\n]*|/\*.*?\*/|b?r(#*)".*?"\1|b?"(?:[^"\\]|\\.)*"|b?\'(?:[^\'\\\n]|\\(?:x..|u\{.*?\}|.))\''
    r"|'[A-Za-z_]\w*|[A-Za-z_]\w*|\d\w*|\s+|::|->|=>|\.\.=|\.\.|==|!=|<=|>=|&&|\|\||.", re.S)
PAIRS = {'{': '}', '(': ')', '[': ']'}
KINDS = [('fn', 'body'), ('struct', 'fields'), ('enum', 'fields'), ('impl', 'members'), ('trait', 'members'),
         ('mod', 'items')]


class Odd(Exception):
    """A text that isn't parsed."""


def cut(text):
    """The words of a text without comments; an attribute is one word, and a derive one for each trait."""
    plain = [one.group() for one in TOKEN.finditer(text)
             if not one.group().isspace() and not one.group().startswith(('//', '/*'))]
    at, words = 0, []
    while at < len(plain):
        opened = at + 1 + (plain[at + 1:at + 2] == ['!'])
        if plain[at] != '#' or plain[opened:opened + 1] != ['[']:
            words.append(plain[at])
            at += 1
            continue
        end = closer(plain, opened, '[')
        if plain[opened + 1] == 'derive':
            words += [f'#[derive({name})]' for name in plain[opened + 3:end - 1] if name != ',']
        else:
            words.append(''.join(plain[at:opened + 1]) + ' '.join(plain[opened + 1:end]) + ']')
        at = end + 1
    return words


def closer(words, at, kind):
    """The place of the bracket that closes the one at a place. Terms have operators of other brackets."""
    depth = 0
    for i in range(at, len(words)):
        depth += (words[i] == kind) - (words[i] == PAIRS[kind])
        if depth == 0:
            return i
    raise Odd(f'no end of {kind}')


class Program:
    """A source's words: what is left of them without contracts, and how many are of which class."""

    def __init__(self, words):
        self.words, self.at, self.left, self.counts = words, 0, [], collections.Counter()
        # The open braces, each with the brackets that were open; the words of the item or statement; its open brackets.
        self.inside, self.head, self.depth = [('items', 0)], [], 0

    def drop(self, kind, end):
        self.counts[kind] += 1
        self.at = end + 1

    def place(self):
        """What the next word is in: items, members, fields, a body, or the head of a function after its parameters."""
        if 'fn' in self.head and not self.depth and ')' in self.head:
            return 'head'
        return self.inside[-1][0]

    def without_contracts(self):
        while self.at < len(self.words):
            word = self.words[self.at]
            if word in ('requires', 'ensures'):
                self.clause(word)
            elif word == 'ghost':
                self.ghost()
            elif re.match(r'#!?\[(tactic|cycle)\b', word):
                self.attribute(word)
            elif word == 'impl' and not self.head and self.is_model():
                self.drop('Model', closer(self.words, self.words.index('{', self.at), '{'))
            else:
                self.step(word)
        if len(self.inside) != 1:
            raise Odd('braces are left open')
        return self.left

    def clause(self, word):
        if self.place() != 'head':
            raise Odd(f'{word} in {self.place()}')
        opened = self.at + 1
        while re.fullmatch(r'\*|\w+', self.words[opened]):
            opened += 1
        if self.words[opened] != '{':
            raise Odd(f'{word} with {self.words[opened]}')
        self.drop(word, closer(self.words, opened, '{'))

    def ghost(self):
        is_use = self.words[self.at + 1] == 'use'
        if self.head not in ([], ['pub']) or self.place() not in ('members', 'items' if is_use else 'fields'):
            raise Odd(f'ghost in {self.place()}')
        end = self.at
        while self.words[end] not in (';', ','):
            end = closer(self.words, end, '{') + 1 if self.words[end] == '{' else end + 1
        self.drop('ghost import' if is_use else 'ghost member', end)

    def attribute(self, word):
        if self.head:
            raise Odd(f'{word} after {self.head[-1]}')
        self.drop(re.match(r'#!?\[(\w+)', word)[1], self.at)

    def is_model(self):
        head = self.words[self.at:self.words.index('{', self.at)]
        return 'Model' in head and 'for' in head[head.index('Model'):]

    def step(self, word):
        self.left.append(word)
        self.at += 1
        if word == '{':
            kind = next((kind for name, kind in KINDS if name in self.head), 'body')
            self.inside.append(('body' if self.inside[-1][0] == 'body' else kind, self.depth))
            self.head, self.depth = [], 0
        elif word == '}':
            self.depth = self.inside.pop()[1]
            if not self.inside:
                raise Odd('} closes nothing')
        else:
            self.depth += (word in ('(', '[')) - (word in (')', ']'))
        if not self.depth and (word in ('}', ';') or word == ',' and self.inside[-1][0] == 'fields'):
            self.head = []
        elif word != '{' and not word.startswith('#'):
            self.head.append(word)


class Paths:
    """What the paths of a file name. In both texts a path of a crate, its own too, is written with the crate's name."""

    def __init__(self, package, crate, tops):
        self.package, self.crate, self.tops = package, crate, tops

    def of_source(self, path):
        if path[0] == 'crate':
            path = (self.crate, *path[1:])
        return self.common(path)

    def of_package(self, path):
        if path[0] in ('crate', 'zacpi', 'acpi_programs'):
            package = self.package if path[0] == 'crate' and self.package else path[0]
            path = self.within(package, path[1:])
        return self.common(path)

    def within(self, package, rest):
        if rest[:1] == ('rattle',) and package == 'acpi_programs':
            return rest[1:] if rest[1:2] == ('bitflags',) else ('std', *rest[1:])
        if package == 'zacpi' and rest[:1] in (('alloc',), ('flags',)):
            return ('std', *rest) if rest[0] == 'alloc' else ('bitflags', *rest[1:])
        if rest[:1] and (package, rest[0]) in self.tops:
            return (*self.tops[package, rest[0]], *rest[1:])
        return ('acpi' if package == 'zacpi' else self.crate, *rest)

    def common(self, path):
        if path[0] == 'core':
            path = ('std', *path[1:])
        if path[:2] == ('std', 'collections'):
            path = ('std', 'alloc', *path[2:])
        # The programs see these two as one.
        return ('acpi', *path[1:]) if path[0] == 'acpi_fixed' and self.package == 'acpi_programs' else path

    def named(self, words, path_of):
        """The words with paths so written and without imports, and the imports, each with all that it names."""
        left, imports, at = [], collections.Counter(), 0
        while at < len(words):
            if words[at] == 'use' and (not left or re.match(r'[;{})]|pub$|#', left[-1])):
                end = words.index(';', at)
                shown = 1 if left[-1:] == ['pub'] else 4 if left[-4:-2] == ['pub', '('] else 0
                shown, left = ''.join(left[len(left) - shown:]), left[:len(left) - shown]
                for path in leaves(words[at + 1:end]):
                    imports[f'{shown} {"::".join(path_of(path))}'.strip()] += 1
                at = end + 1
            elif words[at + 1:at + 2] == ['::'] and re.match(r'[a-z]', words[at]) and left[-1:] != ['::']:
                end = at + 2
                while words[end + 1] == '::':
                    end += 2
                left += '::'.join(path_of(tuple(words[at:end + 1:2]))).replace('::', ' :: ').split()
                at = end + 1
            else:
                left.append(words[at])
                at += 1
        return left, imports


def leaves(words):
    """Each path that the words of an import name."""
    if '{' not in words:
        yield tuple(' '.join(words).split(' :: '))
        return
    opened, depth, begin = words.index('{'), 0, words.index('{') + 1
    for i in range(opened, len(words)):
        depth += (words[i] == '{') - (words[i] == '}')
        if words[i] == ',' and depth == 1 or depth == 0:
            if begin < i:
                yield from (tuple(words[:opened - 1:2]) + rest for rest in leaves(words[begin:i]))
            begin = i + 1


def laid_out(words):
    """The words without what a formatter may add: commas before closing brackets, and braces of one expression that
    is an arm's or a closure's."""
    out, at = list(words), 0
    while at < len(out):
        if out[at] == '{' and at and out[at - 1] in ('=>', '|', '||'):
            end = closer(out, at, '{')
            if is_expression(out[at + 1:end]):
                out[at:end + 1] = out[at + 1:end] + ([','] if out[at - 1] == '=>' else [])
                continue
        at += 1
    out = [word for word, after in zip(out, [*out[1:], '']) if word != ',' or after not in ('}', ')', ']', '>', ',')]
    return [word for before, word in zip(['', *out], out) if word != ',' or before != '}']


def is_expression(words):
    depth = 0
    for word in words:
        depth += (word in PAIRS) - (word in PAIRS.values())
        if word == ';' and not depth:
            return False
    return bool(words)


def with_slices(words):
    """The words of exports in which each slice is one parameter again, and the number of these."""
    out, taken, count, at = [], [], 0, 0
    while at < len(words):
        made = re.match(r'(\w+) : \* (mut|const) ([^,]*) , \1_length : usize ', ' '.join(words[at:at + 14]) + ' ')
        let = re.match(r'let (\w+) = unsafe { core :: slice :: from_raw_parts(_mut)? \( \1 , \1_length \) } ; ',
                       ' '.join(words[at:at + 20]) + ' ')
        if made and out[-1:] in (['('], [',']):
            taken.append((made[1], 'mut' if made[2] == 'mut' else ''))
            count += 1
            out += f'{made[1]} : & {"mut " * (made[2] == "mut")}[ {made[3]} ]'.split()
            at += len(made[0].split())
        elif let and taken[:1] == [(let[1], (let[2] or '')[1:])]:
            taken.pop(0)
            at += len(let[0].split())
        else:
            if taken and words[at] in ('fn', '}'):
                raise Odd(f'no slice is made of {taken[0][0]}')
            out.append(words[at])
            at += 1
    return out, count
