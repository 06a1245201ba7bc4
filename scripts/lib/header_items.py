# SPDX-License-Identifier: MIT
"""What the headers for C declare for callers, with their comments, in the order of the headers: for the scripts that
make documents of them (scripts/manuals, scripts/site). A comment is a list of blocks: a paragraph, or lines
that are laid out as they are, each with its first blank."""
import re
from functools import cache
from pathlib import Path

ROOT = Path(__file__).resolve().parents[2]
HEADERS = ['zacpi.h', 'zacpi_write.h', 'zacpi_map.h', 'zacpi_source.h', 'zacpi_tables.h']
# Of the header of raw structs, whose structs are shown as they are there, what a caller calls.
RAW_CALLS = {'zacpi_wake_processor', 'zacpi_raw_hest_source_length'}
# The inline that C.md's questions don't have, and callers call; the macros and types that they use.
HELPERS = {'zacpi_status_name'}
NAMES = {'ZACPI_VERSION', 'ZACPI_VERSION_NUMBER', 'ZACPI_ABI', 'ZACPI_SIGNATURE', 'zacpi_status'}
TOKEN = re.compile(r'(?s)(?P<comment>/\*.*?\*/)|(?P<record>(?:struct|enum) (?P<tag>zacpi_\w+) \{.*?\};)|'
                   r'(?P<alias>typedef (?:[^;{]*?)(?P<new>\w+);)|(?P<macro>#define (?P<defined>\w+)(?:\\\n|[^\n])*)|'
                   r'(?P<call>(?:ZACPI_STATUS|static inline [\w *]*?)[ *]?(?P<name>zacpi_\w+)\([^;{]*?\)(?=;| \{))|'
                   r'(?P<other>[^\n]+)|(?P<end>\n+)')


def blocks(comment):
    """The blocks of a comment's text."""
    lines = [re.sub(r'^ ?\* ?', '', line) for line in re.sub(r'^/\*+ ?|\s*\*/$', '', comment).split('\n')]
    found, is_laid_out = [], False
    for line in lines:
        laid_out = bool(re.match(r'  +\S', line)) or (is_laid_out and not line.strip())
        if not line.strip() and not laid_out:
            found.append('')
        elif laid_out != is_laid_out or not found or found[-1] == '':
            found.append(' ' + line if laid_out else line.strip())
        else:
            found[-1] += '\n ' + line if laid_out else ' ' + line.strip()
        is_laid_out = laid_out
    return [block.rstrip() for block in found if block.strip()]


class Item:
    """A struct, an enum, a type, a macro or a call: its kind, name, header, line, declaration, comment and section."""
    def __init__(self, kind, name, header, line, text, comment, section, notes):
        self.kind, self.name, self.header, self.line, self.text = kind, name, header, line, text
        self.comment, self.section, self.notes = comment, section, notes

    def prototype(self):
        """How a call is declared, without what makes it an inline."""
        text = re.sub(r'^ZACPI_STATUS', 'zacpi_status', re.sub(r'^static inline ', '', self.text))
        return ' '.join(text.split())

    def words(self):
        """The comment as one text."""
        return ' '.join(' '.join(block.split()) for block in self.comment)

    def brief(self):
        """What the comment begins with: its first sentence, or what comes before a list."""
        return re.match(r'(.*?[.:])(?= [A-Z]|$)|.*', self.words())[0]


def is_wanted(header, kind, name, text):
    """Whether callers use what is declared."""
    if header == 'zacpi_tables.h':
        return name in RAW_CALLS
    if kind == 'record':
        return header not in ('zacpi_map.h', 'zacpi_source.h') or name == 'zacpi_mapper'
    if kind != 'call':
        return name in NAMES
    is_export = header == 'zacpi.h' and text.startswith('ZACPI_STATUS')
    return is_export or header == 'zacpi_write.h' or name in HELPERS or name in asked()


@cache
def groups():
    """The groups of C.md's questions, each with its rows: a question, and its calls."""
    table = (ROOT / 'docs/C.md').read_text().split('## From a question to its call')[1].split('\n## ')[0]
    found, title = {}, ''
    for question, calls in re.findall(r'(?m)^\| (?!question)(\S.*?) \| (.*) \|$', table):
        begin = re.match(r'\*\*(.*?)\.\*\* ', question)
        title = begin[1] if begin else title
        found.setdefault(title, []).append((question[begin.end():] if begin else question, calls))
    return found


@cache
def asked():
    """The calls that the questions have, in their order, each with the group of its first question."""
    found = {}
    for title, rows in groups().items():
        for call in re.findall(r'`(zacpi_\w+\w)`', ' '.join(calls for _, calls in rows)):
            found.setdefault(call, title)
    return found


class Reader:
    """Reads a header. A comment belongs to what comes right after it. What another comment or a blank line comes after
    stands by itself: a note of what follows in its section."""
    def __init__(self, header):
        self.header, self.found = header, []
        self.section, self.notes, self.comment = '', [], None
        self.before = ''  # the comment of the call right before, which several share
        self.text, self.line, last = (ROOT / 'include' / header).read_text(), 1, 0
        for token in TOKEN.finditer(self.text):
            self.line += self.text.count('\n', last, token.start())
            last = token.start()
            if token['end']:
                self.end(token[0])
            elif token['comment']:
                self.remark(token)
            elif token['other']:
                self.comment = self.comment if token[0] in (';', ' ') else None
            else:
                self.item(token)

    def end(self, lines):
        if len(lines) > 1:
            self.notes += [self.comment] if self.comment and 'SPDX-' not in self.comment else []
            self.comment, self.before = None, ''

    def remark(self, token):
        head = re.match(r'/\* (.*?) -+ \*/$', token[0])
        if head:
            self.section, self.notes, self.comment = head[1], [], None
        elif self.text[token.start() - 1] == '\n':
            self.notes += [self.comment] if self.comment else []
            self.comment, self.before = token[0], ''
        elif self.found and self.found[-1].kind == 'alias' and self.found[-1].line == self.line:
            self.found[-1].comment = blocks(token[0])

    def item(self, token):
        kind = next(each for each in ('record', 'alias', 'macro', 'call') if token[each])
        name, text = token['tag'] or token['new'] or token['defined'] or token['name'], token[0]
        words = self.comment or (self.before if kind == 'call' else '')
        self.comment, self.before = None, words
        if kind == 'macro':
            text, mark, after = text.partition('/*')
            words, text = words or mark + after, text.rstrip()
        if is_wanted(self.header, kind, name, text):
            self.found.append(Item(kind, name, self.header, self.line, text, blocks(words) if words else [],
                                   self.section, self.notes))
            self.notes = []


@cache
def of_header(header):
    return Reader(header).found


def every():
    return [item for header in HEADERS for item in of_header(header)]


def first_comment(name='zacpi.h'):
    """What a header's first comment, after its licence, has."""
    text = (ROOT / 'include' / name).read_text()
    return blocks(re.findall(r'(?s)/\*.*?\*/', text)[1])


def text_of(comment):
    """A comment's text, as one line."""
    return ' '.join(re.sub(r'(?m)^ *\* ?|^/\*+|\*/$', ' ', comment).split())


def members(item):
    """What a record or an enum consists of: what its own comment after the bracket has, and of each field or constant
    its declaration, its comment, and a comment that is a head of it and those after it."""
    body = re.search(r'(?s)\{(.*)\}', item.text)[1]
    own = re.match(r'(?s)[ \t]*(/\*.*?\*/)', body)
    body = body[own.end():] if own else body
    end, found, text, before, is_new_line = ';' if item.text.startswith('struct') else ',', [], '', '', True
    for token in re.findall(rf'(?s)/\*.*?\*/|[{end}\n]|[^{end}\n/]+', body + end):
        if token.startswith('/*'):
            if text.strip():
                found_words = text_of(token)
                text, before = text + ' ', (before, found_words)
            elif is_new_line:
                before = text_of(token)
            else:
                name, words, _ = found[-1]
                found[-1] = name, text_of(token), words
        elif token == end and text.strip():
            head, words = before if isinstance(before, tuple) else ('', before)
            found.append((' '.join(text.split()), words, head))
            text, before, is_new_line = '', '', False
        elif token == '\n':
            is_new_line, text = is_new_line or not text.strip(), text + ' '
        else:
            text += token
    return text_of(own[1]) if own else '', found


@cache
def statuses():
    """What each error means, in the order of its numbers: name, number and comment."""
    found = members(next(item for item in of_header('zacpi.h') if item.name == 'zacpi_status_code'))[1]
    return {declaration.split()[0]: (int(declaration.split()[2]), words) for declaration, words, _ in found}
