# SPDX-License-Identifier: MIT
"""scripts/translate/rustc/names.py MODULE.ll SOURCES TO.ll: for scripts/dist, what LLVM's passes leave of
the Rust package's module without its debug information, but with what that tells a reader. Registers have the names of
the source's variables; notes, which scripts/translate/ir2c makes comments of, have each function's documentation, the
line of the source that an instruction is of, and the member that a store writes. SOURCES is the package's folder
`src`."""
import re
import sys
from pathlib import Path

sys.dont_write_bytecode = True
sys.path.insert(0, str(Path(__file__).resolve().parents[2]))
from translate.translator.text import ELEMENT, KNOWN, split
from translate.rustc.debug import GLOBAL, REGISTER, Debug, Types
from translate.rustc.notes import Notes, width
from translate.rustc.pointers import address_of, with_numbers
from translate.rustc.wide import without_wide

# Names that tell less than others of the same value: parameters of the library's functions, and what `?` makes.
DULL = {'self', 'x', 'ptr', 'value', 'val', 'data', 'n', 'v', 'f', 'rhs', 'lhs', 'src', 'dst', 'iter', 'residual', 't',
        'index', 'slice', 'begin', 'end', 'start', 'other', 'count'}
# What LLVM's passes name values by.
MADE = {'or', 'spec', 'not', 'cond', 'narrow', 'switch', 't', 'wide', 'brmerge', 'sh', 'tr', 'umin', 'indvars',
        'exitcond'}
# What is put to the name of the first value that another is made of. What isn't here has that name itself.
SUFFIXES = {'add': '_sum', 'sub': '_less', 'mul': '_times', 'udiv': '_divided', 'urem': '_rest', 'getelementptr': '_at',
            'icmp': '_compared', 'xor': '_flipped', 'or': '_joined'}
NAMED_BY = {'zext', 'sext', 'trunc', 'freeze', 'phi', 'select', 'and', 'lshr', 'ashr', 'shl', 'insertvalue', 'ptrtoint',
            'inttoptr', 'extractvalue', *SUFFIXES}


STEP = rf'\s+({REGISTER}) = getelementptr {KNOWN}({ELEMENT}), ptr ({REGISTER}), i64 (\S+?),?(?: |$)'


class Variable:
    """A variable of the source that a register is, or is a part of."""
    PATTERN = re.compile(rf'\s+#dbg_(value|declare)\((\S+) ({REGISTER}), (!\d+), !DIExpression\(([^)]*)\), (!\d+)\)')

    def __init__(self, debug, types, how, kind, node, expression, location):
        self.kind, self.word, self.of = None, None, None
        name, of = debug.field(node, 'name'), debug.field(node, 'type')
        fragment = re.fullmatch(r'DW_OP_LLVM_fragment, (\d+), (\d+)', expression)
        if not name or expression and not fragment:
            return
        offset, size = (int(fragment[1]) // 8, int(fragment[2]) // 8) if fragment else (0, types.size(of))
        part = types.part(of, offset, size)
        suffix = [re.sub(r'\W+', '_', one).strip('_') for one in part[0]] if part else [f'at{offset}'] if offset else []
        # A struct of one member is the member.
        suffix = suffix if fragment else []
        self.of = part[1] if fragment and part else None if fragment else of
        self.kind = of if how == 'declare' else types.pointee(part[1]) if part and kind == 'ptr' else None
        self.word = '_'.join([re.sub(r'\W', '_', name), *suffix])
        scope = debug.field(node, 'scope')
        is_own = (debug.file(node) or debug.file(debug.function_of(scope))).startswith('src/')
        self.rank = not is_own, name in DULL, len(suffix), debug.depth(location)


class Registers:
    """The names of a function's registers, and what they point to."""

    def __init__(self, debug, types, head, body, passed):
        self.debug, self.types = debug, types
        self.variables, self.kinds, self.roots = {}, {}, {}
        self.read_variables(body)
        first = re.search(rf'@(?:"[^"]*"|[\w.$-]+)\((.*)\)', head)[1]
        self.arguments = re.findall(REGISTER, first)
        place = re.search(rf'sret\([^()]*\).*? ({REGISTER})', first)
        self.result = place and place[1]
        if place:
            self.kinds.setdefault(place[1], types.returned(re.search(r'!dbg (!\d+)', head)[1]))
        for _ in range(2):  # what is copied may be known later
            self.read_pointers(body, passed)
        self.words = self.all_words(body)

    def read_variables(self, body):
        for line in body:
            found = Variable.PATTERN.match(line)
            if not found:
                continue
            how, kind, register, node, expression, location = found.groups()
            variable = Variable(self.debug, self.types, how, kind, node, expression, location)
            if variable.word and (register not in self.variables or variable.rank < self.variables[register].rank):
                self.variables[register] = self.variables[address_of(register)] = variable
            if variable.kind:
                for one in (register, address_of(register)):
                    self.kinds.setdefault(one, variable.kind)

    def read_pointers(self, body, passed):
        """What registers point to that no variable is: places in others, results, what is read from a member."""
        for line in body:
            step = re.match(STEP, line)
            if step and step[4].lstrip('-').isdigit() and step[2] == 'i8':
                root, offset = self.roots.get(step[3], (step[3], 0))
                self.roots[step[1]] = root, offset + int(step[4])
            elif step and step[3] in self.kinds:
                self.kinds.setdefault(step[1], self.kinds[step[3]])
            call = re.match(rf'.*\bcall [^@]*({GLOBAL})\((.*)\)', line)
            for kind, given in zip(passed.get(call[1], ()) if call else (), split(call[2]) if call else ()):
                if kind and re.search(rf'{REGISTER}$', given):
                    self.kinds.setdefault(re.search(rf'{REGISTER}$', given)[0], kind)
            self.read_copy(line)
            load = re.match(rf'\s+({REGISTER}) = load ptr, ptr ({REGISTER}),', line)
            part = self.member(load[2], 8) if load else None
            if part and self.types.pointee(part[1]):
                self.kinds.setdefault(load[1], self.types.pointee(part[1]))

    def read_copy(self, line):
        """A place that is copied as a whole has the type of what it is copied from or to."""
        copy = re.match(rf'.*@llvm\.memcpy\.\S+\(ptr [^%]*({REGISTER}), ptr [^%@]*({REGISTER}), i64 (\d+),', line)
        for one, other in ((copy[1], copy[2]), (copy[2], copy[1])) if copy else ():
            if one in self.kinds and other not in self.roots and self.types.size(self.kinds[one]) == int(copy[3]):
                self.kinds.setdefault(other, self.kinds[one])

    def member(self, register, size):
        """The member of so many bytes that a register points to: its names and its type."""
        root, offset = self.roots.get(register, (register, 0))
        if register in self.kinds:
            root, offset = register, 0
        length = self.types.size(self.kinds[root]) if root in self.kinds else 0
        if not length:
            return None
        if offset >= length:  # a later one of several
            part = self.types.part(self.kinds[root], offset % length, size)
            return part and ([f'[{offset // length}]', *part[0]], part[1])
        return self.types.part(self.kinds[root], offset, size)

    def field(self, register, size):
        """The same as a text: out.processors.length; with `..` if it is the first of those that the bytes are of."""
        root, _ = self.roots.get(register, (register, 0))
        root = register if register in self.kinds else root
        parts = [(self.member(register, one), one) for one in (size, 8, 4, 2, 1) if one <= size]
        part, found = next(((part, one) for part, one in parts if part and part[0]), parts[0])
        if not part:
            return self.around(register)
        word = self.words.get(root, root)[1:].split('.')[0]
        if not part[0]:
            return f'*{word}'
        names = '.'.join([word, *part[0]])
        return re.sub(r'\.\[', '[', names) + ('' if found == size else ' ..')

    def around(self, register):
        """The name of the member that a place is within, as a text."""
        root, offset = self.roots.get(register, (register, 0))
        for size in (8, 4, 2):
            part = self.types.part(self.kinds[root], offset - offset % size, size) if root in self.kinds else None
            if part and part[0]:
                return '.'.join(['..', *part[0]]).replace('...', '.. ').replace('.[', '[') + ' ..'
        return ''

    def all_words(self, body):
        """The name of each register: its variable's, or what it is made of, and a number."""
        found = [re.match(rf'\s+({REGISTER}) = (.*)', line) for line in body]
        lines, plain = {one[1]: one[2] for one in found if one}, {}
        every = [*self.arguments, *lines]
        for _ in range(2):  # what a phi is made of may come after it
            for register in every:
                plain[register] = self.word(register, lines.get(register, ''), plain)
        for register in every:
            plain[register] += '_number' if address_of(register) in lines else ''
        return {register: f'%{plain[register]}.{number}' for number, register in enumerate(every)}

    def word(self, register, line, plain):
        if register == self.result:
            return 'result'
        own = re.split(r'[.$-]', register[1:].strip('"'))[0].rstrip('0123456789')
        own = '' if re.match(r'_?\d|bb\d', own) or own.lstrip('_') in MADE | DULL else own.strip('_')
        variable = self.variables.get(register)
        if variable and (not variable.rank[0] and not variable.rank[1] or not own):
            return variable.word
        return own or self.made_of(line, plain) or (variable.word if variable else 't')

    def made_of(self, line, plain):
        """A name by what a value is made of, if that has one."""
        load = re.match(rf'load (\S+), ptr ({REGISTER}),', line)
        if load:
            return self.read_from(load[1], load[2], plain)
        call = re.search(rf'\bcall .*?({GLOBAL})\(', line)
        if call and not call[1].startswith('@llvm.'):
            return re.sub(r'(\.\d+)*$', '', call[1]).split('.')[-1]
        operation = line.split(' ')[0]
        if not call and operation not in NAMED_BY:
            return ''
        first = next((plain[one] for one in re.findall(REGISTER, line) if plain.get(one, 't') != 't'), '')
        suffix = SUFFIXES.get(operation, '')
        return first + suffix if first and not first.endswith(tuple(SUFFIXES.values())) else first

    def read_from(self, kind, pointer, plain):
        """A name of what is read: the member's, or what it is read from and how far from there."""
        part = self.member(pointer, width(kind))
        if part and part[0] and part[0][-1][0] != '[':
            return re.sub(r'\W+', '_', part[0][-1])
        root, offset = self.roots.get(pointer, (pointer, 0))
        word = plain.get(root, 't')
        if word == 't':
            return ''
        return f'{word[:-3]}_item' if word.endswith('_at') else f'{word}_at{offset}'

    def renamed(self, text):
        """A text with the names; labels keep theirs."""
        label = rf'(label {REGISTER}|(?<=, ){REGISTER}(?= \]))' if ' = phi ' in text else rf'(label {REGISTER})'
        parts = re.split(label, text)
        parts[::2] = [re.sub(REGISTER, lambda found: self.words.get(found[0], found[0]), part) for part in parts[::2]]
        return ''.join(parts)


class Sources:
    """The lines of the package's files."""

    def __init__(self, folder):
        self.folder, self.files = Path(folder), {}

    def lines(self, file):
        if file not in self.files:
            self.files[file] = (self.folder.parent / file).read_text(encoding='utf-8').split('\n')
        return self.files[file]

    def note(self, place):
        """A line of a file as it is noted."""
        file, number = place
        text = re.sub(r'\s*//.*$', '', self.lines(file)[number - 1]).strip().replace('*/', '* /')
        said = f'{file.removeprefix("src/")}:{number}'
        return f'{said}: {text[:88]}' if len(text) > 3 else said

    def documentation(self, file, number):
        """Where a function is, and what its documentation says."""
        lines, found, at = self.lines(file), [], number - 2
        while at >= 0 and re.match(r'\s*(?:///|#\[)', lines[at]):
            found = [lines[at].strip()[3:].strip(), *found] if lines[at].strip().startswith('///') else found
            at -= 1
        return [f'{file.removeprefix("src/")}:{number}: {found[0] if found else ""}'.rstrip(': '), *found[1:]]


def plain(line):
    """An instruction without metadata."""
    return re.sub(r', ![\w.]+ (?:!\d+|!DI\w+\([^)]*\))|, !srcloc !\d+', '', line)


def function_lines(head, body, known, sources, counts):
    """The lines of a function, with its names and notes."""
    debug, types, passed = known
    registers, lines = Registers(debug, types, head, body, passed), []
    node = re.search(r'!dbg (!\d+)', head)
    file, number = (debug.file(node[1]), debug.field(node[1], 'line')) if node else ('', 0)
    if file.startswith('src/'):
        lines += [f';# {line}' for line in sources.documentation(file, int(number))]
    lines.append(registers.renamed(re.sub(r' personality ptr @\S+| !dbg !\d+', '', head)))
    notes, switch, values = Notes(registers, body), None, []
    for line in body:
        if line.lstrip().startswith('#dbg_') or not line.startswith(' '):
            lines += [] if line.lstrip().startswith('#dbg_') else [line]
            continue
        text, case = registers.renamed(plain(line)), re.match(r'    i\d+ (-?\d+), label', line)
        if case or text.rstrip().endswith('['):  # a switch, whose notes come after its last line
            switch, values = (switch, [*values, case[1]]) if case else (re.search(REGISTER, line)[0], [])
            lines.append(text)
            continue
        location = re.search(r'!dbg (!\d+)', line)
        place = debug.place(location[1]) if location else None
        note = notes.note(line) if line.strip()[0] != ']' else notes.switch(switch, values)
        text += f' ;@{sources.note(place)}' if place else ' ;@' if note else ''
        lines.append(text + (f' ;={note}' if note else ''))
    counts.add(registers, body, notes)
    return lines + ['}']


class Counts:
    """How many values have a name of the source or of what they are made of, and how many stores into what has a known
    type the member's; at least LEAST of a hundred have to, or the file isn't one to read."""
    LEAST = 90

    def __init__(self):
        self.values, self.stores = [0, 0], [0, 0]

    def add(self, registers, body, notes):
        for word in registers.words.values():
            self.values[word.startswith('%t.')] += 1
        for line in body:
            store = re.match(rf'\s+store .*, ptr ({REGISTER}), align', line)
            if store and {store[1], registers.roots.get(store[1], ('',))[0]} & set(registers.kinds):
                self.stores[not notes.note(line)] += 1

    def failed(self):
        of = {'values have a name': self.values, 'stores into a known type name the member': self.stores}
        for what, (named, other) in of.items():
            print(f'{100 * named / (named + other):.1f} % of {named + other} {what}')
        return any(100 * named < self.LEAST * (named + other) for named, other in of.values())


def passed_kinds(debug, types, head, body):
    """The name of a function, and for each of its parameters the type that it points to, if that is known."""
    name, given = re.search(rf'({GLOBAL})\((.*)\)', head).groups()
    node, kinds = re.search(r'!dbg (!\d+)', head), {}
    for line in body:
        found = Variable.PATTERN.match(line)
        if found:
            how, kind, register, *rest = found.groups()
            variable = Variable(debug, types, how, kind, *rest)
            if variable.kind:
                kinds.setdefault(register, variable.kind)
    arguments = [(re.search(rf'{REGISTER}$', one)[0], 'sret(' in one) for one in split(given)]
    result = types.returned(node[1]) if node else None
    return name, [result if is_result else kinds.get(one) for one, is_result in arguments]


def data_names(text, debug):
    """The names of constants: those that the source has, or else what they are, and a number."""
    names = {}
    for symbol, rest in re.findall(rf'^({GLOBAL}) = (.*)$', text, re.M):
        variable = debug.field(re.search(r'!dbg (!\d+)|$', rest)[1], 'var')
        is_made = re.match(r'@(alloc|anon)[_.]', symbol)
        word = debug.path(variable) if variable else f'constant.{len(names)}' if is_made else symbol[1:]
        names[symbol] = f'@{word}'
    return names


def main():
    module, folder, to = sys.argv[1:]
    text = Path(module).read_text(encoding='utf-8')
    debug, sources = Debug(text), Sources(folder)
    types = Types(debug)
    lines, functions, made = iter(text.split('\n')), [], []
    for line in lines:
        if line.startswith('define'):
            functions.append((line, list(iter(lambda: next(lines), '}'))))
        elif line.startswith(('@', '%', 'attributes')):
            made.append(plain(line))
    counts = Counts()
    passed = {name: kinds for name, kinds in (passed_kinds(debug, types, *one) for one in functions)}
    for head, body in functions:
        made += without_wide(function_lines(head, with_numbers(body), (debug, types, passed), sources, counts))
    names = data_names(text, debug)
    made = [re.sub(GLOBAL, lambda found: names.get(found[0], found[0]), line) if '@' in line else line for line in made]
    Path(to).write_text('\n'.join(made) + '\n', encoding='utf-8')
    return counts.failed()


if __name__ == '__main__':
    sys.exit(main())
