# SPDX-License-Identifier: MIT
"""The debug information of a module that rustc made, as LLVM writes it in text, for scripts/dist: of
functions their names in the sources of the proved crates, of instructions their lines, and of variables and types their
names."""
import re

from lib.commands import command

erase = command('erase')

REGISTER = r'%(?:"[^"]*"|[\w.$-]+)'
GLOBAL = r'@(?:"[^"]*"|[\w.$-]+)'
# The crate that each module of the package is, or the module of one.
CRATES = {**erase.CRATE_OF, **{name: f'{crate}.{name}' for crate, names in erase.FILES.items() for name in names}}
NODE = re.compile(r'^(!\d+) = (?:distinct )?!(\w*)[({](.*)[)}]$', re.M)
FIELD = re.compile(r'(\w+): (?:"((?:[^"\\]|\\.)*)"|([^,()]*(?:\([^()]*\))?))(?:, |$)')


class Debug:
    """The nodes of a module's metadata."""

    def __init__(self, text):
        self.text, self.parsed = {}, {}
        for number, kind, body in NODE.findall(text):
            self.text[number] = kind, body

    def kind(self, node):
        return self.text.get(node, ('', ''))[0]

    def fields(self, node):
        """The fields of a node: its kind doesn't matter."""
        if node not in self.parsed:
            self.parsed[node] = {key: quoted or plain for key, quoted, plain in
                                 FIELD.findall(self.text.get(node, ('', ''))[1])}
            self.parsed[node]['node'] = node
        return self.parsed[node]

    def field(self, node, key):
        return self.fields(node).get(key, '') if node else ''

    def items(self, node):
        """The nodes of a list."""
        return re.findall(r'!\d+', self.text.get(node, ('', ''))[1])

    def function_of(self, scope):
        """The function that a scope is in."""
        while scope and self.kind(scope) not in ('DISubprogram', ''):
            scope = self.field(scope, 'scope')
        return scope

    def file(self, node):
        """The file of a scope, as rustc was given it: the package's own begin with src/."""
        return self.field(self.field(node, 'file'), 'filename')

    def path(self, function):
        """A function's name with its crate and modules: acpi_c_interrupts.apics.processors."""
        parts, scope = [plain(self.field(function, 'name'))], self.field(function, 'scope')
        while scope in self.text:
            if self.kind(scope) in ('DINamespace', 'DICompositeType', 'DISubprogram'):
                parts.insert(0, plain(self.field(scope, 'name')))
            scope = self.field(scope, 'scope')
        parts = [part for part in parts if part and not re.match(r'impl_\d+$', part)]
        if parts[0] == 'zacpi':
            parts = [CRATES.get(parts[1], parts[1]), *parts[2:]]
        return '.'.join(parts)

    def place(self, location):
        """The innermost line of the package's own sources that an instruction is of: its file and its number."""
        while location in self.text:
            scope = self.field(location, 'scope')
            file = self.file(scope) or self.file(self.function_of(scope))
            line = int(self.field(location, 'line') or 0)
            if file.startswith('src/') and line:
                return file, line
            location = self.field(location, 'inlinedAt')
        return None

    def depth(self, location):
        """How many calls that were made a part of their caller a place is in."""
        count = 0
        while self.field(location, 'inlinedAt'):
            location, count = self.field(location, 'inlinedAt'), count + 1
        return count


def plain(name):
    """A name without its type parameters, of letters, digits and underscores."""
    return re.sub(r'\W+', '_', re.sub(r'<.*', '', name)).strip('_')


def named_functions(text, debug):
    """The name of each function that isn't an export, by its symbol: its path, with a number if another has that."""
    names, taken = {}, set()
    for symbol, node in re.findall(rf'^define [^@]*({GLOBAL})\(.*!dbg (!\d+) ?\{{$', text, re.M):
        if re.match(r'@zacpi_\d+_', symbol):
            continue
        path = name = debug.path(node)
        count = 1
        while name in taken:
            count += 1
            name = f'{path}.{count}'
        taken.add(name)
        names[symbol] = f'@{name}'
    return names


class Types:
    """What debug information says of the layout of types."""
    FEW = 3

    def __init__(self, debug):
        self.debug = debug

    def pointee(self, kind):
        """What a pointer's type points to, or None if the type is no pointer's."""
        fields = self.debug.fields(kind)
        return fields.get('baseType') if fields.get('tag') == 'DW_TAG_pointer_type' else None

    def size(self, kind):
        fields = self.debug.fields(kind)
        if fields.get('tag') == 'DW_TAG_typedef':
            return self.size(fields.get('baseType'))
        return int(fields.get('size') or 0) // 8

    def part(self, kind, offset, size):
        """The names of the members that lead to what has `size` bytes at an offset in a type, and its type; or None if
        no member is there. Members of tuples and of what points to lists have no names."""
        fields = self.debug.fields(kind)
        if self.size(kind) == size and offset == 0 and not fields.get('elements'):
            return [], kind
        if fields.get('tag') == 'DW_TAG_array_type':
            item = fields.get('baseType')
            length = self.size(item)
            if offset == 0 and size == self.size(kind) > length:
                return [], kind
            found = self.part(item, offset % length, size) if length else None
            return found and ([f'[{offset // length}]', *found[0]], found[1])
        members = [self.debug.fields(one) for one in self.debug.items(fields.get('elements'))]
        found = [self.member(one, offset, size) for one in members]
        found = [one for one in found if one]
        if found and all(one[0] == found[0][0] for one in found):
            return found[0]
        return ([], kind) if offset == 0 and size == self.size(kind) else None

    def member(self, fields, offset, size):
        """The same in a member of a type, or in the variants of an enum, if all that have it agree."""
        if fields.get('tag') == 'DW_TAG_variant_part':
            tag = self.debug.fields(fields.get('discriminator'))
            if self.is_at(tag, offset, size):
                return ['kind'], fields['node']
            return self.of_variants(fields, offset, size)
        begin = int(fields.get('offset') or 0) // 8
        if not begin <= offset <= offset + size <= begin + self.size(fields.get('baseType')):
            return None
        found = self.part(fields.get('baseType'), offset - begin, size)
        name = fields.get('name', '')
        own = [] if re.match(r'__\d+$|data_ptr$', name) else [name]
        return found and ([*own, *found[0]], found[1])

    def of_variants(self, fields, offset, size):
        """The same in what the variants of an enum have beside their number: the payload, if that is of several that
        have no names for it, and of few that do the names of each."""
        found = {}
        for node in self.debug.items(fields.get('elements')):
            part = self.part(self.debug.field(node, 'baseType'), offset, size)
            if part:
                found.setdefault('.'.join(part[0]) or self.debug.field(node, 'name'), part)
        if len(found) == 1:
            (name, (names, kind)), = found.items()
            return names or [name], kind
        has_names = all(names and names != ['payload'] for names, _ in found.values())
        return ([('|'.join(found) if has_names and len(found) <= self.FEW else 'payload')], None) if found else None

    @staticmethod
    def is_at(member, offset, size):
        begin, length = int(member.get('offset') or 0) // 8, int(member.get('size') or 0) // 8
        return (begin, length) == (offset, size)

    def returned(self, function):
        """The type that a function returns."""
        types = self.debug.field(self.debug.field(function, 'type'), 'types')
        return next(iter(self.debug.items(types)), None)
