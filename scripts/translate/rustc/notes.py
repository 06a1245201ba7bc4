# SPDX-License-Identifier: MIT
"""For scripts/translate/rustc/names.py: what a reader is told of an instruction beside its line of the source. Of what
reads or writes memory it is the member, of a comparison the name of the variant that is compared with, and of a switch
and of what comes from several ways the names of the variants that they have."""
import re

from .debug import REGISTER, Types

OF_ENUM = rf'\s+({REGISTER}) = (?:(phi|freeze|select|zext|trunc|and|or)\b.*|load (\S+), ptr ({REGISTER}),.*)'
WRITES = rf'\s+(?:tail )?call void @llvm\.mem(?:cpy|move|set)\.\S+\(ptr [^%]*({REGISTER}), .*?, i64 (\d+), i1 false\)'
COMPARES = rf'\s+{REGISTER} = icmp (?:\w+ )*i\d+ ({REGISTER}), (-?\d+)'


def width(kind):
    """The bytes of a value in memory."""
    return {'ptr': 8, 'i1': 1}.get(kind) or (int(kind[1:]) + 7) // 8 if re.match(r'ptr$|i\d+$', kind) else 0


def variants(types, kind):
    """The names of an enum's variants by their numbers, if a value of the type begins with that; or nothing."""
    debug, fields = types.debug, types.debug.fields(kind)
    items = [debug.fields(one) for one in debug.items(fields.get('elements'))]
    if fields.get('tag') == 'DW_TAG_enumeration_type':
        return {one.get('value'): one.get('name') for one in items}
    if fields.get('tag') == 'DW_TAG_variant_part':
        names = {}
        for one in items:
            if one.get('extraData'):
                names[one['extraData'].split()[-1]] = one.get('name')
            else:  # the variant that is any other number, which may be of an enum in it
                inner = debug.items(debug.field(one.get('baseType'), 'elements'))
                names = {**(variants(types, debug.field(inner[0], 'baseType')) if len(inner) == 1 else {}), **names}
        return names
    found = [one for one in debug.items(fields.get('elements')) if debug.field(one, 'tag') == 'DW_TAG_variant_part']
    begins = found and Types.is_at(debug.fields(debug.field(found[0], 'discriminator')), 0, 1)
    return variants(types, found[0]) if begins else {}


class Notes:
    """The notes of a function's instructions, by the names and the types of its registers."""

    def __init__(self, registers, body):
        self.registers, self.types, self.known = registers, registers.types, {}
        for name, variable in registers.variables.items():
            self.learn(name, variable.of)
        for _ in range(3):  # what comes from several ways may be known by a later one
            for line in body:
                self.follow(line)

    def learn(self, name, kind):
        found = variants(self.types, kind) if kind else {}
        if found and name not in self.known:
            self.known[name] = found

    def follow(self, line):
        """A value that is made of one whose variants are known, or is read from a member of an enum's type."""
        found = re.match(OF_ENUM, line)
        if not found or found[1] in self.known:
            return
        if found[3]:
            part = self.registers.member(found[4], width(found[3]))
            self.learn(found[1], part and part[1])
            return
        parts = line.split(' = ', 1)[1].split(', !', 1)[0]
        of = next((self.known[one] for one in re.findall(REGISTER, parts) if one in self.known), None)
        if of and found[2] not in ('and', 'or'):
            self.known[found[1]] = of

    def note(self, line):
        """The note of an instruction, or nothing."""
        for pattern, read in ((rf'\s+store (\S+) (\S+), ptr ({REGISTER}), align', self.store),
                              (rf'\s+{REGISTER} = load (\S+), ptr ({REGISTER}), align', self.load),
                              (WRITES, self.copy), (COMPARES, self.compare),
                              (rf'\s+({REGISTER}) = phi i\d+ (.*)', self.phi)):
            found = re.match(pattern, line)
            if found:
                return read(*found.groups())
        return ''

    def store(self, kind, value, pointer):
        field = self.registers.field(pointer, width(kind))
        part = self.registers.member(pointer, width(kind)) if field else None
        name = variants(self.types, part[1]).get(value) if part else None
        return f'{field} = {name}' if name else field

    def load(self, kind, pointer):
        return self.registers.field(pointer, width(kind))

    def copy(self, pointer, length):
        return self.registers.field(pointer, int(length))

    def compare(self, register, value):
        name = self.known.get(register, {}).get(value)
        return f'{value} is {name}' if name else ''

    def phi(self, register, ways):
        names = self.known.get(register, {})
        return ', '.join(f'{value}={names[value]}' for value in re.findall(r'\[ (-?\d+),', ways) if value in names)

    def switch(self, register, values):
        """The note of a switch, whose numbers these are."""
        names = self.known.get(register, {})
        return ', '.join(f'{value}={names[value]}' for value in values if value in names)
