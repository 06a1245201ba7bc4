# SPDX-License-Identifier: MIT
"""The layouts of acpi_dump, as crates/acpi_dump_walk/src/language.rt describes their language: for the scripts that
check them, and that make other texts of them."""
import os
import re

TOP = os.path.realpath(f"{__file__}/../../..")
SOURCE = f"{TOP}/crates/acpi_dump_walk/src"

# Numbers, sums, and how a line of each form begins.
NUMBER = r"(?:0x[0-9a-fA-F]+|[0-9]+)"
FACTOR = rf"{NUMBER}(?::{NUMBER})?"
TERM = rf"{FACTOR}(?:\*{FACTOR})*"
PART = rf"{TERM}(?:-{TERM})?"
SUM = rf"{PART}(?:\+{PART})*"
KINDS = rf"\*|{NUMBER}(?:-{NUMBER})?"
LENGTH = rf"\*|z|<?{SUM}"
COUNT = rf"\*|{SUM}"
FIELD = rf"(?:>|{SUM}) (?:(?:{LENGTH})|{SUM}\[(?:{COUNT})\]) (?:-|dec|dec\+1|text|wide|row|guid|fn|path|gas) [^|]+"
CODED = rf"(?:>|{SUM}) (?:{LENGTH}) (codes|flags|parts|dec|guid) [^|]+\|(.+)"
LIST = (
    rf"(?:>|{SUM}) \{{(?:{COUNT}|~{SUM})\}} (?:(each) (?:z|{SUM})|(own) {SUM}|(typed) {SUM} {SUM}|(sized) {SUM}) (\S+)"
)
CHOICE = rf"if {SUM} (?:[&!]{NUMBER}|{NUMBER}(?:-{NUMBER})?) (\S+)"
INNER = r"(?:with|then) (\S+)"
ITEMS = {
    "codes": rf"{NUMBER} .+",
    "dec": rf"{NUMBER} .+",
    "guid": r"[0-9a-f]{8}(?:-[0-9a-f]{4}){3}-[0-9a-f]{12} .+",
    "flags": rf"{NUMBER}(?::{NUMBER})?(?:/{NUMBER})? .+",
}
ITEMS["parts"] = ITEMS["flags"]


def sources():
    """The files of layouts, each with its text."""
    for file in sorted(os.listdir(f"{SOURCE}/layouts")):
        with open(f"{SOURCE}/layouts/{file}") as text:
            yield file, text.read()


def texts():
    """The texts of layouts, by their names: of each its blocks: a name, types, a size, a title and lines."""
    found = {}
    for _, text in sources():
        for name, lines in re.findall(r'const (\w+): &str = "\n(.*?)";', text, re.S):
            blocks = re.sub(r"\\\n\s*", "", lines).split("\n=")
            first = [] if blocks[0].startswith("=") else [["", "*", "-", "", blocks[0].split("\n")]]
            heads = [it.lstrip("=") for it in blocks[len(first) :]]
            found[name] = first + [
                [*(it.split("\n")[0].split(maxsplit=3) + [""])[:4], it.split("\n")[1:]] for it in heads
            ]
    return found


class Field:
    """A field at a fixed offset: so many bytes, a meaning, a name, and the lines of its codes or flags."""

    def __init__(self, offset, length, meaning, name, items):
        self.offset, self.length, self.meaning, self.name, self.items = offset, length, meaning, name, items


class Structure:
    """A table or a part of one: the fields whose places are fixed, what follows them in words, and its lists."""

    def __init__(self, text, block):
        self.text, self.block, self.kinds, self.title, self.shown = text, block[0], block[1], block[3], block[3]
        self.fields, self.rest, self.lists, self.choices, self.is_choice = [], [], [], [], False

    def is_table(self):
        return self.kinds == "*" and bool(re.fullmatch(r"[A-Z0-9_!]{4}", self.block))

    def end(self):
        return self.fields[-1].offset + self.fields[-1].length if self.fields else 0

    def add(self, field):
        """Adds a field in the order of the offsets, if no other has any of its bytes."""
        if all(it.offset + it.length <= field.offset or field.offset + field.length <= it.offset for it in self.fields):
            self.fields = sorted([*self.fields, field], key=lambda it: it.offset)


def find(blocks, name, kinds="*"):
    return next((it for it in blocks if it[0] == name and it[1] == kinds), None)


def items_of(blocks, words):
    """The lines of codes or flags after a field's name: the name of the block that has them, or "", and the lines."""
    words = words.strip()
    if words.startswith("@"):
        return words[1:], [it.strip() for it in find(blocks, words[1:])[4] if it.strip()]
    return "", [it.strip() for it in words.split("|")]


def add_lines(found, blocks, lines, base=0):
    """Adds to a structure what lines of its block say, with offsets from base on: None if that isn't fixed."""
    for line in filter(None, map(str.strip, lines)):
        entries = re.fullmatch(LIST, line)
        if entries:
            found.lists.append((base, line, entries[5]))
        elif line.startswith("if ") and line.split()[1:3] == ["0:1", found.kinds]:
            add_lines(found, blocks, find(blocks, line.split()[3])[4], base)  # what all of its type have
        elif line.startswith("if "):
            found.choices.append((base, line.split()))
        elif line.startswith(("with ", "then ")):
            is_fixed = line.startswith("with ") or not (found.rest or found.lists)
            inner = base if line.startswith("with ") else found.end()
            add_lines(found, blocks, find(blocks, line.split()[1])[4], inner if is_fixed else None)
        else:
            offset, length, meaning, name = line.split(" | ")[0].split(maxsplit=3)
            items = items_of(blocks, line.split("|", 1)[1]) if "|" in line else ("", [])
            if base is None or not (offset.isdigit() and length.isdigit()):
                found.rest.append((base, offset, length, name, items))
            else:
                found.add(Field(base + int(offset), int(length), meaning, name, items))


def laid(text, blocks, block):
    """The structure that a block describes. One of a type begins with what the block of its name and `*` has."""
    found = Structure(text, block)
    first = find(blocks, block[0]) if block[1] != "*" else None
    for it in filter(None, [first, block]):
        add_lines(found, blocks, it[4])
    return found


def structures():
    """The structures of all tables, in the order of the layouts: blocks of codes and flags, and of lines that others
    take in as theirs, are none."""
    for text, blocks in texts().items():
        lines = "\n".join(line for it in blocks for line in it[4])
        others = {*re.findall(r"\| @(\S+)", lines), *re.findall(r"(?:with|then|if \S+ \S+) (\S+)", lines)}
        for block in blocks:
            if block[0] not in others:
                yield laid(text, blocks, block)
