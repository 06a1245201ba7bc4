# SPDX-License-Identifier: MIT
"""Which bytes the definitions of specs/*.antt read and write: for scripts/check/definitions.

A definition reads by `field_of`, `part` and `filled_part`, of bytes, an offset and a number of bytes; by `slice_index`,
of a list and an index; by a record of `at` and `width`; by `drop`, of which only the offset counts; or by a definition
that is passed an offset: what that reads there is its own. A list of fields, as `U8 a ∷ Zeros 3 ∷ []`, writes them one
after the other. What is computed is left out, but for sums."""
import re
from dataclasses import dataclass

from lib.definitions import definitions, items, parts

READERS = {"field_of": 3, "part": 3, "filled_part": 3, "slice_index": 2, "drop": 1}
WIDTHS = {"One": 1, "Two": 2, "U8": 1, "U16": 2, "U32": 4, "U64": 8}
TOKEN = re.compile(r"--[^\n]*|\n|[(){},;]|[^\s(){},;]+")
LAW = re.compile(r"(?m)((?:^--.*\n)*)^pub record (\w+)(?:.*\n)*?.* where\n((?:.+\n)+)")
ALONE = re.compile(r"(?m)((?:^-- [^-].*\n)+)\n")
# Of the bits of `accept`, which says what checks are given up, no table has any.
BITS = re.compile(r"\b(?:has_bit|bits_of) (?!accept )(?:\((?:[^()]|\([^()]*\))*\)|\S+) (\d+)(?: (\d+))?")
READ = re.compile(r"\b(?:field_of|part|filled_part) \S+ (\d+) (\d+)\b")


@dataclass
class Place:
    """Bytes at an offset, with no width if they go on to an end; the comment beside them, which of its names is theirs,
    and the number that is written there. The offset is -1 where a comment has one where no field of a list begins."""
    offset: int
    width: int
    note: str
    rank: int = 0
    number: int = None


@dataclass
class Bits:
    """The lowest of some bits of a number, how many they are, and the comment beside them."""
    low: int
    width: int
    note: str


@dataclass
class Reader:
    """A definition, or a record of laws, that reads or writes bytes or bits: the comment above it, and the places."""
    crate: str
    stem: str
    name: str
    comment: str
    places: list

    def __str__(self):
        return f"{self.crate}: {self.stem}.{self.name}"


class Word(str):
    """A word of a body, with its line."""


def tree(body):
    """The words of a body, those in brackets as lists. Implicit arguments and comments are left out."""
    stack, line = [[]], 0
    for token in TOKEN.findall(body):
        line += token == "\n"
        if token in "({":
            stack.append([])
        elif token in ")}" and len(stack) > 1:
            inner = stack.pop()
            if token == ")" or stack[-1][-1:] == ["record"]:
                stack[-1].append(inner)
        elif token not in "\n,;)}" and not token.startswith("--"):
            stack[-1].append(Word(token))
            stack[-1][-1].line = line
    return stack[0]


def value(node, known):
    """The number that a word or a sum is, by the values of parameters, or None."""
    if isinstance(node, list):
        terms = [value(it, known) for it in node[::2]]
        return sum(terms) if None not in terms and all(it == "+" for it in node[1::2]) else None
    return int(node, 0) if re.fullmatch(r"0x[0-9a-f]+|\d+", node) else known.get(node)


def mentions(node, names):
    return any(mentions(it, names) for it in node) if isinstance(node, list) else node in names


def extended(arguments, passed, known):
    """The places of `extended_at`, which is passed what reads the bytes from an offset on: if that doesn't read all of
    them, all together are the place."""
    base, most = (value(it, known) for it in arguments[2:4])
    if base is None:
        return []
    inner = [(base + offset, width) for _, offset, width in reads(arguments[0], passed, {})]
    return inner if max(map(sum, inner), default=base) == base + most else [(base, most)]


def reads(nodes, passed, known, is_called=False):
    """The line, the offset and the number of bytes of each read, by the values of parameters; of a definition that is
    called only those at an offset that is a parameter's. `passed` has the definitions that are passed an offset."""
    for at, node in enumerate(nodes):
        after = nodes[at + 1 :]
        if isinstance(node, list):
            if "extended_at" not in nodes[max(at - 1, 0) : at]:
                yield from reads(node, passed, known, is_called)
        elif node == "extended_at" and len(after) > 3 and not is_called:
            yield from ((node.line, *it) for it in extended(after, passed, known))
        elif node == "at" and after[2:4] == ["width", "="] and after[4] in WIDTHS and not is_called:
            yield node.line, value(after[1], known), WIDTHS[after[4]]
        elif node in READERS and len(after) >= READERS[node]:
            place = after[0] if node == "drop" else after[1]
            offset = value(place, known) if not is_called or mentions(place, known) else None
            if offset is not None:
                width = value(after[2], known) if READERS[node] == 3 else 1 if node == "slice_index" else None
                yield node.line, offset, width
        elif node in passed:
            arguments = after[: len(passed[node].parameters)]
            if not is_called or any(mentions(it, known) for it in arguments):
                values = {name: value(it, known) for name, it in zip(passed[node].parameters, arguments)}
                yield from ((node.line, *it[1:]) for it in reads(tree(body_of(passed[node])), passed, values, True))


def body_of(definition):
    return definition.body.split("\n\n")[0]


def is_passed_an_offset(definition):
    """Whether a definition reads at an offset that is its parameter."""
    return any(True for _ in reads(tree(body_of(definition)), {}, dict.fromkeys(definition.parameters, 0), True))


def noted(body, passed):
    """The places that a body reads, each once a line, in the order of offsets, with the comments beside them."""
    notes, found = [it.partition("--")[2].strip() for it in body.split("\n")], {}
    for line, offset, width in sorted(set(reads(tree(body), passed, {})), key=lambda it: (*it[:2], it[2] or 0)):
        found.setdefault(line, []).append((offset, width))
    return [Place(*it, notes[line], rank) for line, row in found.items() for rank, it in enumerate(row)]


def width_of(item, sizes):
    """How many bytes an item of a list writes, by the sizes of definitions that are one."""
    head, _, rest = item.partition(" ")
    if head == "Zeros":
        return int(rest) if rest.isdigit() else None
    return WIDTHS.get(head, sizes.get(head))


def written(body, sizes):
    """The places that a list of fields writes, as the comments have their offsets. Where a comment has 0 again another
    structure begins, in places of its own. Nothing if the body is no such list."""
    items, found, end, waiting = parts(body, "∷"), [], 0, []
    if width_of(items[0].text, sizes) is None or items[-1].text != "[]":
        return []
    for item in items:
        waiting.append(item.text)
        if not item.comment:
            continue
        named = [(int(it), name) for it, name in re.findall(r"(\d+): (.*?)(?=, \d+: |$)", item.comment)]
        if not found or named[:1] and named[0][0] == 0:
            end = named[0][0] if named else 0
            found.append([])
        begins, start = {}, end
        for text in waiting:
            begins.setdefault(end, text)
            end += 0 if text == "[]" else width_of(text, sizes) or 0
        for (offset, name), after in zip(named, [*(it for it, _ in named[1:]), end]):
            word = re.fullmatch(r"U\d+ (\w+)", begins.get(offset, ""))
            number = value(word[1], {}) if word else None
            is_there = offset in begins and ((offset, name) != named[0] or offset == start)
            found[-1].append(Place(offset if is_there else -1, after - offset, name, 0, number))
        waiting = [] if named else waiting
    return found + [[Place(-1, 0, it)] for it in waiting if it != "[]"]


def comment_of(definition):
    """The comment above a definition, or else the last one by itself before it."""
    text = definition.file.read_text()
    before = ALONE.findall(text[: re.search(rf"(?m)^.*pub {re.escape(definition.name)} .*: ", text).start()])
    return definition.comment or " ".join(re.findall(r"(?m)^-- *(.*)", before[-1] if before else ""))


def readers(crates):
    """The definitions and the records of laws of crates that read or write bytes at places that are known."""
    every = [it for crate in crates for it in definitions(crate) if it.equations]
    passed = {it.name: it for it in every if is_passed_an_offset(it)}
    sizes = {it.name: width_of(body_of(it).strip(), {}) for it in every if it.result == "Field"}
    for it in every:
        runs = written(body_of(it), sizes) if it.result == "List Field" else []
        read = [place for _, body in it.equations for place in noted(body.split("\n\n")[0], passed)]
        for places in filter(None, runs or [read]):
            yield Reader(it.crate, it.file.stem, it.name, comment_of(it), places)
    for crate, file in dict.fromkeys((it.crate, it.file) for it in every):
        for above, name, body in LAW.findall(file.read_text()):
            if places := noted(body, passed):
                yield Reader(crate, file.stem, name, re.sub(r"(?m)^-- |\n", " ", above).strip(), places)


def bits_in(definition):
    """The bits that a definition reads or writes."""
    if definition.result == "List Bool":
        written = items(body_of(definition)) if "∷" in body_of(definition) else []
        yield from (Bits(low, 1, note) for low, (_, note) in enumerate(written))
        return
    for _, body in definition.equations:
        for line in body.split("\n\n")[0].split("\n"):
            text, _, note = line.partition("--")
            yield from (Bits(int(low), int(width or 1), note.strip()) for low, width in BITS.findall(text))


def readers_of_bits(crates):
    """The definitions of crates that read or write bits."""
    for it in (it for crate in crates for it in definitions(crate)):
        if found := list(bits_in(it)):
            yield Reader(it.crate, it.file.stem, it.name, comment_of(it), found)


def unread(crates, found):
    """The reads at numbers that are in a file of definitions and not among the places of its readers."""
    known = {(it.crate, it.stem, place.offset, place.width) for it in found for place in it.places}
    for crate, file in dict.fromkeys((crate, it.file) for crate in crates for it in definitions(crate)):
        for offset, width in READ.findall(re.sub(r"\(λ[^)]*\)|--.*", "", file.read_text())):
            if (crate, file.stem, int(offset), int(width)) not in known:
                yield f"{crate}: {file.stem} {offset} {width}"
