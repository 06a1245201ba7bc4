# SPDX-License-Identifier: MIT
"""The structs and constants that the layouts of acpi_dump give tables and their parts: for the scripts that write them
as C and as Rust."""
import re

from lib import layouts

PREFIX = "zacpi_raw_"

# Tables whose layouts were compared with no other reader (docs/DECISIONS.md).
UNCOMPARED = "MISC AEST NHLT CRAT VFCT NBFT".split()

# By which name the documents speak of a table that is signed otherwise.
SPOKEN = {"FACP": "FADT", "APIC": "MADT"}

TAKEN = "class default register short int long signed unsigned char private public new delete this".split()
NUMBERS = {1: "uint8_t", 2: "uint16_t", 4: "uint32_t", 8: "uint64_t"}
BYTES = {"text", "wide", "guid", "row", "path"}


# Names of which zacpi.h and the Rust crate set words apart that the specifications don't.
APART = {"oemid": "oem_id"}


def word(text):
    """A name in C: lower case, and `_` for each run of what is no letter or digit."""
    name = re.sub(r"[^a-z0-9]+", "_", text.lower()).strip("_")
    return APART.get(name, name)


def field_names(fields):
    """The names of fields: one that occurs again, or that C or C++ keeps for itself, has a number after it."""
    taken, found = set(TAKEN), []
    for it in fields:
        name = word(it.name)
        name = name if name[:1].isalpha() else f"n_{name}"
        tried = [name] + [f"{name}_{n}" for n in range(2, 99)]
        found.append(next(it for it in tried if it not in taken))
        taken.add(found[-1])
    return found


def type_of(field):
    """The C type of a field, and what stands after its name."""
    if field.meaning == "gas":
        return "struct zacpi_raw_generic_address", ""
    if field.length in NUMBERS and field.meaning not in BYTES:
        return NUMBERS[field.length], ""
    return "uint8_t", f"[{field.length}]"


def name_of(found):
    """A structure's name after the prefix: of types that have one title each has its number too."""
    if found.text == "HEADER":
        return "header"
    own = f"_{word(found.title)}" if found.kinds != "*" else ""
    return word(found.block) + own + (f"_{word(found.kinds)}" if found.is_one_of_several else "")


def source_of(signature, comments):
    """What the comment of a text says of a table's document: what stands in parentheses after its name."""
    spoken = re.escape(SPOKEN.get(signature, signature))
    after = re.search(rf"\b{spoken}(?!\w)[^(]*\(([^()]*(?:\([^()]*\)[^()]*)*)\)", comments["own"])
    named = after[1] if after else comments["own"]
    named = re.split(r"; the ", named)[0]
    if named[0].isdigit():
        before = re.findall(r"\b(section|table|chapter)", comments["own"][: after.start(1)])
        named = f"{before[-1]} {named}"
    return f"ACPI {comments['version']}, {named}" if re.match("section|table|chapter", named) else named


def comments():
    """For each text of layouts what the comment above it says, and the version of ACPI that it or its file names."""
    found = {}
    for _, text in layouts.sources():
        top = " ".join(re.findall(r"^//! (.*)$", text, re.M))
        for lines, name in re.findall(r"((?:^/// .*\n)+)pub\(crate\) const (\w+): &str", text, re.M):
            own = " ".join(re.findall(r"^/// (.*)$", lines, re.M))
            version = re.search(r"ACPI (\d\.\d)", f"{top} {own}")
            found[name] = {"own": own, "version": version[1] if version else "6.5"}
    return found


def with_header(found):
    """Whether a structure begins with the header of tables."""
    return found.is_table() and found.block not in ("FACS", "S3PT", "FBPT")


def variants(found, blocks):
    """A structure, and one for each choice of lines that gives it more fields, by their names."""
    yield name_of(found), found
    seen = set()
    for base, words in found.choices:
        block = layouts.find(blocks, words[3])
        if not block:
            continue
        more = layouts.Structure(found.text, [found.block, found.kinds, "-", found.title])
        more.is_one_of_several, more.is_choice = found.is_one_of_several, True
        more.fields = [*found.fields]
        layouts.add_lines(more, blocks, block[4], base)
        if block[0] in seen or (len(more.fields) == len(found.fields) and not more.choices):
            continue
        seen.add(block[0])
        own = word(block[0])
        own = own[len(word(found.block)) + 1 :] if own.startswith(word(found.block) + "_") else own
        more.title = f"{found.title}, with the fields of {own.replace('_', ' ')}" if own else found.title
        for name, it in variants(more, blocks):
            rest = name[len(name_of(more)) :]
            if len(it.fields) > len(found.fields):
                yield f"{name_of(found)}_{own}{rest}", it


def structs():
    """All structs: the name after the prefix, the structure, the first table that has it, and the table's source."""
    said, all_blocks, tables = comments(), layouts.texts(), {}
    for text, blocks in all_blocks.items():
        by_name = {}
        for block in blocks:
            by_name.setdefault(block[0], []).append(block)
        for block in blocks:
            if block[1] == "*" and re.fullmatch(r"[A-Z0-9_!]{4}", block[0]):
                queue, seen = [block[0]], set()
                while queue:
                    name = queue.pop()
                    if name in seen:
                        continue
                    seen.add(name)
                    tables.setdefault((text, name), block[0])
                    for it in by_name.get(name, []):
                        queue += [w for line in it[4] for w in re.findall(r"[\w!-]+", line) if w in by_name]
    for found in layouts.structures():
        if found.block.split("-")[0] == "RSD":
            continue # whose struct is by hand, beside the header's
        alike = [it for it in all_blocks[found.text] if (it[0], it[3]) == (found.block, found.title)]
        found.is_one_of_several = len(alike) > 1
        signature = tables.get((found.text, found.block), found.block.split("-")[0])
        for name, it in variants(found, all_blocks[found.text]):
            yield name, it, signature, source_of(signature, said[found.text]) if signature else said[found.text]["own"]


def unsigned(number):
    return f"0x{number:x}u" if number < 1 << 32 else f"UINT64_C(0x{number:x})"


def constants(stem, meaning, lines):
    """The constants of a field's codes or flags."""
    for line in lines:
        number, name = line.split(maxsplit=1)
        bits, _, code = number.partition("/")
        high, _, low = bits.partition(":")
        if meaning == "guid":
            continue
        if meaning in ("codes", "dec"):
            yield f"{stem}_{word(name)}", unsigned(int(number, 0))
        elif code:
            yield f"{stem}_{word(name)}", unsigned(int(code, 0) << int(low or high, 0))
        elif low:
            shift, width = int(low), int(high) - int(low) + 1
            yield f"{stem}_{word(name)}_mask", unsigned(((1 << width) - 1) << shift)
            yield f"{stem}_{word(name)}_shift", str(shift)
        else:
            yield f"{stem}_{word(name)}", unsigned(1 << int(high, 0))


def all_constants(everything):
    """The constants of all structs, by the name of the struct after which they stand."""
    taken, after = {}, {}
    for name, found, _, _ in everything:
        own = []
        if found.kinds not in ("*", "") and "-" not in found.kinds:
            stem = f"{PREFIX}{word(found.block)}"
            own.append((f"{stem}_type{name_of(found)[len(word(found.block)):]}", f"0x{int(found.kinds, 0):02x}u"))
        for it, field in zip(field_names(found.fields), found.fields):
            shared, lines = field.items
            stem = f"{PREFIX}{word(shared)}" if shared else f"{PREFIX}{name}_{it}"
            own += constants(stem, field.meaning, lines)
        for it, number in own:
            if taken.setdefault(it, number) == number and it not in {a for lists in after.values() for a, _ in lists}:
                after.setdefault(name, []).append((it, number))
            elif taken[it] != number:
                n = 2
                while taken.setdefault(f"{it}_{n}", number) != number:
                    n += 1
                if not any(a == f"{it}_{n}" for lists in after.values() for a, _ in lists):
                    after.setdefault(name, []).append((f"{it}_{n}", number))
    return after


def wrapped(words, first, then):
    """Words on lines of at most 118 columns."""
    line = first
    for it in words:
        if len(line) + len(it) + 1 > 118 and line != then:
            yield line
            line = then
        line += f" {it}"
    yield line


def sizes_of(found, block):
    """The types of a list without a Length, each with how many bytes it has."""
    return [(it[1], it[2]) for it in layouts.texts()[found.text] if it[0] == block and it[1] != "*"]


def everything():
    """All structs, the header of tables first."""
    return sorted(structs(), key=lambda it: it[1].text != "HEADER")
