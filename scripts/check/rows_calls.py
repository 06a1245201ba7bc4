# SPDX-License-Identifier: MIT
"""What the calls of rows ask the program acpi_rows, whose modules describe the calls. These ask several: `heaps CALL`
is `heap SIZE CALL` for the sizes 0, 16, 32 and so on up to 512, `each CALL` is about six types of table, `sums` is
`sum` for each length up to 131, `platforms` has each of four calls, `writes` is `run` also with each write and each
flush refused, and `fronts` has how many bytes the fronts of a file have that are files too, where all others are cut
short."""

TYPES = ["fadt", "madt", "hpet", "mcfg", "bgrt", "spcr"]  # those of `each`
KINDS = TYPES + ["wsmt", "gtdt", "srat", "slit", "dmar", "ivrs"]
ALONE = ["search", "within", "bios_areas", "accepting", "accepted"]  # calls over a memory that need no tables opened before
LISTS = ["headers", "whole_headers", "members", "ssdts", "ranges", "faults", "all"]  # with the most that are asked for
NONE, STEPS = "0xffff", [f"{step:#x}" for step in range(8)]  # no write and no flush is refused, or the one of a number


def number(word):
    """A word as the program takes numbers."""
    return f"{int(word):#x}" if word.isdigit() else word


def numbers(rest):
    """Lists of words, with `, ` between them, as the program takes numbers."""
    return ", ".join(" ".join(map(number, words.split(" "))) for words in rest.split(", "))


def signature(word):
    """A signature of four letters, or of eight digits, as the number of its bytes."""
    return f"0x{word.encode().hex() if len(word) == 4 else word}"


def argument(kind, call, rest):
    """The arguments of a call over a table's bytes, as the program takes them."""
    words = rest.split(" ") if rest else []
    if kind in ("header", "signature"):
        return " ".join(map(signature, words))
    if kind == "dmar" and call in ("unit", "reserved"):
        return " ".join([*map(number, words[:2]), *(f"0x{hop.replace('.', '.0x')}" for hop in words[2:])])
    if kind == "ivrs":
        return " ".join([*map(number, words[:-1]), *(f"0x{word}" for word in words[-1:])])
    return "0xffff" if call in LISTS and not words and kind != "srat" else numbers(rest)


def runs(call, rest):
    """What a call asks of acpi_view over a file. `writes` asks for runs where each write and each flush is refused."""
    if call == "run":
        return [f"run {NONE} {NONE}{rest}"]
    if call == "writes":
        refused = [(NONE, NONE), *((step, NONE) for step in STEPS), *((NONE, step) for step in STEPS)]
        return [f"run {out} {err}{rest}" for out, err in refused]
    return ["heap 0x10 0x10", "heap 0x10000 0x0"] if call == "heaps" else [f"{call} {rest}"]


def calls_over_table(kind, call, rest):
    """What a call over a table's bytes asks."""
    if kind in ("file", "unreadable") or kind.startswith("written"):
        return runs(call, rest)
    if kind == "aml":
        state, _, count = rest.partition(" of ")
        return [f"state {number(state)} {number(count) or '0xffffffff'}"]
    if call == "sum":
        return [f"sum 0x0 {number(rest)}"]
    if call == "sums":
        return [f"sum {number(rest)} {count:#x}" for count in range(132)]
    if call == "heap":
        size, _, rest = rest.partition(" ")
        return [f"heap {number(size)} {rest}"]
    if call == "heaps":
        return [f"heap {16 * blocks:#x} {rest}" for blocks in range(33)]
    return [f"{call} {argument(kind, call, rest)}".rstrip(" ")]


def calls_over_memory(call, rest):
    """What a call over a memory asks, or a step of a scene."""
    words = rest.split(" ")
    if call == "heap":
        return [f"heap {number(words[0])} {asked}" for asked in calls_over_memory(words[1], " ".join(words[2:]))]
    if call == "heaps":
        asked = calls_over_memory(words[0], " ".join(words[1:]))[0]
        return [f"heap {16 * blocks:#x} {asked}" for blocks in range(33)]
    if call == "each":
        return [f"{kind} {asked}" for kind in TYPES for asked in calls_over_memory(*one(rest))]
    if call == "platforms":
        return [f"platforms {way:#x}" for way in range(4)]
    if call == "named":
        return [f"named {words[1]} {signature(words[0])}"]
    if call == "sdt":
        return [f"sdt {signature(rest)}"]
    if call in ("address", "ecam"):
        return [f"{call} 0x{rest}"]
    if call in KINDS:
        inner, rest = one(rest)
        return [f"{call} {asked}" for asked in calls_over_table("" if inner in LISTS[-2:] else call, inner, rest)]
    if call in LISTS and not rest:
        return [f"{call} 0xffff"]
    return [f"{call} {numbers(rest)}".rstrip(" ")]


def one(text):
    word, _, rest = text.partition(" ")
    return word, rest
