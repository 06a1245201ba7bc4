# SPDX-License-Identifier: MIT
"""Whether the page of acpi_dump --html has the objects of AML as rows with their bytes, in folds by the objects that
they are in, and whether a comparison marks objects that differ."""
import os

from check.html_page import bytes_of, cells_in, filled, page_of, table_of
from lib.checks import check

# AML of each shape that a page has (section 20.2): Scope (\_SB_) of 66 bytes, with a PkgLength of two bytes; in it
# Device (DEV0) of 27 bytes, with Name (_HID, EisaId ("PNP0A08")) and Method (_STA) {Return (0x0F)}, OperationRegion
# (REG0, SystemIO, 0x70, 2) and Field (REG0) of 20 bytes, with AAAA of 8 bits, a gap of 4 and BBBB of 4; and then If
# (One) {}.
AML = bytes.fromhex(
    "1041045c5f53425f" "5b821944455630" "085f4849440c41d00a08" "14095f53544100a40a0f" "5b8052454730010a700a02"
    "5b81125245473001" "4141414108" "0004" "4242424204" "a00201")
OBJECTS = [
    (0x24, "Scope", "\\_SB_", "", "24"),
    (0x2C, "Device", "\\_SB_.DEV0", "", "24 2c"),
    (0x33, "Name", "\\_SB_.DEV0._HID", "EISA id PNP0A08", "24 2c"),
    (0x3D, "Method", "\\_SB_.DEV0._STA", "arguments 0", "24 2c"),
    (0x47, "OperationRegion", "\\_SB_.REG0", "SystemIO, 0x2 bytes from 0x70", "24"),
    (0x52, "Field", "\\_SB_.REG0", "ByteAcc, NoLock, Preserve", "24 52"),
    (0x5A, "FieldUnit", "\\_SB_.AAAA", "bits 0 to 7", "24 52"),
    (0x61, "FieldUnit", "\\_SB_.BBBB", "bits 12 to 15", "24 52"),
    (0x66, "If", "", "", ""),
]
# Where the bytes of each object end: at the first one in it, or at its own end. The gap of two bytes before BBBB is in
# none.
ENDS = [0x2C, 0x33, 0x3D, 0x47, 0x52, 0x5A, 0x5F, 0x66, 0x69]
OPEN_FOLDS = ["0024 Scope  \\_SB_", "002c Device  \\_SB_.DEV0", "0052 Field  \\_SB_.REG0"]
# The same with Name (NEW0, One) in the place of _HID, a method that returns 0x0B, and no If.
OTHER_AML = bytes.fromhex(
    "103c5c5f53425f" "5b821544455630" "084e45573001" "14095f53544100a40a0b" "5b8052454730010a700a02"
    "5b81125245473001" "4141414108" "0004" "4242424204")
# After Scope (\) {Name (AAAA, One)} of 9 bytes with Name (BBBB, One), and in the next one, a byte that begins no
# object.
ODD_AML = bytes.fromhex("10095c00" "084141414101" "100a5c00" "084242424201" "02" "084343434301")
ODD_OBJECTS = [
    (0x24, "Scope", "\\", ""),
    (0x28, "Name", "\\AAAA", "0x1"),
    (0x2E, "Scope", "\\", ""),
    (0x32, "Name", "\\BBBB", "0x1"),
    (0x38, "malformed", "", "the list ends: no object of a known length begins at 0x38"),
    (0x38, "not decoded", "", "7 bytes"),
]
# The rows of a header, which come before the objects.
HEADER = 9


def folds_of(element):
    """The offsets of the structures that an element is in, in hexadecimal digits."""
    found = []
    while element.parent:
        element = element.parent
        if element.name == "details" and "s" in element.classes:
            found.insert(0, element.children[0].attributes["data-o"])
    return " ".join(found)


def check_objects(program, folder):
    """The objects of two tables with the same AML."""
    table = table_of(b"SSDT", AML)
    root = page_of(program, folder, filled(f"{folder}/aml", {"one": table, "two": table}))
    for section, name in zip(root.find("section", "t"), ("SSDT", "SSDT.2")):
        rows = [it for it in section.find("tr") if it.attributes.get("id", "").startswith(f"{name}-0x")][HEADER:]
        found = [(*cells, folds_of(row)) for cells, row in zip(list(cells_in(section))[HEADER:], rows)]
        check(f"the objects of {name}", found == OBJECTS, found)
        check_bytes(name, section, table)
        folds = [it for it in section.find("details", "s") if "hd" not in it.classes]
        is_open = [it.children[0].text() for it in folds if "open" in it.attributes]
        check(f"the folds of {name} are open", is_open == OPEN_FOLDS, is_open)


def check_bytes(name, section, table):
    """The bytes of each object are marked as its own."""
    runs = {}
    for it in bytes_of(section).find("i"):
        runs.setdefault(it.classes[0], []).append(it.text())
    for (offset, *_), end in zip(OBJECTS, ENDS):
        wanted = table[offset:end]
        found = "".join(runs.get(f"f{offset:x}", [])).replace(" ", "")
        ends = [wanted[:2].hex(), wanted[-2:].hex()]
        check(f"the bytes of {name} at {offset:x}", all(it in found for it in ends), found)


def check_unknown_objects(program, folder):
    """Objects up to one that isn't understood."""
    input_ = filled(f"{folder}/odd", {"it": table_of(b"SSDT", ODD_AML)})
    section = page_of(program, folder, input_).find("section", "t")[0]
    found = list(cells_in(section))[HEADER:]
    check("objects up to one that isn't understood", found == ODD_OBJECTS, found)
    check("what ends the objects is in no fold", [folds_of(it) for it in section.find("tr", "wrong")] == [""])


def check_many_objects(program, folder):
    """5,000 names of 6 bytes, which are set to One, in a Scope of 30,000 bytes and five more with a PkgLength of three
    bytes."""
    called = [f"N{it:03X}" for it in range(4000)] + [f"M{it:03X}" for it in range(1000)]
    names = b"".join(b"\x08" + it.encode() + b"\x01" for it in called)
    length = len(names) + 5
    package = bytes([0x80 | length & 15, length >> 4 & 255, length >> 12])
    input_ = filled(f"{folder}/many_objects", {"it": table_of(b"SSDT", b"\x10" + package + b"\\\0" + names)})
    section = page_of(program, folder, input_).find("section", "t")[0]
    count = len(list(cells_in(section)))
    check("many objects", count == HEADER + 1 + 5000, count)
    check("many objects are folded", not [it for it in section.find("details") if "open" in it.attributes])
    size = os.path.getsize(f"{folder}/page.html")
    check("the page of many objects", size < 1_500_000, size)


def check_compared_objects(program, folder):
    """A comparison of two tables of AML marks the objects that differ."""
    first = filled(f"{folder}/first", {"SSDT": table_of(b"SSDT", AML)})
    second = filled(f"{folder}/second", {"SSDT": table_of(b"SSDT", OTHER_AML)})
    section = page_of(program, folder, "--compare", first, second).find("section", "t")[0]
    for name, wanted in [
        ("chg", ["0004Length0x00000069 0x00000061105 97", "0009Checksum",
                 "0038Method\\_SB_.DEV0._STAarguments 0 other bytes"]),
        ("new", ["0032Name\\_SB_.DEV0.NEW00x1"]),
        ("del", ["0033Name \\_SB_.DEV0._HIDonly in the first", "0066If 0only in the first"]),
    ]:
        found = [it.text().rstrip() for it in section.find("tr", name)]
        are_found = len(found) == len(wanted) and all(it.startswith(of) for it, of in zip(found, wanted))
        check(f"objects that differ: {name}", are_found, found)
