# SPDX-License-Identifier: MIT
"""Whether the page of acpi_dump --html has each field and object of --table all --json, each byte of --hex all --json
and each operation of --code, and whether a comparison marks what differs."""
import json
import re

from check.html_page import SAMPLES, boxes_of, bytes_of, cells_in, filled, page_of, run, table_of
from lib.checks import check

# The fields that have the offset of a structure of their table.
REFERENCES = {
    "IORT": ["Output Reference", "Node reference"],
    "PPTT": ["Parent", "Next Level of Cache", "Private resource"],
    "RHCT": ["Offset"],
    "VIOT": ["Output node"],
}
# What QEMU's IORT maps IDs to, by its bytes: those of the SMMU to the ITS group, and those of the root complex, but for
# the first 257, which the SMMU translates.
IORT = [("#IORT-0x30", "ITS Group at 0x30"), ("#IORT-0x48", "SMMUv3 at 0x48"), ("#IORT-0x30", "ITS Group at 0x30")]
# A MADT of two processors, and one in which the first can't be used, the second has another id, and an I/O APIC is new.
MADT = bytes.fromhex("0000e0fe01000000" "0008000001000000" "0008010101000000")
OTHER = bytes.fromhex("0000e0fe01000000" "0008000000000000" "0008020201000000" "010c0000" "0000c0fe" "00000000")


def value_of(field):
    value, length = field["value"], field["length"]
    value = f"0x{value:0{2 * length}x}" if isinstance(value, int) else value
    return value if len(value) <= 26 else value[:26] + ".."


def rows_in(items, size):
    """The rows that a page has of the items of a document, of a table of this many bytes: the offset, and the name,
    value and meaning, or of an object what it is, its path and its value. None is a meaning that the document leaves
    out: the number itself, or 1 more, in decimal digits."""
    for item in items:
        if "malformed" in item:
            yield item["offset"], "malformed", "", item["malformed"]
        elif "fields" in item:
            yield from rows_in(item["fields"], size)
        elif "kind" in item:
            yield item["offset"], item["kind"], item.get("path", ""), item.get("text", "")
        elif "ends" in item:
            yield item["offset"], "malformed", "", f"the list ends: {item['ends']}"
            yield item["offset"], "not decoded", "", f"{size - item['offset']} bytes"
        elif "bytes" in item:
            yield item["offset"], "not decoded", "", f"{item['length']} bytes"
        else:
            number = f" {item['number']}" if "number" in item else ""
            yield item["offset"], item["name"] + number, value_of(item), item.get("meaning")


def structures_in(items):
    """The structures of a document, each as its offset and its name, the outer ones first."""
    for item in items:
        if "fields" in item:
            yield item["offset"], item["name"]
            yield from structures_in(item["fields"])


def with_references(rows, table):
    """Rows, with the structures whose offsets fields are as their meanings."""
    names, fields = {}, REFERENCES.get(table.get("signature"), [])
    for offset, name in structures_in(table["fields"]):
        names.setdefault(offset, name)
    for at, name, value, meaning in rows:
        offset = int(value, 16) if re.sub(r" \d+$", "", name) in fields else 0
        yield at, name, value, f"{names[offset]} at 0x{offset:x}" if offset in names else meaning


def is_row(found, wanted):
    if found[:3] != wanted[:3]:
        return False
    if wanted[3] is not None:
        return " ".join(found[3].split()) == " ".join(wanted[3].split())
    return found[3] == "" or found[3].split()[0] in (str(int(found[2] or "0", 16)), str(int(found[2] or "0", 16) + 1))


def bytes_in(section):
    """The bytes that the section of a table shows, by their digits and as characters."""
    digits, letters = [], []
    for line in bytes_of(section).text().splitlines():
        digits.append(line[6:56] if len(line.split()[0]) == 4 else line[line.index(" ") + 2 :][:50])
        letters.append(line[-1 * (len(line) - line.index(digits[-1]) - len(digits[-1])) :])
    return "".join("".join(digits).split()), "".join(letters)


def check_table(name, section, table, digits):
    """The section of a table has what the table's document has, and its bytes, which have these digits."""
    id_ = section.attributes["id"]
    wanted = list(with_references(rows_in(table["fields"], len(digits) // 2), table))
    found = list(cells_in(section))
    odd = [pair for pair in zip(found, wanted) if not is_row(*pair)]
    check(f"{name}: its rows", len(wanted) == len(found) and not odd, odd[:2] or (len(found), len(wanted)))
    shown, letters = bytes_in(section)
    check(f"{name}: its bytes", shown == digits)
    characters = "".join(chr(it) if 32 <= it < 127 else "." for it in bytes.fromhex(digits))
    check(f"{name}: its letters", letters == characters)
    ids = {it.attributes["id"] for it in section.find("tr") if "id" in it.attributes}
    missing = [it for it in wanted if it[1] != "malformed" and f"{id_}-0x{it[0]:x}" not in ids]
    check(f"{name}: its ids", not missing, missing[:3])


def check_tables(program, folder):
    """The page has what the documents of --table and --hex have."""
    for name, start in SAMPLES.items():
        root = page_of(program, folder, name, *start)
        sections = [it for it in root.find("section", "t") if bytes_of(it).children]
        fields = json.loads(run(program, name, *start, "--table", "all", "--json")[1])["tables"]
        raw = json.loads(run(program, name, *start, "--hex", "all", "--json")[1])["tables"]
        titles = [it.find("h2")[0].text() for it in sections]
        check(f"{name}: its tables", titles == [it.get("signature", "....") for it in fields], titles)
        for section, table, whole in zip(sections, fields, raw):
            called = f"{name} {section.attributes['id']}"
            check_table(called, section, table, whole["bytes"])
            if called == "virt.image IORT":
                links = [(it.attributes["href"], it.text()) for it in section.find("a") if " at " in it.text()]
                check("references of the IORT", links == IORT, links)


def check_code(program, folder):
    """Each method of a table has its operations in a fold, as --code lists them."""
    def line(text):
        return text[2:6], text[8:].lstrip()

    words = ["q35.image", *SAMPLES["q35.image"]]
    root = page_of(program, folder, *words)
    listed = [line(it) for it in run(program, *words, "--table", "DSDT", "--code")[1].splitlines() if it[:2] == "  "]
    section = next(it for it in root.find("section", "t") if it.attributes["id"] == "DSDT")
    folds = [[line(it) for it in row.find("pre")[0].text().split("\n") if it] for row in section.find("tr", "code")]
    methods = [it for it in listed if it[1].startswith("Method ")]
    check("operations of methods", len(folds) == len(methods) > 0, (len(folds), len(methods)))
    odd = [it for it in folds if it and listed[listed.index(it[0]):][:len(it)] != it]
    check("operations as they are listed", not odd and any(folds), odd[:1])


def check_compared(program, folder):
    """A comparison marks what differs, and nothing else."""
    waet = table_of(b"WAET", b"\2\0\0\0")
    old = filled(f"{folder}/old", {"APIC": table_of(b"APIC", MADT), "WAET": waet, "SSDT": table_of(b"SSDT")})
    new = filled(f"{folder}/new", {"APIC": table_of(b"APIC", OTHER), "WAET": waet})
    root = page_of(program, folder, "--compare", old, new)
    ids = [it.attributes["id"] for it in root.find("section", "t")]
    check("tables of a comparison", ids == ["APIC", "WAET", "first-SSDT"], ids)
    nav = {it.attributes["href"]: it.classes for it in root.find("nav")[0].find("a")}
    check("links of a comparison", [nav.get("#" + it) for it in ids] == [["dif"], [], ["dif"]], nav)
    changed = [it.attributes.get("id") for it in root.find("tr", "chg")]
    check("fields that differ", changed == ["APIC-0x4", "APIC-0x9", "APIC-0x30"], changed)
    added = [it.attributes["data-o"] for of in root.find("details", "new") for it in of.find("summary")]
    check("structures that are new", added == ["34", "3c"], added)
    gone = [it.text() for it in root.find("section", "t")[0].find("tr", "del")]
    is_gone = len(gone) == 1 and gone[0].startswith("0034Processor Local APIC, ACPI Processor UID 0x01")
    check("structures that are gone", is_gone, gone)
    marked = "".join(it.text() for it in root.find("section", "t")[0].find("i", "ch"))
    check("bytes that differ", "00 00 00 00" in marked and "0c" in marked, marked)
    drawn = list(boxes_of(root, "Processors"))
    wanted = [("#APIC-0x2c", ["chg"], "cpu off", "0"), ("#APIC-0x34", ["chg"], "cpu", "2")]
    check("processors that differ", drawn == wanted, drawn)
    drawn = list(boxes_of(root, "I/O APIC 0"))
    box = "#APIC-0x3c", ["chg"], "box", "at 0xfec00000, interrupts from 0 on"
    check("an I/O APIC that is new", len(drawn) == 17 and drawn[-1] == box, drawn)


def check_same(program, folder):
    """A comparison of an input with itself marks nothing."""
    root = page_of(program, folder, "--compare", "numa.image", "numa.image")
    marked = root.find("tr", "chg") or root.find("i", "ch")
    tables, same = root.find("section", "t"), root.find("section", "same")
    check("a comparison with itself", not marked and len(same) == len(tables), (len(same), len(tables)))
    check("its drawing", not [it for it in boxes_of(root) if "chg" in it[1]])
