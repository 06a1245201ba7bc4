# SPDX-License-Identifier: MIT
"""Whether the drawing of the page of acpi_dump --html has what tables of known bytes say, with the marks of findings
and of what differs, and few boxes for many processors."""
import os

from check.html_page import boxes_of, filled, made_page, page_of, table_of
from lib.checks import check

DISTANCES = [["10", "20", "31"], ["20", "10", "-"], ["31", "254", "10"]]
# A HMAT (section 5.2.29) with read latencies of 2 initiators and 1 target: type 1, length 48, data type 1, an entry
# base unit of 1000, the initiators 0 and 3, the target 1, and the entries 80 and 65535, which stands for none.
HMAT = bytes.fromhex(
    "00000000" "0100" "0000" "30000000" "00" "01" "00" "00" "02000000" "01000000" "00000000" "e803000000000000"
    "00000000" "03000000" "01000000" "5000" "ffff")
# An enabled local APIC (type 0, 16 bytes) with the ID 5, in domain 2, of which an SRAT has 0x030405 as upper bytes from
# Revision 2 on.
LOCAL_APIC = bytes([0, 16, 2, 5, 1, 0, 0, 0, 0, 5, 4, 3, 0, 0, 0, 0])
# An I/O APIC (type 1, 12 bytes) of ISA interrupts, and an override (type 2, 10 bytes) of the source 9 to 20.
PINS = bytes([1, 12, 0, 0, 0, 0, 0xC0, 0xFE, 0, 0, 0, 0, 2, 10, 0, 9, 20, 0, 0, 0, 0, 0])
# The RSDT of q35 lists the FADT first, at 0x07fe2193, whose X_DSDT is that of the DSDT.
LINKS = [
    '<a href="#FACP">0x07fe2193</a>',
    '<a href="#FACS">0x07fe0000</a>',
    '<a href="#DSDT">0x0000000007fe0040</a>',
]


def check_drawing(program, folder):
    check_numa(program, folder)
    check_latencies(program, folder)
    check_domains(program, folder)
    check_pins(program, folder)
    check_many_processors(program, folder)
    page_of(program, folder, "q35.image")
    for link in LINKS:
        check(f"the address of a table leads to it: {link}", link in made_page(folder))


def check_numa(program, folder):
    """The distances of numa.image are a byte each from byte 44 on, of which 254 has a finding. Its SRAT has an enabled
    processor in the domain 0x01020301, and 2 GiB from 0 on in domain 0."""
    root = page_of(program, folder, "numa.image")
    drawn = list(boxes_of(root, "distance"))
    wanted = [(f"#SLIT-0x{0x2c + 3 * row:x}", it) for row, of in enumerate(DISTANCES) for it in of]
    check("distances", [(it[0], it[3]) for it in drawn] == wanted, drawn)
    found = [(it[1], it[3]) for it in drawn if it[1]]
    check("a finding in the drawing", found == [(["hit", "note"], "254")], drawn)
    drawn = list(boxes_of(root, "Domain 16909057"))
    check("a processor of a domain", drawn == [("#SRAT-0x30", ["hit", "warning"], "cpu", "0")], drawn)
    drawn = [it[2:] for it in boxes_of(root, "Domain 0")]
    check("memory of a domain", drawn == [("mem", "2 GiB from 0x0")], drawn)


def check_latencies(program, folder):
    """A latency that differs."""
    before = filled(f"{folder}/before", {"HMAT": table_of(b"HMAT", HMAT, 2)})
    after = filled(f"{folder}/after", {"HMAT": table_of(b"HMAT", HMAT.replace(b"\x50\0", b"\x6e\0"), 2)})
    root = page_of(program, folder, "--compare", before, after)
    drawn = list(boxes_of(root, "read latency"))
    check("latencies", drawn == [("#HMAT-0x54", ["chg"], "k0", "110000"), ("#HMAT-0x56", [], "rail", "-")], drawn)
    titles = [it.text() for it in root.find("figure", "tile")[0].find("title")]
    wanted = ["read latency from 0 to 1: 110000", "read latency from 3 to 1: -"]
    check("what latencies say", titles == wanted, titles)


def check_domains(program, folder):
    """A processor's domain has the bytes that the SRAT's Revision has."""
    for revision, domain in [(1, 2), (2, 0x03040502)]:
        srat = table_of(b"SRAT", bytes([1]) + bytes(11) + LOCAL_APIC, revision)
        root = page_of(program, folder, filled(f"{folder}/srat{revision}", {"SRAT": srat}))
        drawn = [it[2:] for it in boxes_of(root, f"Domain {domain}")]
        check(f"a domain of an SRAT of Revision {revision}", drawn == [("cpu", "5")], drawn)


def check_pins(program, folder):
    """The flags of the MADT, after the address of the local APICs, have PCAT_COMPAT as bit 0: then each ISA interrupt
    is drawn."""
    for flags, wanted in [(0, ["ISA 9→20"]), (1, [f"ISA {it}→{20 if it == 9 else it}" for it in range(16)])]:
        madt = table_of(b"APIC", bytes(4) + bytes([flags, 0, 0, 0]) + PINS)
        root = page_of(program, folder, filled(f"{folder}/pins{flags}", {"APIC": madt}))
        drawn = list(boxes_of(root, "I/O APIC 0"))
        found = [it[3] for it in drawn if "ISA" in it[3]]
        check(f"ISA interrupts with the flags {flags}", found == wanted, drawn)


def check_many_processors(program, folder):
    """4,096 Processor Local x2APICs (type 9, 16 bytes), the ids and UIDs from 0 on, of which the last one can't be
    used."""
    numbers = [it.to_bytes(4, "little") for it in range(4096)]
    many = b"".join(bytes([9, 16, 0, 0]) + it + bytes([it != numbers[-1], 0, 0, 0]) + it for it in numbers)
    root = page_of(program, folder, filled(f"{folder}/many", {"APIC": table_of(b"APIC", bytes(8) + many)}))
    drawn = list(boxes_of(root, "Processors"))
    check("many processors", [it[3] for it in drawn] == [str(it) for it in range(0, 4096, 32)], drawn[:2])
    text = root.find("figure")[0].find("p")[0].text()
    check("what many boxes say", text == "4096 processors, 32 in a box", text)
    size = os.path.getsize(f"{folder}/page.html")
    check("the page of many processors", size < 6_000_000, size)
