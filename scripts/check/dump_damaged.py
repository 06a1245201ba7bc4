# SPDX-License-Identifier: MIT
"""Damaged inputs of each kind: whether acpi_dump ends over them with a status of docs/acpi_dump.1 and no fault, and
makes no file outside the folder of --extract but that of --html."""
import concurrent.futures
import os
import random
import re
import subprocess
import tempfile
from pathlib import Path

from check.dump_samples import DATA, SECONDS
from lib.checks import check

VIEWS = [
    [],
    ["--table", "all"],
    ["--hex", "all"],
    ["--table", "all", "--json"],
    ["--summary"],
    ["--find"],
    ["--strict", "--json"],
    ["--text"],
    ["--extract", "out", "--force"],
    ["--check"],
    ["--check=note", "--json"],
    ["--html", "out/page.html", "--force"],
    ["--get", "APIC.0.Length,FACP.SCI_INT,RSDP.Revision,DSDT:\\_SB.PCI0._HID,SSDT:\\_S5", "--json"],
]
# How many damaged inputs are tried by a seed.
PART = 25


def text_of(table, address):
    """The text of acpidump for a table."""
    rows = [f"{table[:4].decode('latin1')} @ 0x{address:016X}"]
    for place in range(0, len(table), 16):
        row = table[place : place + 16]
        digits = "".join(f"{it:02X} " for it in row)
        shown = "".join(chr(it) if 32 <= it < 127 else "." for it in row)
        rows.append(f"    {place:04X}: {digits:48} {shown}")
    return ("\n".join(rows) + "\n\n").encode()


def image_of(name):
    return Path(DATA, f"{name}.image").read_bytes()


def records_of(name):
    """The bytes of an image's records."""
    image = image_of(name)
    while image:
        length = int.from_bytes(image[8:16], "little")
        yield image[16 : 16 + length]
        image = image[16 + length :]


def samples():
    """The tables of QEMU's machine: the image, its memory from the first table on, and single tables by their names."""
    image = image_of("q35")
    memory = image[16 + 36 + 16 :]
    tables = {"FACP": memory[0x2193 : 0x2193 + 244], "APIC": memory[0x2287 : 0x2287 + 144]}
    return image, memory, tables


def kinds():
    """Each kind of input that is damaged: the files that it is, and the arguments that it is read by."""
    image, memory, tables = samples()
    text = text_of(tables["FACP"], 0x7FE2193) + text_of(tables["APIC"], 0x7FE2287)
    windows = text.replace(b"\n", b"\r\n")
    wide = b"\xff\xfe" + windows.decode().encode("utf-16-le")
    at = ["--at", "0x7fe0000", "--start", "rsdt:0:0x7fe23b3"]
    yield "image", {"it": image}, ["it"]
    yield "memory", {"it": memory}, ["it", *at]
    yield "text", {"it": text}, ["it"]
    yield "text of Windows", {"it": windows}, ["it"]
    yield "text in UTF-16", {"it": wide}, ["it"]
    yield "table", {"it": tables["APIC"]}, ["it"]
    yield "several tables", tables, sorted(tables)
    yield "folder", {f"folder/{name}": table for name, table in tables.items()}, ["folder"]
    for name, whole in {"image": image, "memory": memory, "text": text, "table": tables["FACP"]}.items():
        yield f"standard input: {name}", {"it": whole}, ["-", *(at if name == "memory" else [])]
    for name in ["dmar", "ivrs", "nvdimm", "virt"]:
        files = {f"folder/{it[:4].decode().strip()}": it for it in records_of(name)}
        yield f"tables of {name}", files, ["folder"]


def damaged(random_, whole):
    """A copy with some bytes changed, and sometimes its end cut off."""
    copy = bytearray(whole)
    for _ in range(random_.randrange(1, 9)):
        copy[random_.randrange(len(copy))] = random_.choice([0, 1, 255, random_.randrange(256)])
    return bytes(copy[: random_.randrange(len(copy) + 1)] if random_.random() < 0.2 else copy)


def damaged_table(random_, whole):
    """A copy of a table: each second one is damaged, and then its Length and its sum fit again, so that it is
    judged."""
    copy = bytearray(damaged(random_, whole) if random_.random() < 0.5 else whole)
    if len(copy) >= 36:
        copy[4:8] = len(copy).to_bytes(4, "little")
        copy[9] = (copy[9] - sum(copy)) % 256
    return bytes(copy)


def put_damaged(random_, files, folder):
    """Puts damaged copies of the files of an input into a folder."""
    damage = damaged_table if len(files) > 2 else damaged
    for name, whole in files.items():
        Path(folder, name).write_bytes(damage(random_, whole))


def fault_of(program, folder, arguments, view):
    """How a run over a damaged input ends, if not with a status that there is."""
    how = {"stdout": subprocess.DEVNULL, "stderr": subprocess.DEVNULL, "close_fds": False, "restore_signals": False}
    with open(f"{folder}/it" if "-" in arguments else os.devnull, "rb") as given:
        try:
            ran = subprocess.run([program, *arguments, *view], cwd=folder, stdin=given, timeout=SECONDS, **how)
        except subprocess.TimeoutExpired:
            return f"no end after {SECONDS} seconds"
    is_known = ran.returncode in (0, 1, 2, 3) or ran.returncode == 4 and "--check" in "".join(view)
    return "" if is_known else f"status {ran.returncode}"


def strays_in(folder, files):
    """What lies in a folder beside the files of an input and those that --extract and --html may make, which go."""
    for at, _, names in os.walk(folder):
        for name in names:
            path = os.path.relpath(os.path.join(at, name), folder)
            if re.fullmatch(r"out/([\w!#$]+\.dat|page\.html)", path):
                os.remove(f"{folder}/{path}")
            elif path not in files:
                yield path


def try_damaged(program, seed, files, arguments, count):
    """The faults of so many runs, each over damaged copies of the files of an input."""
    random_ = random.Random(seed)
    faults = []
    with tempfile.TemporaryDirectory(prefix="check-dump-") as folder:
        os.mkdir(f"{folder}/folder")
        os.mkdir(f"{folder}/out")
        for number in range(count):
            put_damaged(random_, files, folder)
            fault = fault_of(program, folder, arguments, VIEWS[(seed + number) % len(VIEWS)])
            faults += [f"seed {seed} number {number}: {it}" for it in [fault, *strays_in(folder, files)] if it]
    return faults


def check_damaged(program, count):
    """So many damaged inputs of each kind, with each view in turn."""
    counts = [min(PART, count - begun) for begun in range(0, count, PART)]
    with concurrent.futures.ThreadPoolExecutor() as pool:
        for kind, files, arguments in kinds():
            found = pool.map(lambda seed, part: try_damaged(program, seed, files, arguments, part),
                             range(len(counts)), counts)
            faults = [it for some in found for it in some]
            check(f"damaged {kind}", not faults, "; ".join(faults[:3]))
