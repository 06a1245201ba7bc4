# SPDX-License-Identifier: MIT
"""What acpi_dump reads and writes: files that the system refuses, odd files in a folder, inputs without an end, how
often each input is read, and whether what --text and --extract write reads back to the same bytes."""
import json
import os
import shutil
import subprocess
import tempfile
from pathlib import Path

from check.dump_samples import DATA, SECONDS, STARTS, run
from lib.checks import check

# Arguments, the status, and how many inputs are read: an `A` or a `B` is one. They have an RSDT at 0x1000 that lists a
# BGRT.
READINGS = [
    (["A", "rsdt", "256", "0x1000"], 2, 0),
    (["A", "bios", "--table"], 2, 0),
    (["A", "--table", "FAC"], 2, 0),
    (["A", "--find", "--summary"], 2, 0),
    (["--help"], 0, 0),
    (["--version"], 0, 0),
    (["A", "rsdt", "0", "0x1000"], 0, 1),
    (["A", "rsdt", "0", "0x1000", "--hex", "BGRT"], 0, 1),
    (["A", "rsdt", "0", "0x1000", "--table", "HPET"], 1, 1),
    (["A", "bios"], 1, 1),
    (["missing.image", "bios"], 1, 0),
    (["--compare", "A", "B"], 1, 2),
]
# A table, what is printed of it, and what is printed of the files beside it.
TABLE = bytearray(b"SSDT\x24\0\0\0\x01\0ZUGZW SSDT0001\x01\0\0\0INTL\x01\x01\x20\x20")
TABLE[9] = -sum(TABLE) & 255
LINE = b"SSDT SSDT1            00000024 01  ZUGZW  SSDT0001 00000001 INTL 20200101 ok"
SKIPPED = {
    b"acpi_dump: it: names that are not UTF-8, not shown: 1",
    b"acpi_dump: it/\\x1b[2J\\x0a: not a table: skipped",
    b"acpi_dump: it/pipe: not a file: skipped",
    b"acpi_dump: it/dangling: no such file or folder",
}


def ran(program, folder, *arguments, **how):
    """The status, and the bytes that a program prints, in a folder and without input."""
    it = subprocess.run([program, *arguments], cwd=folder, stdin=subprocess.DEVNULL, capture_output=True,
                        timeout=SECONDS, **how)
    return it.returncode, it.stdout, it.stderr


def as_nobody():
    """What makes a process one of the user nobody, if this one is root's."""
    return {"user": 65534, "group": 65534, "extra_groups": []} if os.geteuid() == 0 else {}


def check_denied(program):
    """A file and a folder that the system refuses, by themselves and in a folder, to a user who isn't root."""
    with tempfile.TemporaryDirectory(prefix="check-dump-") as folder:
        os.chmod(folder, 0o755)
        copy = shutil.copy(program, f"{folder}/acpi_dump")
        os.chmod(copy, 0o755)
        os.mkdir(f"{folder}/tables", 0o755)
        os.mkdir(f"{folder}/locked", 0)
        with open(f"{folder}/tables/DSDT", "wb") as file:
            os.fchmod(file.fileno(), 0)
        for asked, named in {"tables/DSDT": "tables/DSDT", "tables": "tables/DSDT", "locked": "locked",
                             "locked/DSDT": "locked/DSDT"}.items():
            try:
                found = ran(copy, folder, asked, **as_nobody())
            except (OSError, subprocess.SubprocessError) as error:
                print(f"skipped: what the system refuses, since no process can be another user's here ({error})")
                return
            wanted = (1, b"", f"acpi_dump: {named}: permission denied\n".encode())
            check(f"{asked} is refused", found == wanted, found)


def check_sources(program):
    """Names and files that a folder's owner may make: none stops the others from being shown, or is read without an
    end."""
    with tempfile.TemporaryDirectory(prefix="check-dump-") as folder:
        os.mkdir(f"{folder}/it")
        for name in [b"it/SSDT1", b"it/\xff", b"\x7f"]:
            with open(os.fsencode(folder) + b"/" + name, "wb") as file:
                file.write(TABLE)
        Path(folder, "it", "\x1b[2J\n").write_bytes(b"not a table\n")
        os.mkfifo(f"{folder}/it/pipe")
        os.symlink("nowhere", f"{folder}/it/dangling")
        check_names(program, folder)
        check_limits(program, folder)


def check_names(program, folder):
    """Names that are no UTF-8, or that a terminal would obey, and what isn't a file."""
    found = ran(program, folder, b"it", b"\xff")
    check("an argument that is no UTF-8", found == (2, b"", b"acpi_dump: an argument is not UTF-8\n"), found)
    status, shown, told = ran(program, folder, "--\x1b[2J")
    check("an option that a terminal would obey", (status, shown, b"\x1b" in told) == (2, b"", False), told)
    status, shown, _ = ran(program, folder, "\x7f", "--json")
    found = status, b"\x7f" in shown, json.loads(shown)["inputs"]
    check("a name in a document that a terminal would obey", found == (0, False, ["\x7f"]), shown)
    status, shown, told = ran(program, folder, "it")
    check("odd names in a folder", (status, set(told.splitlines())) == (1, SKIPPED), told)
    check("the table beside odd names", shown.splitlines()[1:] == [LINE], shown)


def check_limits(program, folder):
    """More bytes than are allowed, and a disk without space."""
    with open(f"{folder}/sparse", "wb") as file:
        file.truncate(20 << 30)
    for name, path in {"more bytes than are allowed": "sparse", "a device without an end": "/dev/zero"}.items():
        wanted = (1, b"", f"acpi_dump: {path}: more bytes than --max-bytes allows\n".encode())
        found = ran(program, folder, path, "--max-bytes", "4096")
        check(name, found == wanted, found)
    if os.path.exists("/dev/full"):
        with open("/dev/full", "wb") as full:
            for argument in ["it/SSDT1", "--version"]:
                it = subprocess.run([program, argument], cwd=folder, stdin=subprocess.DEVNULL, stdout=full,
                                    stderr=subprocess.PIPE, timeout=SECONDS)
                found = it.returncode, it.stderr
                check("a full disk", found == (1, b"acpi_dump: standard output: no space left\n"), found)


def piped(image):
    """The end of a pipe from which an image is read."""
    reading, writing = os.pipe()
    os.write(writing, image)
    os.close(writing)
    return reading


def check_readings(program):
    """Each input is read once, and none if the arguments are wrong: what a pipe gives is gone after it is read."""
    image = Path(DATA, "one_graphic.image").read_bytes()
    for arguments, status, count in READINGS:
        pipes = {"A": piped(image), "B": piped(image)}
        names = [f"/dev/fd/{pipes[it]}" if it in pipes else it for it in arguments]
        ended, out, _ = ran(program, DATA, *names, pass_fds=pipes.values())
        shown = run(program, *["one_graphic.image" if it in pipes else it for it in arguments])[1]
        left = [os.read(end, len(image) + 1) for end in pipes.values()]
        for end in pipes.values():
            os.close(end)
        found = ended, left.count(b""), out.decode()
        check(f"what is read for {arguments}", found == (status, count, shown) and set(left) <= {b"", image}, found)


def bytes_in(program, *arguments):
    """The bytes of all tables of an input, in an order of their own."""
    document = run(program, *arguments, "--hex", "all", "--json")[1]
    return sorted(table["bytes"] for table in json.loads(document)["tables"])


def files_in(folder):
    return sorted(path.read_bytes().hex() for path in Path(folder).iterdir())


def check_out(program):
    """What --text and --extract write is the tables' bytes, for this program and for acpixtract."""
    for name, start in STARTS.items():
        with tempfile.TemporaryDirectory(prefix="check-dump-") as folder:
            file, extracted, other = (f"{folder}/{part}" for part in ("text", "out", "acpixtract"))
            wanted = bytes_in(program, name, *start)
            text = run(program, name, *start, "--text")[1]
            Path(file).write_text(text, encoding="ascii")
            is_same = wanted and run(program, file, "--text")[1] == text and bytes_in(program, file) == wanted
            check(f"{name} --text", is_same, "read back otherwise")
            os.mkdir(extracted)
            run(program, name, *start, "--extract", extracted)
            is_same = files_in(extracted) == wanted and bytes_in(program, extracted) == wanted
            check(f"{name} --extract", is_same, "not the tables' bytes")
            if shutil.which("acpixtract"):
                os.mkdir(other)
                subprocess.run(["acpixtract", "-a", "../text"], cwd=other, stdout=subprocess.DEVNULL, check=True)
                check(f"{name} by acpixtract", files_in(other) == wanted, "not the tables' bytes")
