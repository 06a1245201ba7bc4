# SPDX-License-Identifier: MIT
"""iasl's templates of tables, and what acpi_dump shows of a table: for the scripts that compare both."""
import os
import subprocess

# Templates that are AML, and one that is no table.
AML = ["dsdt", "osdt", "ssdt"]
NOT_SHOWN = {*AML, "rsdp"}

# A template, an offset, and the number that is put there, of 4 bytes, since the template's own is wrong.
MENDED = [
    ("gtdt", 0x5C, 0x68),  # Platform Timer Offset: its own leads to the fields of the virtual timer of EL2
]


def bytes_of(value, length):
    """The bytes that a field's value is."""
    if isinstance(value, int):
        return value.to_bytes(length, "little")
    if value.startswith("0x"):
        return bytes.fromhex(value[2:])[::-1]
    return bytes.fromhex(value)


def sum_mended(table):
    """The table with its own length, and with the checksum that this needs."""
    table[4:8] = len(table).to_bytes(4, "little")
    table[9] = (table[9] - sum(table)) % 256
    return bytes(table)


def mend(name, path):
    """Puts the numbers of MENDED into a template."""
    for it in MENDED:
        if it[0] == name:
            with open(path, "r+b") as file:
                table = bytearray(file.read())
                table[it[1] : it[1] + 4] = it[2].to_bytes(4, "little")
                file.seek(0)
                file.write(sum_mended(table))


def templates(folder):
    """Makes iasl's templates, and what iasl shows of those that aren't AML, whose names it gives."""
    subprocess.run(["iasl", "-T", "ALL"], cwd=folder, capture_output=True, check=True)
    for name in AML:
        subprocess.run(["iasl", f"{name}.asl"], cwd=folder, capture_output=True)
    for file in sorted(os.listdir(folder)):
        name = file[:-4]
        if file.endswith(".asl") and name not in NOT_SHOWN:
            subprocess.run(["iasl", file], cwd=folder, capture_output=True)
            mend(name, f"{folder}/{name}.aml")
            subprocess.run(["iasl", "-d", f"{name}.aml"], cwd=folder, capture_output=True)
            yield name
