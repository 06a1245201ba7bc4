# SPDX-License-Identifier: MIT
"""The sample images of acpi_dump, and its runs over them, for scripts/check/dump."""
from lib import checks
from lib.checks import TOP

DATA = f"{TOP}/tools/acpi_dump/data"
SECONDS = 60
# The starts of the images: of all that is checked, and of those that only summaries and reports are made of.
STARTS = {
    "q35.image": [],
    "ten_tables.image": [],
    "machine.image": ["rsdp", "0x500"],
    "short.image": ["rsdp", "0x500"],
    "one_graphic.image": ["rsdt", "0", "0x1000"],
}
SUMMARIES = {
    "arm.image": "0x500", "virt.image": "0x40430018", "numa.image": "0x500", "dmar.image": "0xf59e0",
    "ivrs.image": "0xf59e0"}


def run(program, *arguments):
    return checks.run(program, *arguments, folder=DATA, seconds=SECONDS)
