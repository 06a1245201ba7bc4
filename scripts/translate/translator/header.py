# SPDX-License-Identifier: MIT
"""What the header has of the library's calls, for scripts/translate/ir2c: the comment of each, and the fields of its
records."""
import re

from lib.header import ROOT, layout, structs


def comments():
    """The comment of each call, which has what it returns and in which order it fails: calls without one have that of
    the call before them."""
    found, last = {}, ''
    for name in ('zacpi.h', 'zacpi_write.h'):
        text = (ROOT / 'include' / name).read_text(encoding='utf-8')
        for comment, call in re.findall(r'(?ms)^(/\*(?:(?!\*/).)*\*/)$|^ZACPI_STATUS (zacpi_\w+)\(', text):
            last = comment or last
            if call:
                found[call] = last.split('\n')
    return found


def record_of(argument):
    """The struct that a parameter points to."""
    found = re.match(r'(?:const )?struct (\w+) \*\w+$', argument)
    return found and found[1]


def field(record, offset, size):
    """The name of a struct's field of so many bytes at an offset, or None: rsdp_address, path[2].device."""
    at = 0
    for kind, name in structs[record]:
        length, alignment, _ = layout(kind)
        at = -(-at // alignment) * alignment
        word, count = re.match(r'(\w+)(?:\[(\d+)\])?$', name).groups()
        place, rest = divmod(offset - at, length)
        if 0 <= place < int(count or 1) and rest + size <= length:
            word += f'[{place}]' if count else ''
            inner = field(kind.removeprefix('struct '), rest, size) if kind.startswith('struct ') else None
            return f'{word}.{inner}' if inner else word if (rest, size) == (0, length) else None
        at += length * int(count or 1)
    return None
