# SPDX-License-Identifier: MIT
"""scripts/translate/rustc/lines.py ZACPI.c SOURCES TO.c: for scripts/dist --lines, the file with `#line`
before each line of C that a comment has the place of in the Rust package, so that a debugger shows that and stops
there. SOURCES is how its folder `src` is named to a debugger."""
import re
import sys
from pathlib import Path

NOTE = re.compile(r' +/\* (\S+\.rs):(\d+)(?:: .*)? \*/$')


def with_lines(lines, sources, name):
    """The lines, with those of C's own file again after each function."""
    made, place = [], None
    for line in lines:
        found = NOTE.match(line)
        place = found.groups() if found else place
        if place and line.startswith(' ') and not found:
            made.append(f'#line {place[1]} "{sources}/{place[0]}"')
        made.append(line)
        if line == '}' and place:
            made.append(f'#line {len(made) + 2} "{name}"')
            place = None
    return made


def main():
    source, sources, to = sys.argv[1:]
    lines = Path(source).read_text(encoding='utf-8').split('\n')
    Path(to).write_text('\n'.join(with_lines(lines, sources, Path(source).name)), encoding='utf-8')


main()
