# SPDX-License-Identifier: MIT
"""For scripts/translate/validate: wrong edits of lines of C, of kinds that none can be of no effect: one store or call
less, or of another width; another place or value that is stored; the other way of a branch or of a loop; one of two
conditions that is enough, or a way on in place of one out; another value that is returned, that a switch goes by, or
that one of its cases has. The validator has to refuse each."""
import random
import re
from typing import NamedTuple

SHORT = 80  # lines of the longest function that is edited: each edit takes a proof


class Edit(NamedTuple):
    kind: str
    name: str
    place: int
    old: str
    new: str


# What each kind makes of a line: where it begins, and what takes its place.
KINDS = [
    ('a store less', r'store\d+u?\(.*\);$', lambda found: ';'),
    ('a byte less', r'\w+\[\d+\] = .*;$', lambda found: ';'),
    ('a call less', r'\w+(?<!UNREACHABLE)(?<!MARK)(?<!store16)(?<!store32)(?<!store64)\(.*\);$', lambda found: ';'),
    ('a wider store', r'store(16|32)(u?\(.*)$', lambda found: f'store{2 * int(found[1])}{found[2]}'),
    ('a narrower store', r'store(32|64)(u?\(.*)$', lambda found: f'store{int(found[1]) // 2}{found[2]}'),
    ('a store elsewhere', r'(store\d+u?\()(\w+)(,.*| \+.*)$', lambda found: f'{found[1]}{found[2]} + 1{found[3]}'),
    ('a byte elsewhere', r'(\w+)\[(\d+)\]( = .*;)$', lambda found: f'{found[1]}[{int(found[2]) + 1}]{found[3]}'),
    ('another value', r'(store\d+u?\(.*, )(\w+)\);$', lambda found: f'{found[1]}{found[2]} ^ 1);'),
    ('another byte', r'(\w+\[\d+\] = )(\w+);$', lambda found: f'{found[1]}{found[2]} ^ 1;'),
    ('the other way', r'if \((.*)\) (\{|goto .*|break;|continue;|return.*)$',
     lambda found: f'if (!({found[1]})) {found[2]}'),
    ('another way', r'switch \((.*)\) \{$', lambda found: f'switch (({found[1]}) ^ 1) {{'),
    ('another result', r'return (\w+);$', lambda found: f'return {found[1]} ^ 1;'),
    ('one of two conditions', r'if \((.*) && (.*)\) (\{|goto .*|break;|continue;|return.*)$',
     lambda found: f'if (({found[1]}) || ({found[2]})) {found[3]}'),
    ('both conditions', r'if \((.*) \|\| (.*)\) (\{|goto .*|break;|continue;|return.*)$',
     lambda found: f'if (({found[1]}) && ({found[2]})) {found[3]}'),
    ('a loop the other way', r'(\} )?while \((.*)\)(;| \{)$',
     lambda found: f'{found[1] or ""}while (!({found[2]})){found[3]}'),
    ('on in place of out', r'if \((.*)\) break;$', lambda found: f'if ({found[1]}) continue;'),
    ('another case', r'case (\d+):(.*)$', lambda found: f'case {int(found[1]) + 64}:{found[2]}'),
    ('a fill with ones', r'(memset\(.*?), 0, (\d+\);)$', lambda found: f'{found[1]}, 1, {found[2]}'),
    ('a shorter copy', r'(mem(?:cpy|set)\(.*, )(\d+)\);$', lambda found: f'{found[1]}{int(found[2]) - 1});'),
]


def edits_of(texts, count, seed):
    """So many edits of these functions at random, of each kind as many, always the same ones of the same texts."""
    by_kind = {}
    for name in sorted(texts):
        lines = texts[name][0].split('\n')
        for place, line in enumerate(lines if len(lines) < SHORT else []):
            for kind, pattern, made in KINDS:
                found = re.match(pattern, line.strip())
                is_struct = kind == 'another result' and 'struct' in lines[0]
                if found and not is_struct:
                    by_kind.setdefault(kind, []).append(Edit(kind, name, place, line.strip(), made(found)))
    chosen = random.Random(seed)
    kinds = sorted(by_kind)
    return [chosen.choice(by_kind[kinds[i % len(kinds)]]) for i in range(count)]


def edited(text, edit):
    lines = text.split('\n')
    lines[edit.place] = lines[edit.place].replace(edit.old, edit.new)
    return '\n'.join(lines)
