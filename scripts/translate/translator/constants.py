# SPDX-License-Identifier: MIT
"""For scripts/translate/ir2c: the names of enums' variants, which comments have, in place of their numbers. A name that
has one number is an enumerator of the file's; another has the number in it."""
import re

CASE = re.compile(r'case (\d+): /\* ([A-Z]\w*) \*/')
SET = re.compile(r'( = |, )(\d+)(\)?;) /\* (?:(\S+) = )?([A-Z]\w*)( .*)?\*/$')
IS = re.compile(r'(?:(?<=/\* )|, )(\d+) is ([A-Z]\w*)')


def enumerator(name, number, ambiguous):
    word = re.sub(r'(?<=[a-z0-9])(?=[A-Z])', '_', name).upper()
    return f'Z_{word}_{number}' if name in ambiguous else f'Z_{word}'


def with_enumerators(lines):
    """The lines with enumerators, and those that declare them."""
    known = {}

    def learn(name, number):
        known.setdefault(name, set()).add(int(number))
    for line in lines:
        for number, name in CASE.findall(line) + IS.findall(line):
            learn(name, number)
        found = SET.search(line)
        if found:
            learn(found[5], found[2])
    words = {}
    for name in known:
        words.setdefault(re.sub(r'(?<=[a-z0-9])(?=[A-Z])', '_', name).upper(), []).append(name)
    ambiguous = {name for name, numbers in known.items() if len(numbers) > 1}
    ambiguous |= {name for names in words.values() if len(names) > 1 for name in names}
    used = {}

    def of(name, number):
        word = enumerator(name, number, ambiguous)
        used[word] = int(number)
        return word
    out = []
    for line in lines:
        line = CASE.sub(lambda found: f'case {of(found[2], found[1])}:', line)
        found = SET.search(line)
        if found:
            note = f' /* {found[4]}{(found[6] or " ").rstrip()} */' if found[4] else ''
            line = line[:found.start()] + f'{found[1]}{of(found[5], found[2])}{found[3]}{note}'
        for found in IS.findall(line):
            code, sign, comment = line.rpartition('/* ')
            made, count = re.subn(rf'( (?:==|!=|<|>|<=|>=) ){found[0]}\b', rf'\1{of(found[1], found[0])}', code)
            if count == 1:
                comment = re.sub(rf'(?:, )?{found[0]} is {found[1]}\b', '', comment).lstrip(', ')
                line = made.rstrip() if comment.strip() == '*/' else f'{made}{sign}{comment}'
        out.append(line.rstrip())
    made = [f'{word} = {number}' for word, number in sorted(used.items(), key=lambda one: (one[1], one[0]))]
    return out, made
