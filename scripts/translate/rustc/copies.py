# SPDX-License-Identifier: MIT
"""For scripts/dist, between the two rounds of LLVM's passes: a small copy as words, which the second round can keep in
registers, and the calls that inlined functions leave and no pass needs any more."""
import re

MOST = 48  # bytes of a copy that is made of words
VALUE = r'[%@](?:"[^"]*"|[\w.$-]+)'
COPY = re.compile(rf'(?m)^ *(?:tail )?call void @llvm\.memcpy\.p0\.p0\.i64\(ptr ([^%@]*)({VALUE}), '
                  rf'ptr ([^%@]*)({VALUE}), i64 (\d+), i1 false\)(.*)$')
LEFT = re.compile(r'(?m)^.*call void @llvm\.(?:experimental\.noalias\.scope\.decl|assume)\(.*\n')


def is_aligned(attributes):
    found = re.search(r'align (\d+)', attributes)
    return bool(found) and int(found[1]) >= 8


def as_words(found, number):
    to, target, of, source, size, rest = found.groups()
    if not 0 < int(size) <= MOST or int(size) % 8 or not (is_aligned(to) and is_aligned(of)):
        return found[0]
    place, loads, stores = re.search(r', !dbg !\d+|$', rest)[0], [], []
    for at in range(0, int(size), 8):
        value, name = f'%word.{number}.{at}', f'{number}.{at}'
        loads += [f'  %from.{name} = getelementptr i8, ptr {source}, i64 {at}{place}',
                  f'  {value} = load i64, ptr %from.{name}, align 8{place}']
        stores += [f'  %to.{name} = getelementptr i8, ptr {target}, i64 {at}{place}',
                   f'  store i64 {value}, ptr %to.{name}, align 8{place}']
    return '\n'.join(loads + stores)


def between_rounds(module):
    numbers = iter(range(len(module)))
    return COPY.sub(lambda found: as_words(found, next(numbers)), LEFT.sub('', module))
