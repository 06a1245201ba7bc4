# SPDX-License-Identifier: MIT
"""For structure.py: conditions of C as text: the opposite of one, and two as one."""
import re

LONGEST = 104  # of a condition that is made of two


def bracketed(text, begin):
    """Where the bracket that is opened there is closed."""
    depth = 0
    for at in range(begin, len(text)):
        depth += {'(': 1, ')': -1}.get(text[at], 0)
        if not depth:
            return at
    raise ValueError(text)


FLIPPED = {'==': '!=', '!=': '==', '<': '>=', '>=': '<', '>': '<=', '<=': '>'}


def outside(text):
    """The text with everything in brackets blanked."""
    depth, out = 0, []
    for sign in text:
        if sign in '([':
            depth += 1
        out.append('.' if depth else sign)
        if sign in ')]':
            depth -= 1
    return ''.join(out)


def is_whole(text):
    """Whether the text is one operand."""
    return bool(re.match(r'[\w.]+$', outside(text)))


def negated(text):
    bare = outside(text)
    if text.startswith('!') and is_whole(text[1:]):
        inner = text[1:]
        return inner[1:-1] if inner.startswith('(') and bracketed(inner, 0) == len(inner) - 1 else inner
    found = re.findall(r' (==|!=|<=|>=|<|>) ', bare)
    if len(found) == 1 and not re.search(r' (?:&|\||\^|\?|:|&&|\|\|) ', bare):
        at = re.search(r' (?:==|!=|<=|>=|<|>) ', bare).start()
        return text[:at] + f' {FLIPPED[found[0]]} ' + text[at + 2 + len(found[0]):]
    if ' || ' in bare and ' && ' not in bare and ' ? ' not in bare:
        return ' && '.join(inside(negated(part), '&&') for part in parts_of(text, ' || '))
    if ' && ' in bare and ' || ' not in bare and ' ? ' not in bare:
        return ' || '.join(inside(negated(part), '||') for part in parts_of(text, ' && '))
    return f'!{text}' if is_whole(text) else f'!({text})'


def parts_of(text, sign):
    bare, parts, begin = outside(text), [], 0
    for found in re.finditer(re.escape(sign), bare):
        parts.append(text[begin:found.start()])
        begin = found.end()
    return [unbracketed(part) for part in parts + [text[begin:]]]


def unbracketed(text):
    return text[1:-1] if text.startswith('(') and bracketed(text, 0) == len(text) - 1 else text


def inside(text, sign):
    """A condition as a part of one with `&&` or `||`."""
    bare = outside(text)
    other = ' && ' if sign == '||' else ' || '
    return f'({text})' if other in bare or ' ? ' in bare or re.search(r' (?:&|\||\^) ', bare) else text


def both(a, sign, b):
    text = f'{inside(a, sign)} {sign} {inside(b, sign)}'
    return text if len(text) <= LONGEST else None
