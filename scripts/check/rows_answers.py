# SPDX-License-Identifier: MIT
"""The texts of calls by what the program acpi_rows answers. Numbers in an answer are decimal below 10, and else
hexadecimal; of a list with more than 64 items there is only how many it has, and an empty one isn't printed. Of the
sizes of `heaps` each answer that differs from the one before is printed, after the size from which on it is given.

In a scene each answer follows `=` and what happened at the handler before: `+` is a request that is granted, `!` one
that is refused, `-` a notice, and `?` one that no open loan has. After the address stand how many bytes are asked for
or shown, and how many are lent. What is lent after the call stands after `|`.
"""
import re

from check.rows_calls import STEPS

MOST_ITEMS = 64


def with_hex(text):
    """A text whose decimal numbers from 10 on are hexadecimal. Digits in names and in quotations are no numbers."""
    def changed(it):
        return f"{int(it[0]):#x}" if it[0][0].isdigit() and int(it[0]) > 9 else it[0]
    return re.sub(r'"[^"]*(?:"|$)|[^\W\d]\w*|\d+', changed, text)


def items_of(text):
    """The items between the brackets of a list or a tuple."""
    items, depth, begin = [], 0, 1
    for it in re.finditer(r'"(?:[^"\\]|\\.)*"|[\[({]|[\])}]|, ', text):
        if it[0] == ", " and depth == 1:
            items.append(text[begin : it.start()])
            begin = it.end()
        depth += (it[0] in "[({") - (it[0] in "])}")
    return items + [text[begin:-1]] if text[begin:-1] else items


def shortened(answer):
    """An answer without a list that is too long, or empty."""
    found = re.match(r'\("([\w ]+)", (\[.*\])\)$', answer)
    if not found:
        return [answer]
    count = len(items_of(found[2]))
    return [with_hex(f'("{found[1]}", {count})')] if count > MOST_ITEMS else [answer] if count else []


def named(item):
    """An item of a list of facts by their names, where it is one: the name if it holds, and nothing if it doesn't."""
    name, said = items_of(item)
    return {"true": [name.strip('"')], "false": [], "Ok(None)": []}.get(said, [item])


def answers_of(mark, text):
    """The answers of a line that isn't about the handler."""
    if mark == "?":
        return shortened(with_hex(text))
    if mark == "*":
        items = items_of(with_hex(text))
        return [it for item in items for it in (named(item) if text[0] == "[" else shortened(item))]
    if mark == "x":
        return [bytes(map(int, items_of(text))).hex()]
    assert mark == ".", mark
    return [text]


class Scene:
    """What the answers over a handler say: the loans that are open are known, and notices that no loan has."""

    def __init__(self, row):
        self.regions, self.loans, self.is_wrong = row.regions, [], False

    def whole(self, address, size, lent):
        """How many bytes a mapping may show: what is asked for, or the table whose header is, if all of it is lent."""
        for start, content in self.regions if size == 36 else []:
            at = address - start
            if 0 <= at and at + 8 <= len(content):
                length = int.from_bytes(content[at + 4 : at + 8], "little")
                return length if 36 <= length <= lent else size
        return size

    def event(self, mark, address, length, lent):
        if mark == "+":
            self.loans.append((address, lent, {length, self.whole(int(address, 16), length, lent)}))
        elif mark == "-":
            for loan in self.loans:
                if loan[:2] == (address, lent) and length in loan[2]:
                    self.loans.remove(loan)
                    return mark
            self.is_wrong = True
            return "?"
        return mark

    def lines(self, block):
        """The events and the answers of a call, each with whether it is an answer."""
        for line in block:
            mark, text = line[0], line[2:]
            if mark in "+-!@":
                address, length, lent = re.fullmatch(r"(0x[0-9a-f]+) (\d+)/(\d+)", text).groups()
            if mark == "@":
                yield True, (f"{address} {length}", f"{address} {length}/{lent}")
            elif mark in "+-!":
                yield False, f"{self.event(mark, address, int(length), int(lent))}{text}"
            else:
                yield from ((True, (it, it)) for it in answers_of(mark, text))

    def answers(self, block):
        """The answers of a call alone."""
        return "".join(f"{it[0]}, " for is_answer, it in self.lines(block) if is_answer)

    def step(self, block):
        """The text of a step."""
        parts = [f"= {it[1]} " if is_answer else f"{it} " for is_answer, it in self.lines(block)]
        return f"{''.join(parts)}|{''.join(f' {address}/{lent}' for address, lent, _ in self.loans)}"

    def end(self):
        return "loans without their one notice" if self.is_wrong or self.loans else ""


def run_of(text):
    """The status, the file's name, both outputs and how many writes and flushes of each came."""
    status, file, out, err, steps = items_of(f"({text[:-2]})")
    return status, file, out, err, [int(step, 0) for step in items_of(steps)]


def writes_of(runs):
    """The status, how many writes of both outputs came, and whether a run where one of them or a flush is refused ends
    with status 1 and a front of each output."""
    whole, *others = map(run_of, runs)
    is_right = True
    for place, other in enumerate(others):
        is_refused = place % len(STEPS) < whole[4][place // len(STEPS)]
        fronts = all(all_of.startswith(front[:-2]) for all_of, front in zip(whole[2:4], other[2:4]))
        is_right = is_right and (other[0] == "1" and fronts if is_refused else other == whole)
    out, err = whole[4]
    return f"({whole[0]}, {out - 1}, {err - 1}, {str(is_right).lower()}), "


def gathered(call, texts):
    """The text of a call by those of all that it asks."""
    if call == "run":
        return texts[0][: texts[0].rindex("(")]
    if call == "writes":
        return writes_of(texts)
    if call == "heaps" and len(texts) > 2:
        sizes = range(0, 16 * len(texts), 16)
        return "".join(with_hex(f'("from", {size}), ') + text
                       for size, text, last in zip(sizes, texts, ["", *texts]) if text != last)
    if call == "platforms":
        return texts[0] + "".join(text for text in texts[1:] if text != texts[0])
    return "".join(texts)


def line_of(text):
    return (text[:-2] if text.endswith(", ") else text) or "none"
