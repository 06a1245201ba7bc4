# SPDX-License-Identifier: MIT
"""The lines of a file of rows, as scripts/check/rows reads them. A row is bytes, and calls over them. A line is blank,
or one of these. An address is `0x` and hexadecimal digits, and all other numbers are decimal.

    # COMMENT
    = NAME              begins a row that has no bytes. No two rows of a file have the same name
    like NAME           gives it the bytes of an earlier row of the file
    KIND LENGTH         begins a table by itself: so many zeros, and what kind of table they are
    @ ADDRESS LENGTH    begins a region of memory: so many zeros
    @ ADDRESS           goes back to the region at an address
    drop ADDRESS        takes the region at an address away
    OFFSET HEX          puts bytes into the table or region that was begun last or gone back to. Blanks may part them,
                        and with `*COUNT` at its end a part is put so many times
    OFFSET "TEXT"       puts the bytes of a text there
    sum                 changes its byte 9 so that all its bytes sum to 0, and `sum LENGTH` so that its first bytes do
    flip                makes each of its bytes after the first 36 another one, and `cut LENGTH` ends it after so many
    around BEFORE AFTER BYTE    has so many bytes before each region and after it, all the same
    open WAY            says how the tables are opened that calls are about: else by `rsdt 0 0x1000`
    exact, generous     begin a scene: the calls up to the next line of another kind are its steps, over a handler that
                        lends what is asked for, or all to the end of the region; `each` ends the scenes
    CALL ARGUMENTS: TEXT    has what the call prints: its answers, with `, ` between them

rows_calls.py has what calls ask, and rows_answers.py how answers are printed.
"""


class Row:
    def __init__(self, name):
        self.name, self.kind, self.regions = name, "", []  # a region is an address and its bytes
        self.margins, self.way, self.handler = (0, 0, 0), "rsdt 0 0x1000", "each"

    def file(self):
        """The image of its memory: records of a start, a length and bytes."""
        before, after, byte = self.margins
        return b"".join(
            ((start - before) % 2**64).to_bytes(8, "little") + (len(content) + before + after).to_bytes(8, "little")
            + bytes([byte]) * before + content + bytes([byte]) * after for start, content in self.regions)

    def bytes(self):
        return bytes(self.regions[-1][1])

    def go_to(self, address, length=None):
        if length is None:
            self.regions.append(self.regions.pop(self.place(address)))
        else:
            self.regions.append((int(address, 16), bytearray(int(length))))

    def copy(self):
        """The row as it is now, for answers that are compared after more lines were taken."""
        copy = Row(self.name)
        copy.kind, copy.margins = self.kind, self.margins
        copy.regions = [(start, bytes(content)) for start, content in self.regions]
        return copy

    def place(self, address):
        return [start for start, _ in self.regions].index(int(address, 16))

    def put(self, offset, text):
        content = self.regions[-1][1]
        if text.startswith('"'):
            assert text.endswith('"'), text
            put = text[1:-1].encode()
        else:
            parts = (part.partition("*") for part in text.split(" "))
            put = b"".join(bytes.fromhex(digits) * int(times or 1) for digits, _, times in parts)
        assert offset + len(put) <= len(content), "bytes past the end"
        content[offset : offset + len(put)] = put

    def change(self, word, rest):
        content = self.regions[-1][1]
        if word == "sum":
            count = int(rest or len(content))
            assert 9 < count <= len(content), "no such sum"
            content[9] = (content[9] - sum(content[:count])) % 256
        elif word == "flip":
            content[36:] = bytes(byte ^ 0xFF for byte in content[36:])
        else:
            del content[int(rest) :]


class Rows:
    """What the lines of a file say so far: `row` is the one that was begun last."""

    def __init__(self):
        self.named, self.row = {}, Row("")

    def take(self, line):
        """Takes a line that has no call."""
        word, _, rest = line.partition(" ")
        row = self.row
        if word in ("", "#"):
            return
        if word == "=":
            assert rest not in self.named, "a second row of this name"
            self.row = self.named[rest] = Row(rest)
        elif word == "like":
            other = self.named[rest]
            row.kind, row.regions = other.kind, [(start, bytearray(content)) for start, content in other.regions]
        elif word == "@":
            row.go_to(*rest.split(" "))
        elif word == "drop":
            del row.regions[row.place(rest)]
        elif word == "around":
            before, after, byte = rest.split(" ")
            row.margins = int(before), int(after), int(byte, 16)
        elif word == "open":
            row.way = rest or "rsdt 0 0x1000"
        elif word in ("each", "exact", "generous"):
            row.handler = word
        elif word in ("sum", "flip", "cut"):
            row.change(word, rest)
        elif word.isdigit():
            row.put(int(word), rest)
        else:
            row.kind, row.regions = word, [(0, bytearray(int(rest)))]
