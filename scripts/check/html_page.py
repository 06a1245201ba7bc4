# SPDX-License-Identifier: MIT
"""A page of acpi_dump --html as a tree of its elements, with what every page has to be; and the tables by hand that
pages are made of."""
import base64
import collections
import hashlib
import html.parser
import os
from pathlib import Path

from lib import checks
from lib.checks import TOP, check

DATA = f"{TOP}/tools/acpi_dump/data"
SAMPLES = {
    "q35.image": [],
    "virt.image": ["rsdp", "0x40430018"],
    "numa.image": [],
    "arm.image": [],
    "dmar.image": [],
    "ivrs.image": [],
    "nvdimm.image": [],
    "machine.image": [],
    "ten_tables.image": [],
    "short.image": [],
}
SECONDS = 300
POLICY = "default-src 'none'; style-src 'sha256-{}'; script-src 'sha256-{}'; base-uri 'none'; form-action 'none'"


def run(program, *arguments):
    return checks.run(program, *arguments, folder=DATA, seconds=SECONDS)


class Element:
    def __init__(self, name, attributes, parent):
        self.name, self.attributes, self.parent, self.children = name, dict(attributes), parent, []
        self.classes = (self.attributes.get("class") or "").split()

    def text(self):
        return "".join(it if isinstance(it, str) else it.text() for it in self.children)

    def all(self):
        left = self.children[::-1]
        while left:
            it = left.pop()
            if not isinstance(it, str):
                yield it
                left += it.children[::-1]

    def find(self, name, *classes):
        return [it for it in self.all() if it.name == name and all(of in it.classes for of in classes)]


# What has no end tag, what ends with the next of these, and what these end with.
VOID = {"meta", "input", "br", "rect", "path", "circle", "line", "use"}
ENDED_BY = {
    "td": {"td", "th", "tr", "tbody"},
    "th": {"td", "th", "tr", "tbody"},
    "tr": {"tr", "tbody"},
    "thead": {"tbody"},
    "li": {"li"},
    "p": {"p", "div", "section", "h1", "h2", "h3", "pre", "table"},
}
OPTIONAL = {"td", "th", "tr", "li", "p", "thead", "tbody"}


class Page(html.parser.HTMLParser):
    """A page as a tree. An end tag that ends nothing is a fault, and so is an element that isn't ended."""

    def __init__(self, text):
        super().__init__(convert_charrefs=True)
        self.root = self.open = Element("", [], None)
        self.faults = []
        self.feed(text)
        self.close()
        if self.open is not self.root:
            self.faults.append(f"<{self.open.name}> isn't ended")

    def handle_starttag(self, name, attributes):
        while name in ENDED_BY.get(self.open.name, ()):
            self.open = self.open.parent
        it = Element(name, attributes, self.open)
        if len(it.attributes) < len(attributes):
            self.faults.append(f"<{name}> has an attribute twice")
        self.open.children.append(it)
        if name not in VOID:
            self.open = it

    def handle_startendtag(self, name, attributes):
        self.open.children.append(Element(name, attributes, self.open))

    def handle_endtag(self, name):
        while self.open.name != name and self.open.name in OPTIONAL:
            self.open = self.open.parent
        if self.open.name != name:
            self.faults.append(f"</{name}> in <{self.open.name}>")
        else:
            self.open = self.open.parent

    def handle_data(self, text):
        self.open.children.append(text)


def hash_of(text):
    return base64.b64encode(hashlib.sha256(text.encode()).digest()).decode()


def made_page(folder):
    """The text of the page that was made last."""
    return Path(folder, "page.html").read_text(encoding="utf-8")


def page_of(program, folder, *arguments):
    """The page of an input, after what every page has to be was checked."""
    name = " ".join(arguments)
    status, shown, said = run(program, *arguments, "--html", f"{folder}/page.html", "--force")
    check(f"{name} --html", status in (0, 3, 4) and not shown, (status, shown, said))
    page = Page(made_page(folder))
    check(f"{name}: its elements", not page.faults, page.faults[:3])
    elements = list(page.root.all())
    check_links(name, elements)
    check_policy(name, elements)
    return page.root


def check_links(name, elements):
    """Each id is there once, and each link leads to one."""
    places = collections.Counter(it.attributes["id"] for it in elements if "id" in it.attributes)
    twice = [it for it, count in places.items() if count > 1]
    check(f"{name}: its ids", not twice, twice[:3])
    links = {it.attributes["href"] for it in elements if "href" in it.attributes}
    lost = [it for it in links if it[:1] != "#" or it[1:] not in places]
    check(f"{name}: its links", not lost, lost[:3])


def check_policy(name, elements):
    """The policy has the hashes of the style and of the script, and no attribute would work beside them."""
    texts = [[it.text() for it in elements if it.name == of] for of in ("style", "script")]
    policies = [it for it in elements if it.attributes.get("http-equiv") == "Content-Security-Policy"]
    given = [it.attributes["content"] for it in policies]
    is_one = list(map(len, texts)) == [1, 1]
    check(f"{name}: its policy", is_one and given == [POLICY.format(*(hash_of(it[0]) for it in texts))], given)
    odd = [it.name for it in elements
           if any(of == "style" or of[:2] == "on" or of in ("src", "srcset", "action") for of in it.attributes)]
    check(f"{name}: its attributes", not odd, odd[:3])


def cells_in(section):
    """The rows of the fields in the section of a table."""
    for table in section.find("table", "fl"):
        for row in table.find("tr"):
            cells = [it for it in row.children if not isinstance(it, str)]
            if len(cells) == 4 and "del" not in row.classes and cells[0].text() != "Offset":
                yield int(cells[0].text(), 16), *(it.text().rstrip("\n") for it in cells[1:])


def bytes_of(section):
    """The element with the bytes of the table in a section; those before it have operations of methods."""
    return next(it for it in section.find("pre") if it.attributes.get("role") == "region")


def boxes_of(root, title=None):
    """The boxes of the drawing, or of the tiles of a title: where each leads, its marks, its class and its text."""
    for tile in root.find("figure", "tile"):
        if title is None or tile.find("h3")[0].text() == title:
            for link in tile.find("a"):
                rect, texts = link.find("rect")[0], link.find("text")
                text = texts[0].text() if texts else ""
                yield link.attributes["href"], link.classes, rect.attributes["class"], text


def table_of(signature, body=b"", revision=1, oem=b"ZUGZW", oem_table=b"TABLE"):
    """A table with a body, of these IDs and of a compiler whose name is to be escaped, with its checksum."""
    table = bytearray(signature + (36 + len(body)).to_bytes(4, "little") + bytes([revision, 0]))
    table += oem.ljust(6, b"\0") + oem_table.ljust(8, b"\0") + b"\1\0\0\0<&\"'\1\0\0\0" + body
    table[9] = -sum(table) & 255
    return bytes(table)


def filled(folder, files):
    """A folder, which it makes if there is none, with the bytes of files by their names."""
    os.makedirs(folder, exist_ok=True)
    for name, content in files.items():
        Path(folder, name).write_bytes(content)
    return folder
