# SPDX-License-Identifier: MIT
"""What all pages of the site (scripts/site) share: the frame with the ways to other pages, links between pages,
and what the search finds."""
import html
import json
import re
from pathlib import Path

from lib import header_items

ROOT = header_items.ROOT
# The documents that are pages, with their places; other ones that are linked get theirs by their path.
DOCUMENTS = {'README.md': 'index.html', 'CONTRIBUTING.md': 'contributing.html', 'SECURITY.md': 'security.html',
             'CHANGELOG.md': 'changelog.html', 'examples/README.md': 'examples.html',
             'bindings/rust/README.md': 'rust-package.html', 'bindings/programs/README.md': 'programs-package.html',
             'tools/acpi_dump/data/README.md': 'sample-files.html'}
DOCUMENTS |= {f'docs/{path.name}': f'{path.stem.lower()}.html' for path in sorted((ROOT / 'docs').glob('*.md'))}
# The doors, and what is behind each: its pages.
DOORS = [
    ('C file', [('Calling it from C', 'c.html'), ('A kernel in 15 minutes', 'start.html'),
                ('Calls, by question', 'reference/index.html'), ('Manual pages', 'manuals/zacpi.3.html'),
                ('Examples', 'examples.html')]),
    ('Rust package', [('The package', 'rust-package.html'), ('Its items (rustdoc)', 'rust/zacpi/index.html'),
                      ('Beside the crate acpi', 'differences.html'), ('From Rattle', 'rattle.html')]),
    ('acpi_dump', [('The programs', 'programs.html'), ('acpi_dump(1)', 'manuals/acpi_dump.1.html'),
                   ('acpi_view(1)', 'manuals/acpi_view.1.html'), ('acpi_pack(1)', 'manuals/acpi_pack.1.html'),
                   ('Their source package', 'programs-package.html'), ('Sample files', 'sample-files.html')])]
MORE = ('All of it', [('What it is', 'index.html'), ('Compared', 'compared.html'), ('What is proved', 'proved.html'),
                      ('Definitions', 'definitions.html'), ('Footprints', 'footprints.html'),
                      ('Decisions', 'decisions.html'), ('Speed', 'speed.html'), ('Map of the code', 'map.html'),
                      ('Glossary', 'glossary.html'), ('Changes', 'changelog.html'), ('Security', 'security.html'),
                      ('Contributing', 'contributing.html'), ('A first day: a field', 'first_field.html'),
                      ('A first day: an option', 'first_option.html')])
LISTED = {page for _, pages in DOORS + [MORE] for _, page in pages}
MORE[1].extend((Path(name).stem.capitalize(), page) for name, page in DOCUMENTS.items() if page not in LISTED)
# What else is behind the first door.
OF_C = re.compile(r'reference/|manuals/zacpi')
NAME = re.compile(r'\b(?:zacpi_\w+|ZACPI_\w+)\b')
escape = html.escape
MOST = 1000000 # bytes of a file that is shown


def plain(page):
    """The text of HTML, in one line."""
    return ' '.join(html.unescape(re.sub(r'<[^>]*>', ' ', page)).split())


def headings(body):
    """The headings of a page, each with its anchor."""
    return [(anchor, re.sub(r'</?a\b[^>]*>', '', words)) for anchor, words in
            re.findall(r'<h2 id="([^"]*)">(.*?)</h2>', body)]


class Site:
    """The pages that are made, in a folder, with what the search finds, and the files that they show."""
    def __init__(self, folder):
        self.folder, self.entries, self.names = folder, [], {}
        self.shown, self.waiting = {}, []

    def ways(self, url, contents):
        """The doors, and beside a page its headings and the ways to others."""
        up = '../' * url.count('/')
        here = [door for door, pages in DOORS if url in (page for _, page in pages)]
        here += [DOORS[0][0]] * bool(OF_C.match(url))
        doors = ''.join(f'<a href="{up}{pages[0][1]}"{" class=here" if door in here else ""}>{door}</a>'
                        for door, pages in DOORS)
        sections = [('This page', [(words, f'#{anchor}') for anchor, words in contents])] if contents else []
        for door, pages in DOORS + [MORE]:
            sections.append((door, [(escape(label), up + page) for label, page in pages]))
        ways = ''
        for title, links in sections:
            rows = ''.join(f'<li><a href="{place}"{" aria-current=page" if place == up + url else ""}>{words}</a></li>'
                           for words, place in links)
            ways += f'<section><h2>{title}</h2><ul>{rows}</ul></section>\n'
        return doors, ways

    def frame(self, url, title, body, contents=()):
        """A whole page: its head, the ways to others, and its body."""
        up = '../' * url.count('/')
        doors, ways = self.ways(url, contents)
        return f'''<!doctype html>
<html lang="en">
<head>
<meta charset="utf-8">
<meta name="viewport" content="width=device-width, initial-scale=1">
<title>{escape(title)}</title>
<link rel="stylesheet" href="{up}style.css">
<script defer src="{up}search.js" data-root="{up}"></script>
</head>
<body>
<header>
<a class="home" href="{up}index.html">zacpi</a>
<nav aria-label="Doors">{doors}</nav>
<div class="search"><input type="search" id="search" placeholder="Search (press /)" aria-label="Search"
autocomplete="off" spellcheck="false"><ol id="found" hidden></ol></div>
</header>
<div class="page">
<main>
{body}
</main>
<nav class="ways" aria-label="Pages">
{ways}</nav>
</div>
</body>
</html>
'''

    def write(self, url, title, body, contents=()):
        path = self.folder / url
        path.parent.mkdir(parents=True, exist_ok=True)
        path.write_text(self.frame(url, title, body, contents), encoding='utf-8')

    def find(self, title, kind, url, text=''):
        """Adds what the search finds: words, what they are, where they are explained, and the text there."""
        self.entries.append([title, kind, url, text])

    def linked(self, text, url):
        """Escaped text with the names that have another page as links to it."""
        up = '../' * url.count('/')

        def link(found):
            place = self.names.get(found[0])
            return found[0] if not place or place == url else f'<a class="name" href="{up}{place}">{found[0]}</a>'
        return NAME.sub(link, escape(text, quote=False))

    def source(self, path, line=None):
        """The page that shows a file or a folder of the clone, which is made at last; None if it isn't text."""
        path = Path(path)
        if str(path) not in self.shown:
            full = ROOT / path
            is_text = full.is_dir() or full.is_file() and full.stat().st_size < MOST and b'\0' not in full.read_bytes()
            place = f'source/{path}/index.html' if full.is_dir() else f'source/{path}.html'
            self.shown[str(path)] = place if is_text else None
            self.waiting += [path] if is_text else []
        place = self.shown[str(path)]
        return place and place + (f'#L{line}' if line else '')

    def show_sources(self):
        """Makes the pages of files and folders that others point to. Of a folder only files that are directly in it
        have pages."""
        while self.waiting:
            path = self.waiting.pop()
            url = self.shown[str(path)]
            up = '../' * url.count('/')
            if (ROOT / path).is_dir():
                rows = []
                for each in sorted((ROOT / path).iterdir()):
                    name = each.name + '/' * each.is_dir()
                    place = self.shown.get(str(path / each.name)) if each.is_dir() else self.source(path / each.name)
                    rows.append(f'<li><a href="{up}{place}">{name}</a></li>' if place else f'<li>{name}</li>')
                body = f'<ul class="files">{"".join(rows)}</ul>'
            else:
                lines = (ROOT / path).read_text(encoding='utf-8', errors='replace').rstrip('\n').split('\n')
                body = '<pre class="source">' + '\n'.join(
                    f'<span id="L{number}">{escape(line)}</span>' for number, line in enumerate(lines, 1)) + '</pre>'
                self.find(str(path), 'file', url)
            self.write(url, str(path), f'<h1><code>{path}</code></h1>\n<p>As it is in the clone.</p>\n{body}')

    def write_index(self):
        """What the search reads: a script, since a page that is a file may fetch nothing."""
        lines = ',\n'.join(json.dumps(entry, ensure_ascii=False, separators=(',', ':')) for entry in self.entries)
        (self.folder / 'search-index.js').write_text(f'searchIn([\n{lines}\n]);\n', encoding='utf-8')
