# SPDX-License-Identifier: MIT
"""Pages of the site (scripts/site) that are made of the documents, the manual pages and the Rust package."""
import html
import os
import re
import shutil
import subprocess

from site_parts import DOCUMENTS, ROOT, escape, headings, plain

PICTURES = ('.svg', '.png')
# rustdoc's pages lead to a list of packages, of which there is one.
TO_PACKAGE = ('<!doctype html>\n<html lang="en"><head><meta charset="utf-8"><title>zacpi</title>'
              '<meta http-equiv="refresh" content="0; url=zacpi/index.html"></head>'
              '<body><a href="zacpi/index.html">zacpi</a></body></html>\n')


def slug(title):
    """What a heading is in a link, as scripts/check/documents has it: lower case, without marks, blanks as hyphens."""
    return re.sub(r'[^\w\- ]', '', html.unescape(re.sub(r'<[^>]*>', '', title))).lower().replace(' ', '-')


def place_of(site, target, document, url):
    """Where a link of a document goes on the site; None if nothing there is a page."""
    name, _, heading = target.partition('#')
    path = os.path.relpath(ROOT / os.path.dirname(document) / name, ROOT) if name else document
    up = '../' * url.count('/')
    if path in DOCUMENTS:
        place = DOCUMENTS[path]
    elif path.endswith(PICTURES):
        place = os.path.basename(path)
        shutil.copy(ROOT / path, site.folder / place)
    elif re.search(r'\.\d$', path):
        place = f'manuals/{os.path.basename(path)}.html'
    else:
        place = site.source(path)
    return place and (f'#{heading}' if place == url and heading else up + place + (f'#{heading}' if heading else ''))


def of_markdown(site, document):
    """Makes the page of a document, with the ids of its headings, its links, and the calls that it names."""
    url = DOCUMENTS[document]
    made = subprocess.run(['cmark-gfm', '--unsafe', '-e', 'table', '-e', 'autolink', '-e', 'strikethrough',
                           str(ROOT / document)], stdout=subprocess.PIPE, text=True, check=True).stdout

    def link(found):
        target = html.unescape(found[2])
        if re.match(r'\w+:', target):
            return found[0]
        place = place_of(site, target, document, url)
        return f'{found[1]}="{escape(place)}"' if place else 'class="missing"'

    def name(found):
        place = site.names.get(found[1])
        return f'<a href="{place}">{found[0]}</a>' if place else found[0]
    body = re.sub(r'<h([1-6])>(.*?)(?=</h\1>)', lambda found: f'<h{found[1]} id="{slug(found[2])}">{found[2]}', made)
    body = re.sub(r'\b(href|src)="([^"]*)"', link, body)
    parts = re.split(r'(<a .*?</a>|<h[1-6].*?</h[1-6]>|<pre>.*?</pre>)', body, flags=re.S)
    parts[::2] = [re.sub(r'<code>(zacpi_\w+|ZACPI_\w+)</code>', name, part) for part in parts[::2]]
    body = ''.join(parts).replace('<table>', '<div class="wide"><table>').replace('</table>', '</table></div>')
    sections = re.split(r'<h[1-6] id="([^"]*)">(.*?)</h[1-6]>', body)
    title = plain(sections[2])
    for anchor, heading, text in zip(sections[1::3], sections[2::3], sections[3::3]):
        found = plain(heading)
        site.find(found if found == title else f'{found} ({title})', 'page', f'{url}#{anchor}', plain(text))
    site.write(url, title if url == 'index.html' else f'{title} · zacpi', body, headings(body))


def of_manual(site, path):
    """Makes the page of a manual page, with links to other manual pages."""
    url = f'manuals/{path.name}.html'
    body = subprocess.run(['mandoc', '-Thtml', '-O', 'fragment', str(path)], stdout=subprocess.PIPE, text=True,
                          check=True).stdout

    def link(found):
        place = f'{found[1]}.{found[2]}'
        there = (ROOT / 'docs' / place).exists() or (ROOT / 'docs/man3' / place).exists()
        return f'<a href="{place}.html">{found[0]}</a>' if there else found[0]

    def heading(found):
        return f'<h2 id="{found[1]}">{" ".join(found[2].split())}'
    body = re.sub(r'<b>(\w+)</b>\((\d)\)', link, body)
    body = re.sub(r'(</?)h1\b', r'\1h2', re.sub(r'(</?)h2\b', r'\1h3', body))
    body = re.sub(r'(?s)<h2 class="Sh" id="([^"]*)"><a [^>]*>(.*?)</a>', heading, body)
    # mandoc breaks the lines that begin with a blank, also where each line is one.
    body = re.sub(r'(?s)<pre>.*?</pre>', lambda found: re.sub(r'\n<br/>(?=\n)', '', found[0]), body)
    body = re.sub(r'(?s)<p class="Pp">\s*(?:<br/>\s*)?</p>', '', body[body.index('<div class="manual-text">'):])
    name = f'{path.stem}({path.suffix[1:]})'
    site.find(name, 'manual', url, plain(body))
    site.write(url, f'{name} · zacpi', f'<h1>{name}</h1>\n{body[:body.index("<table class=")]}', headings(body))


def manuals(site):
    for path in sorted((ROOT / 'docs').glob('*.[1-9]')) + sorted((ROOT / 'docs/man3').glob('*.3')):
        of_manual(site, path)


def of_rust(site, target):
    """Makes the pages of the Rust package by rustdoc, each with a way back."""
    # By itself, out of the workspace, it needs no other crates.
    shutil.copytree(ROOT / 'bindings/rust', target / 'package')
    subprocess.run([os.environ.get('CARGO', 'cargo'), 'doc', '--quiet', '--no-deps', '--offline', '--manifest-path',
                    target / 'package/Cargo.toml', '--target-dir', target], check=True)
    shutil.copytree(target / 'doc', site.folder / 'rust', ignore=shutil.ignore_patterns('.lock'))
    for path in (site.folder / 'rust').rglob('*.html'):
        up = '../' * len(path.relative_to(site.folder).parent.parts)
        back = f'<nav class="sidebar"><div class="sidebar-crate"><a href="{up}index.html">All pages of zacpi</a></div>'
        text = path.read_text(encoding='utf-8')
        path.write_text(text.replace('<nav class="sidebar">', back, 1), encoding='utf-8')
        for script in re.findall(r'<script src="([^"]*trait.impl/[^"]*)"', text):
            place = (path.parent / script).resolve() # of a trait that nothing implements rustdoc writes none
            place.parent.mkdir(parents=True, exist_ok=True)
            place.touch()
    (site.folder / 'rust/index.html').write_text(TO_PACKAGE, encoding='utf-8')
    all_items = (site.folder / 'rust/zacpi/all.html').read_text(encoding='utf-8')
    for place, name in re.findall(r'<li><a href="([^"]*)">(.*?)</a></li>', all_items):
        kind = re.search(r'(\w+)\.\w+\.html$', place)
        site.find(plain(name), f'Rust {kind[1] if kind else "item"}', f'rust/zacpi/{place}')
