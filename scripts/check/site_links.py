# SPDX-License-Identifier: MIT
"""Follows every link between the pages of a folder: to files, and to places in pages."""
import html
import os
import re
import urllib.parse

ATTRIBUTE = re.compile(r'''<[a-z][^<>]*?\s(?:href|src)=(?:"([^"]*)"|'([^']*)'|([^\s"'>]+))''')
PLACE = re.compile(r'''\s(?:id|name)=(?:"([^"]*)"|'([^']*)'|([^\s"'>]+))''')
OTHERS = ('http:', 'https:', 'data:', 'mailto:', 'javascript:')


def read(path):
    """The links of a page, and its places."""
    with open(path, encoding='utf-8') as file:
        text = re.sub(r'(?s)<script\b[^>]*>(?=.)(?!</script>).*?</script>', '', file.read())
    links = {html.unescape(''.join(found)) for found in ATTRIBUTE.findall(text)}
    scripts = set(re.findall(r'<script\b[^>]*\ssrc="([^"]*)"', text))
    return links | scripts, {html.unescape(''.join(found)) for found in PLACE.findall(text)}


def is_there(places, fragment):
    """Whether a page has a place; rustdoc links lines of a file by the first and the last."""
    lines = re.fullmatch(r'(\d+)-(\d+)', fragment)
    return fragment in places or urllib.parse.unquote(fragment) in places or (lines and {lines[1], lines[2]} <= places)


def dead(folder):
    """How many links were followed, and each that leads nowhere, with its page."""
    paths = [os.path.join(at, name) for at, _, names in os.walk(folder) for name in names if name.endswith('.html')]
    pages = {path: read(path) for path in paths}
    followed, lost = 0, []
    for path, (links, _) in sorted(pages.items()):
        for link in sorted(links):
            if link.startswith(OTHERS):
                continue
            target, _, fragment = link.partition('#')
            to = os.path.normpath(os.path.join(os.path.dirname(path), urllib.parse.unquote(target))) if target else path
            followed += 1
            is_inside = os.path.commonpath([to, folder]) == str(folder)
            has_place = not fragment or to not in pages or is_there(pages[to][1], fragment)
            if not (is_inside and os.path.isfile(to) and has_place):
                lost.append(f'{os.path.relpath(path, folder)}: {link}')
    return followed, lost
