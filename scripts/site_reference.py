# SPDX-License-Identifier: MIT
"""Pages of the site (scripts/site) for C's calls, records and constants: of what Doxygen reads in the headers,
with the errors of each call in order, its records and a caller of it."""
import re
import subprocess
import xml.etree.ElementTree as tree

from lib import call_pages
from lib import header_items
from site_parts import ROOT, escape, headings, plain

INDEX = 'reference/index.html'


def read(folder):
    """Has Doxygen read the headers: the folder of its XML, and the groups in the order of C.md's questions. What it
    warns of ends it."""
    settings = (ROOT / 'docs/site/Doxyfile').read_text() + f'OUTPUT_DIRECTORY = "{folder}"\n'
    ran = subprocess.run(['doxygen', '-'], input=settings, cwd=ROOT, text=True, stdout=subprocess.PIPE,
                         stderr=subprocess.STDOUT)
    if ran.returncode or ran.stdout.strip():
        raise SystemExit(f'doxygen warns:\n{ran.stdout}')
    xml = folder / 'xml'
    names = [each.get('refid') for each in tree.parse(xml / 'index.xml').iterfind('compound[@kind="group"]')]
    groups = {group.findtext('title'): group for group in (tree.parse(xml / f'{name}.xml').find('compounddef')
                                                            for name in names)}
    order = [title for title in header_items.groups() if title in groups]
    return xml, [groups[title] for title in order + [title for title in groups if title not in order]]


def place_of(group):
    return f'reference/group-{group.findtext("compoundname")}.html'


def wide(rows, heads=(), kind=''):
    """A table of rows, which are HTML."""
    first = ''.join(f'<th>{head}</th>' for head in heads)
    lines = (f'<tr>{first}</tr>\n' if first else '') + '\n'.join(rows)
    return f'<div class="wide"><table class="{kind}">{lines}</table></div>\n' if rows else ''


def brief(item):
    """The first sentence of a comment, or of the one in a record."""
    is_bare = item.kind == 'record' and not item.comment
    return re.sub(':$', '.', header_items.members(item)[0] if is_bare else item.brief())


def searched(item):
    """A comment as the search has it."""
    return item.words().replace('`', '')


class Reference:
    """The pages of what Doxygen has read."""
    def __init__(self, site, xml, groups):
        self.site, self.xml, self.groups = site, xml, groups
        self.items, self.members = call_pages.items(), {}
        for group in groups:
            for member in group.iter('memberdef'):
                self.add(member.findtext('name'), member, group)
            for record in group.iterfind('innerclass'):
                element = tree.parse(xml / f'{record.get("refid")}.xml').find('compounddef')
                self.add(record.text, element, group)

    def add(self, name, element, group):
        self.members[name] = element, group
        self.site.names[name] = f'reference/{name}.html'
        for value in element.iterfind('enumvalue'):
            self.site.names[value.findtext('name')] = f'reference/{name}.html#{value.findtext("name")}'

    def html_of(self, element, url):
        """What Doxygen has of a comment, as HTML: paragraphs, with blocks between them."""
        if element.tag == 'verbatim':
            return f'<pre>{self.site.linked(element.text.rstrip(), url)}</pre>\n'
        mark = {'computeroutput': 'code', 'para': 'p'}.get(element.tag)
        found, inside = '', self.site.linked(element.text or '', url)
        for each in element:
            if mark == 'p' and each.tag in ('verbatim', 'simplesect'):
                found += f'<p>{inside.strip()}</p>\n' if inside.strip() else ''
                found, inside = found + self.html_of(each, url), ''
            else:
                inside += self.html_of(each, url)
            inside += self.site.linked(each.tail or '', url)
        if element.tag == 'simplesect' and element.get('kind') == 'remark':
            return f'<div class="note">{inside.strip()}</div>\n'
        inside = inside.strip() if mark == 'p' else inside
        return found + (f'<{mark}>{inside}</{mark}>' if mark and inside else inside) + '\n' * (mark == 'p')

    def said(self, element, url):
        """The paragraphs of an element's comment; none for one that has only a blank."""
        body = self.html_of(element.find('detaileddescription'), url).strip()
        return body if plain(body) else ''

    def code(self, words, url):
        return re.sub(r'`([^`]*)`', r'<code>\1</code>', self.site.linked(words, url))

    def list_of(self, names, url):
        return ', '.join(f'<code>{self.site.linked(name, url)}</code>' for name in names)

    def page(self, name, kind, url, body, text):
        self.site.find(name, kind, url, text)
        self.site.write(url, f'{name} · zacpi', body, headings(body))

    def top(self, name, kind, url):
        """The heading of a page, where its name is declared, and in which group it is."""
        item, group = self.items[name], self.members[name][1]
        place = self.site.source(f'include/{item.header}', item.line)
        word = f'{kind} ' if kind in ('struct', 'enum') else ''
        return (f'<h1><code>{word}{name}</code></h1>\n<p class="where">{kind.capitalize()} of '
                f'<a href="../{place}">include/{item.header}</a>, in '
                f'<a href="../{place_of(group)}">{group.findtext("title")}</a></p>\n')

    def field(self, field, url, is_own, is_enum):
        """The row of a field or a constant, after the row of its head if it has one."""
        name, words = field.findtext('name'), self.said(field, url)
        head = re.match(r'(?s)<div class="note">(.*?)</div>', words)
        row = f'<tr class="head"><td colspan="2">{head[1]}</td></tr>' if head else ''
        words = words[head.end():] if head else words
        if is_enum:
            shown = f'{name} {field.findtext("initializer")}'
        else:
            kind = ''.join(field.find('type').itertext())
            after = field.findtext('argsstring') or ''
            shown = self.site.linked(kind, url) + ' ' * (kind[-1:] != '*') + name + escape(after)
        anchor = f' id="{name}"' if is_own else ''
        return f'{row}<tr{anchor}><td><code>{shown}</code></td><td>{words}</td></tr>'

    def fields(self, name, url):
        """A struct or an enum, as a table of its fields or constants."""
        element = self.members[name][0]
        is_enum, is_own = element.get('kind') == 'enum', url == self.site.names[name]
        rows = [self.field(each, url, is_own, is_enum) for each in
                element.iter('enumvalue' if is_enum else 'memberdef')]
        title = '' if is_own else (f'<h3><code>{self.items[name].text.split()[0]} {self.site.linked(name, url)}</code>'
                                   f'</h3>\n{self.said(element, url)}\n')
        return title + wide(rows, kind='fields')

    def errors(self, item, url, words):
        rows = [f'<tr><td><code>{self.site.linked(name, url)}</code></td><td>{number}</td>'
                f'<td>{self.code(means, url)}</td></tr>' for name, number, means in call_pages.errors_of(item)]
        return rows and ('<h2 id="errors">Errors, in order</h2>\n' + (words and f'<p>{words}') +
                         wide(rows, ('error', 'number', 'means'), 'errors')) or ''

    def example(self, item, url):
        """A caller of a call, or how it is called, and where test cases have it."""
        found, cases = call_pages.example_of(item.name), call_pages.cases_of(item.name)

        def link(path, line):
            return f'<a href="../{self.site.source(path, line)}">{path}</a>'
        text = found[2] if found else call_pages.usual_call(item)
        lead = f'From {link(*found[:2])}:' if found else 'A call of it:'
        more = f'<p>Test cases, with results worked out by hand: {link(*cases)}.</p>\n' if cases else ''
        return (f'<h2 id="example">Example</h2>\n<p>{lead}</p>\n<pre>{self.site.linked(text, url)}</pre>\n{more}')

    def also(self, item, url):
        """The calls of the same questions, the notes of the group, and the manual page, as far as there are some."""
        group = self.members[item.name][1]
        near = [call for rows in header_items.groups().values() for _, calls in rows if f'`{item.name}`' in calls
                for call in re.findall(r'`(zacpi_\w+\w)`', calls) if call in self.members and call != item.name]
        links = [self.list_of(dict.fromkeys(near), url)] if near else []
        if self.notes(group, url):
            links.append(f'<a href="../{place_of(group)}#notes">notes on {group.findtext("title")}</a>')
        if (ROOT / f'docs/man3/{item.name}.3').exists():
            links.append(f'<a href="../manuals/{item.name}.3.html">{item.name}(3)</a>')
        return f'<h2 id="also">See also</h2>\n<p>{", ".join(links)}</p>' if links else ''

    def call(self, name):
        item, element = self.items[name], self.members[name][0]
        url = self.site.names[name]
        lines = '\n'.join(''.join(text + argument for text, argument in line).rstrip()
                          for line in call_pages.declaration(item, 90))
        does = self.said(element, url)
        fails = re.search(r'(?:(?<=<p>)|(?<=[.:)] ))Fails?(?:,[^.]*?,)? (?:with|as) ', does)
        does, errors = (does[:fails.start()], does[fails.start():]) if fails else (does, '')
        body = f'{self.top(name, "call", url)}<pre class="prototype">{self.site.linked(lines, url)}</pre>\n{does}'
        records = ''.join(self.fields(each, url) for each in call_pages.records_of(item) if each in self.members)
        body += '</p>' * (does.count('<p>') > does.count('</p>')) + self.errors(item, url, errors)
        body += records and f'<h2 id="records">Records</h2>\n{records}'
        self.page(name, 'call', url, body + self.example(item, url) + self.also(item, url), searched(item))

    def record(self, name):
        """The page of a struct, an enum, a type or a macro, with what has it."""
        item, element = self.items[name], self.members[name][0]
        url, kind = self.site.names[name], {'macro': 'macro', 'alias': 'type'}.get(item.kind, item.text.split()[0])
        body = self.top(name, kind, url) + self.said(element, url)
        body += self.fields(name, url) if item.kind == 'record' else f'<pre>{self.site.linked(item.text, url)}</pre>\n'
        having = [each.name for each in self.items.values() if each.name != name and
                  re.search(rf'\b{name}\b', each.text) and each.name in self.members]
        if having:
            body += f'<h2 id="used">What has it</h2>\n<p>{self.list_of(having, url)}</p>\n'
        words = plain(self.fields(name, url)) if item.kind == 'record' else ''
        self.page(name, kind, url, body, f'{searched(item)} {words}')
        for value in element.iterfind('enumvalue'):
            called = value.findtext('name')
            self.site.find(called, 'constant', f'{url}#{called}', plain(self.said(value, url)))

    def questions(self, title, url):
        """The questions of a group, with their calls, without links to C.md's parts."""
        def calls(text):
            text = re.sub(r'\[([^\]]*)\]\(#([^)]*)\)', r'<a href="../c.html#\2">\1</a>', self.site.linked(text, url))
            return re.sub(r'`(.*?)`', r'<code>\1</code>', text)
        rows = [f'<tr><td>{escape(question)}</td><td>{calls(text)}</td></tr>'
                for question, text in header_items.groups().get(title, [])]
        return wide(rows, ('question', 'calls'), 'questions')

    def notes(self, group, url):
        """What the header has on a group's calls, after the questions, with which Doxygen's text begins."""
        paragraphs = list(group.find('detaileddescription'))[1:]
        return ''.join(self.html_of(each, url) for each in paragraphs)

    def group(self, group):
        """The page of a group: its questions with their calls, what each does, and notes on all."""
        url, title = place_of(group), group.findtext('title')
        body = f'<h1>{title}</h1>\n{self.questions(title, url)}'
        names = [name for name, (_, own) in self.members.items() if own is group]
        for anchor, heading, kinds in (('calls', 'Calls', ('call',)),
                                       ('records', 'Records and constants', ('record', 'alias', 'macro'))):
            lines = ''.join(f'<dt><code>{self.site.linked(name, url)}</code></dt>'
                            f'<dd>{self.code(brief(self.items[name]), url)}</dd>\n'
                            for name in names if self.items[name].kind in kinds)
            body += lines and f'<h2 id="{anchor}">{heading}</h2>\n<dl>{lines}</dl>\n'
        notes = self.notes(group, url)
        body += notes and f'<h2 id="notes">Notes</h2>\n{notes}'
        self.page(title, 'group of calls', url, body, plain(self.questions(title, url) + notes))

    def index(self):
        body = '<h1>Calls, by question</h1>\n'
        for group in self.groups:
            title = group.findtext('title')
            body += (f'<h2 id="{group.findtext("compoundname")}"><a href="../{place_of(group)}">{title}</a></h2>\n'
                     f'{self.questions(title, INDEX)}')
        body += f'<p>{self.site.linked("zacpi_status_code", INDEX)} has all errors.</p>\n'
        body += '<h2 id="all">What holds for all calls</h2>\n'
        body += self.said(tree.parse(self.xml / 'zacpi_8h.xml').find('compounddef'), INDEX)
        self.page('Calls, by question', 'page', INDEX, body, '')

    def bytes(self):
        """The structs over a table's bytes are shown as their header has them."""
        for number, line in enumerate((ROOT / 'include/zacpi_tables.h').read_text().split('\n'), 1):
            found = re.match(r'(?:struct |#define )(zacpi_raw_\w+|ZACPI_WALK_\w+|ZACPI_RAW_(?:FITS|HAS)\b)', line)
            if found and found[1] not in self.site.names:
                self.site.names[found[1]] = self.site.source('include/zacpi_tables.h', number)
                kind = 'struct of bytes' if line.startswith('struct') else 'macro'
                self.site.find(found[1], kind, self.site.names[found[1]])

    def write(self):
        self.bytes()
        for name in self.members:
            (self.call if self.items[name].kind == 'call' else self.record)(name)
        for group in self.groups:
            self.group(group)
        self.index()


def pages(site, folder):
    Reference(site, *read(folder)).write()
