# SPDX-License-Identifier: MIT
"""What is in src/*.rt, for the scripts that make code which calls it: by which paths a crate reaches what a lower one
declares, and which functions return what a definition means, by their contracts.

A type or a function is named by its crate and its name there. A type in a text is such a text with the crate it is
in: ('acpi_arm', 'Option<SpiRange>')."""
import re
from dataclasses import dataclass
from functools import cache
from lib.definitions import ROOT, meaning, structs

DECLARED = r'(?m)^(?:pub(?:\(\w+\))? )?(struct|enum|fn) (\w+)'
FUNCTION = re.compile(r'(?m)^( *)(?:pub(?:\(\w+\))? )?fn (\w+)(?:<[^(]*>)?\(([^)]*)\) -> (.*)\n(?: +requires .*\n)*'
                      r' +ensures (?:\w+ )?\{ result ≡ ([\w.]+)((?: [\w.]+)*) \}')
IMPL = re.compile(r'(?m)^impl(?:<[^>]*>)? (?:.* for )?(\w+)')
FROM = re.compile(r'(?m)^impl ((?:Try)?From)<(\w+)> for (\w+) \{\n(?:.*\n)*? +ghost (?:try_)?from_gives = '
                  r'\{ λ (\w+) r\. r ≡ (\w+) \4 \};')
USED = re.compile(r'(?m)^pub use ([\w:]+)(?:::\{([^}]*)\})?;')


@dataclass
class Function:
    """A function: what it belongs to, if anything, its parameters by name and type, and the type of its result."""
    crate: str
    module: tuple
    owner: str
    name: str
    parameters: dict
    result: str


@cache
def below(crate):
    """The crates that a crate's line in crates.txt names."""
    line = re.search(rf'(?m)^{crate}(?: staticlib)?:(.*)', (ROOT / 'crates.txt').read_text())[1]
    return [name for name in line.split() if (ROOT / 'crates' / name).exists()]


@cache
def sources(crate):
    """The texts of a crate, by their modules, but what scripts/shown makes."""
    folder = ROOT / 'crates' / crate / 'src'
    files = [file for file in sorted(folder.rglob('*.rt')) if file.stem != 'shown']
    return {tuple(part for part in file.relative_to(folder).with_suffix('').parts if part != 'lib'): file.read_text()
            for file in files}


@cache
def declared(crate):
    """The modules of a crate's types and functions, by their names."""
    return {name: module for module, text in sources(crate).items() for _, name in re.findall(DECLARED, text)}


@cache
def fields_of(crate, name):
    """The fields of a struct, by their types."""
    return next((one.fields for one in structs(crate) if one.name == name), {})


@cache
def payload(crate, name, variant):
    """The type of what a variant of an enum contains."""
    body = re.search(rf'(?m)^(?:pub )?enum {name}\b[^{{]*\{{((?:\n .*|\n)*)', sources(crate)[declared(crate)[name]])[1]
    return re.search(rf'\n +{variant}(?:\((.*)\))?(?: =.*)?,', body)[1]


def found(crate, name):
    """The crate that declares a type which a crate's text names."""
    there = (crate, *below(crate)[::-1]) if crate else ()
    return next((one for one in there if name in declared(one)), None)


@cache
def exports(crate):
    """What the public paths of a crate lead to."""
    paths = {(*module, name): (crate, name) for name, module in declared(crate).items()}
    while True:
        more = dict(paths)
        for module, text in sources(crate).items():
            for path, names in USED.findall(text):
                start, *rest = path.split('::')
                known = paths if start not in below(crate) else exports(start)
                before = tuple(rest) if start in (*below(crate), 'crate') else (*module, start, *rest)
                for name in re.findall(r'\w+', names) or [before[-1]]:
                    under = (*before, name) if names else before
                    for one in [one for one in known if one[:len(under)] == under]:
                        more.setdefault((*module, name, *one[len(under):]), known[one])
        if more == paths:
            break
        paths = more
    hidden = [(*module, name) for module, text in sources(crate).items()
              for name in re.findall(r'(?m)^(?:pub\(\w+\) )?mod (\w+);', text)]
    return {path: item for path, item in paths.items() if not any(path[:len(one)] == one for one in hidden)}


@cache
def path_to(crate, item):
    """The path by which a crate reaches a type or a function: in itself, or in a crate below."""
    if item[0] == crate:
        return '::'.join(('crate', *declared(crate)[item[1]], item[1]))
    for one in below(crate):
        paths = [path for path, meant in exports(one).items() if meant == item]
        if paths:
            return '::'.join((one, *min(paths, key=len)))
    return None


@cache
def functions(crate):
    """The functions of a crate by what their contracts say that they return."""
    there = {}
    for module, text in sources(crate).items():
        for match in FUNCTION.finditer(text):
            indent, name, given, result, word, rest = match.groups()
            owner = [''] if not indent else ['', *IMPL.findall(text[:match.start()])]
            parameters = {one.partition(':')[0].strip(): one.partition(':')[2].strip() for one in given.split(',')
                          if one.strip()}
            names = [name.lstrip('&') for name in parameters]
            meant = meaning(text, word)
            if meant and [one.removesuffix('.now') for one in rest.split()] == names:
                there.setdefault(meant, Function(crate, module, owner[-1], name, parameters, result))
        for trait, kind, owner, _, word in FROM.findall(text):
            result = owner if trait == 'From' else f'Result<{owner}>'
            name = 'from' if trait == 'From' else 'try_from'
            there[meaning(text, word)] = Function(crate, module, owner, name, {'code': kind}, result)
    return there


@cache
def returning(crate, meant):
    """The function that returns what a definition means, of a crate or of one below."""
    own = functions(crate).get(meant)
    return own or next(filter(None, (returning(one, meant) for one in below(crate))), None)
