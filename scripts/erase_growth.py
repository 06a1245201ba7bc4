# SPDX-License-Identifier: MIT
"""Which types of the Rust package may get more in a minor version: #[non_exhaustive] is added to them. An enum may get
variants, unless its values are all that there can be. A struct may get fields if it has only public ones and callers
only read it: not what a writer contains, nor what a public function takes, nor what is in one of these. What kernels
of acpi 5.2 match whole stays: bindings/rust/tests/kernel/every_item.rs does."""
import re
from lib.header import passed, returned
from lib.rattle import ROOT
from lib.rust import rust_name

CRATES = ROOT / 'crates'
WRITERS = ['acpi_table_writer', 'acpi_writer']
KERNEL = (ROOT / 'bindings/rust/tests/kernel/every_item.rs').read_text()
# What kernels match one by one: codes, entries, and steps that are to be run.
CLOSED = {'AccessSize', 'LocalInterruptLine', 'MadtEntry', 'NmiProcessor', 'Polarity', 'ProcessorState', 'RootKind',
          'StepKind', 'TriggerMode', 'Width'}
# `Accept` is passed as its trait, and who runs plans tries it with plans of their own.
CHOSEN = {'Accept', 'Plan', 'PlanStep', *re.findall(r'\b([A-Z]\w+) \{ [^.{}]*\}', KERNEL)}
ENUM = r'(?m)^pub enum (\w+)'
STRUCT = r"(?m)^pub struct (\w+)(?:<[^>]*>)? \{\n((?: .*\n|\n)*?)\}"
FIELD = r'(?m)^    (?!//|#)(pub )?\w+: (.*)'
IMPL = r'(?m)^impl\b.* for (\w+)'
FUNCTION = r'\bpub fn \w+(?:<[^(]*>)?\(([^)]*)\)'


def types(text):
    """The types that a text names."""
    return set(re.findall(r'\b[A-Z]\w*', text))


def filled(crates):
    """The structs that callers fill, by their names."""
    fields, found = {}, set(CHOSEN)
    for crate in crates:
        for file in (CRATES / crate / 'src').rglob('*.rt'):
            text = re.sub(r'//.*', '', file.read_text())
            for name, body in re.findall(STRUCT, text):
                fields.setdefault(name, set()).update(types(' '.join(kind for _, kind in re.findall(FIELD, body))))
                found |= {name} if crate in WRITERS else set()
            found |= set(re.findall(IMPL, text)) if crate in WRITERS else set()
            found |= {name for taken in re.findall(FUNCTION, text) for name in types(taken)}
    while True:
        more = found.union(*(fields.get(name, set()) for name in found))
        if more == found:
            return found
        found = more


def with_growth(text, is_record, stays):
    """A file's text with the attribute; records of calls are judged by the header."""
    def may_grow(match):
        kinds = re.findall(FIELD, match[2])
        name = match[1]
        grows = name in READ if is_record else name not in stays
        return f'#[non_exhaustive]\n{match[0]}' if kinds and all(shown for shown, _ in kinds) and grows else match[0]
    text = re.sub(ENUM, lambda m: m[0] if m[1] in CLOSED else f'#[non_exhaustive]\n{m[0]}', text)
    return re.sub(STRUCT, may_grow, text)


READ = {rust_name(name) for name in returned() - passed()}
