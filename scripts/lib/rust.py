# SPDX-License-Identifier: MIT
"""How the structs of zacpi.h are in Rust, for the scripts that make the records and the exports of the crates: in which
file of which crate each is, and which fields it has."""
import re
import sys
from pathlib import Path
from lib.header import ROOT, declared, lists, returned, structs

# The crates of the calls, from the lowest up.
CRATES = ['acpi_c_lib', 'acpi_c_interrupts', 'acpi_c_devices', 'acpi_c_machine']
FILES = { # each module, what is in it, and the first words of the sections of the header whose structs are there
    'acpi_c_lib::records': ('memory and tables', ['Memory', 'Tables']),
    'acpi_c_interrupts::apics::records': ('interrupts and processors of a machine with APICs', ['Interrupts']),
    'acpi_c_interrupts::arm::records': ('an Arm machine', ['Arm']),
    'acpi_c_interrupts::written_records': ('the tables of interrupts and timers that are to be written', []),
    'acpi_c_devices::records': ('registers and devices', ['PCI']),
    'acpi_c_devices::fixed::records': ('the fixed hardware, the serial console and configuration space',
                                       ['Fixed hardware']),
    'acpi_c_devices::power::records': ('sleep types, and of what to write to sleep, to enable ACPI and to reset',
                                       ['Power']),
    'acpi_c_devices::numa::records': ('domains and of the distances between localities', ['NUMA']),
    'acpi_c_devices::iommu::records': ("the units that remap devices' accesses to memory", ['IOMMUs']),
    'acpi_c_devices::written_records': ('the tables of devices and domains that are to be written', []),
    'acpi_c_machine::written_records': ('a machine whose tables are to be written',
                                        ['Tables that are written', 'A whole machine']),
}
ELSEWHERE = { # those that are in another file than their section's
    **dict.fromkeys(['GenericAddress', 'Register', 'PmTimer', 'HpetInfo', 'BootGraphic'], 'acpi_c_devices::records'),
    'Facs': 'acpi_c_lib::records', 'EcamRange': 'acpi_c_devices::fixed::records',
    **dict.fromkeys(['MadtContents', 'GicContents', 'PlatformTimer', 'GtdtContents'],
                    'acpi_c_interrupts::written_records'),
    **dict.fromkeys(['SratContents', 'SpcrContents', 'FacsContents'], 'acpi_c_devices::written_records'),
}
RECORD = r"#\[repr\(C\)\]\n(?:#.*\n)*pub struct (\w+)(?:<'\w+>)? \{\n((?: .*\n)*)\}"
NUMBERS = {'uint8_t': 'u8', 'uint16_t': 'u16', 'uint32_t': 'u32', 'uint64_t': 'u64', 'zacpi_u64': 'u64',
           'zacpi_size': 'usize', 'size_t': 'usize', 'zacpi_status': 'u32'}


def rust_name(name):
    return ''.join(word.capitalize() for word in name.removeprefix('zacpi_').split('_'))


def item_type(kind):
    """The type of one value of C's, or of one item of a list."""
    kind = kind.removeprefix('const ').rstrip('* ')
    return NUMBERS.get(kind) or rust_name(kind.removeprefix('struct '))


def rust_fields(fields):
    """A struct's fields in Rust, by name and type; a slice of what has slices in it is of its lifetime too."""
    slices = {name: (kind, length) for _, kind, name, length in lists(fields)}
    lengths = {length for _, length in slices.values()}
    for kind, name in fields:
        array = re.match(r'(\w+)\[(\d+)\]$', name)
        if name in slices:
            yield name, f"&'a {'' if kind.startswith('const') else 'mut '}[{lent(item_type(kind))}]"
        elif array:
            yield array[1], f'[{item_type(kind)}; {array[2]}]'
        elif name not in lengths:
            yield name, lent(item_type(kind))


def lent(kind):
    return f"{kind}<'a>" if kind in lending else kind


by_name = {rust_name(name): fields for name, fields in structs.items()}
lending = {name for name, fields in by_name.items() if list(lists(fields))}
written = {rust_name(name) for name in returned()}


def module_of(file):
    """The path of a source file's module, which begins with its crate."""
    crate, _, *parts = file.relative_to(ROOT / 'crates').with_suffix('').parts
    return '::'.join([crate, *parts])


def source_of(module):
    """The file of a module."""
    crate, *parts = module.split('::')
    return (ROOT / 'crates' / crate / 'src').joinpath(*parts).with_suffix('.rt')


def fields_here(name):
    """A record's fields as the library has them: of one that it only reads, what is reserved is left to the layout."""
    return [field for field in rust_fields(by_name[name]) if name in written or not field[0].startswith('reserved')]


def by_hand():
    """The module, or the crate below, of each record that no script makes; stops at one that isn't as in the header."""
    found = {}
    for crate in (*CRATES, 'acpi_iommu', 'acpi_riscv', 'acpi_table_writer'):
        for file in sorted((ROOT / 'crates' / crate / 'src').rglob('*.rt')):
            text = re.sub(r'(?m)^ *//.*\n', '', file.read_text())
            for name, body in re.findall(RECORD, text):
                if module_of(file) in FILES:
                    continue
                has = [(field, re.sub(r"'\w+", "'a", kind)) for field, kind in re.findall(r'pub (\w+): (.*),\n', body)]
                if has != fields_here(name):
                    sys.exit(f'{file.relative_to(ROOT)}: {name} has other fields than in the header')
                found[name] = module_of(file) if crate in CRATES else crate
    return found


def defaults():
    """The records of which the crates' sources call default(), and those that are in them."""
    called = set()
    for crate in CRATES:
        for file in (ROOT / 'crates' / crate / 'src').rglob('*.rt'):
            called |= set(re.findall(r'\b(\w+)::default\(\)', file.read_text()))
    while True:
        more = called | {kind for name in called & set(by_name) for _, kind in rust_fields(by_name[name])}
        if more == called:
            return called
        called = more


def imported(module, names, word):
    """The line that brings names in, laid out as rt fmt lays it out."""
    line = f'{word} {module}::{names[0]};' if len(names) == 1 else f'{word} {module}::{{{", ".join(names)}}};'
    if len(line) < 99:
        return line
    lines = ['']
    for name in names:
        if len(lines[-1]) + len(name) + 2 > 95:
            lines.append('')
        lines[-1] += (' ' if lines[-1] else '') + name + ','
    return '\n'.join([f'{word} {module}::{{', *(f'    {line}' for line in lines), '};'])


where = {rust_name(name): section for name, (section, _) in declared().items() if name in structs}
hand, has_default = by_hand(), defaults()


def file_of_section(section):
    """The file of a section: by the most words of its head."""
    found = [(len(head), file) for file, (_, heads) in FILES.items() for head in heads if section.startswith(head)]
    return max(found)[1] if found else None


def file_of(name):
    return None if name in hand else ELSEWHERE.get(name) or file_of_section(where[name])


def write(made):
    """Writes these files, by their paths, or with --check prints those that would change."""
    wrong = [path for path, text in made.items() if not path.exists() or path.read_text() != text]
    for path in wrong:
        if sys.argv[1:] == ['--check']:
            print(f'{path.relative_to(ROOT)} is not what {Path(sys.argv[0]).name} makes')
        else:
            path.parent.mkdir(exist_ok=True)
            path.write_text(made[path])
    sys.exit(bool(wrong) and sys.argv[1:] == ['--check'])
