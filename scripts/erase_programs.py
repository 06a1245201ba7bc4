# SPDX-License-Identifier: MIT
"""The package of the programs, bindings/programs: the crates of acpi_view, of acpi_pack and of what acpi_dump reads by
that the library's package hasn't, each as a module, without what Rattle has beyond Rust. And for
`scripts/erase --workspace` a Cargo workspace of crates over copies of both packages, whose text is erased the same way:
to run acpi_rows by rustc."""
import re
import shutil

# The module of the package that each crate is, and its programs, of one file each.
MODULES = {'acpi_cli': 'cli', 'acpi_image_reader': 'image_reader', 'acpi_image': 'image', 'acpi_view_lib': 'view',
           'acpi_pack_lib': 'pack', 'acpi_dump_walk': 'walk', 'acpi_dump_code': 'code', 'acpi_dump_input': 'input'}
PROGRAMS = ['acpi_view', 'acpi_pack']
NAME = 'acpi_programs'
# Where the package has what is of Rattle's std.
STD = ['alloc', 'collections', 'vec', 'string', 'boxed', 'io', 'fs', 'env', 'process', 'os', 'rt', 'time']
# Functions that the library's package has without the allocator that they are passed in Rattle.
GLOBAL = (r'(?P<call>\.platform_info)\([^()]*(?:\([^()]*\))?\)',
          r'\b(?P<path>(?:ManagedSlice|PciConfigRegions|PlatformInfo|GicModel|MemoryAffinities)::new)\('
          r'(?P<first>[^(),]*(?:\([^()]*\))?), ')
# Most of the programs' time is in these: a search that is made for short pieces is in the place of Rust's. Of a text or
# several characters Rust's stays.
PIECES = {r"\.split\((?='(?:\\?.|\\x..)'\))": '.pieces(', r'\.split_once\((?!")': '.two_pieces('}

WORKSPACE = '''[workspace]
resolver = "3"
members = [{members}]

[profile.dev]
debug = false
opt-level = 1

[profile.dev.package."*"]
opt-level = 0
'''
MANIFEST = '''[package]
name = "{name}"
version = "1.0.0"
edition = "2024"
publish = false

[dependencies]
{needs}
'''


def without_global(text):
    text = re.sub(GLOBAL[0], r'\g<call>()', text)
    return re.sub(GLOBAL[1], r'\g<path>(', text)


def places_of(erase, package):
    """Where the names of Rattle's std and of crates lead, from the package of this name: `crate` in its own library."""
    places = {f'std::{module}': f'{package}::rattle::{module}' for module in STD}
    places |= {crate: 'zacpi' if module in ('acpi', 'fixed') else f'zacpi::{module}'
               for crate, module in erase.MODULES.items()}
    places |= {crate: f'{package}::{module}' for crate, module in MODULES.items()}
    return {**places, 'bitflags': f'{package}::rattle::bitflags'}


def with_pieces(erase, text, package):
    new = text
    for call, place in PIECES.items():
        new = re.sub(call, place, new)
    return text if new == text else erase.with_head(new, '', f'use {package}::rattle::Pieces;\n')


def text_of(erase, crate, path, module, package, head):
    text = erase.file_text(crate, str(path), module, places_of(erase, package), f'{package}::rattle', head)
    return with_pieces(erase, without_global(text), package)


def programs(erase):
    """The made files of the package, by their paths in its `src`."""
    made = {}
    for crate, module in MODULES.items():
        for path in erase.files_of(crate):
            is_root = path.name == 'lib.rt'
            to = erase.Path(module, 'mod.rs' if is_root else path.with_suffix('.rs'))
            text = text_of(erase, crate, path, module, 'crate', erase.HEAD if is_root else '')
            made[to] = erase.MADE.format(f'{crate}/src/{path}') + text
    for name in PROGRAMS:
        text = text_of(erase, name, 'main.rt', '', NAME, '#![forbid(unsafe_code)]\n#![allow(unused_imports)]\n')
        made[erase.Path('bin', f'{name}.rs')] = erase.MADE.format(f'{name}/src/main.rt') + text
    return made


def copy_packages(erase, folder):
    """Copies the packages, the library's with the fields of structs in the order of the source, since some rows count a
    heap's bytes."""
    for name in ('rust', 'programs'):
        shutil.copytree(erase.ROOT / 'bindings' / name, folder / name,
                        ignore=shutil.ignore_patterns('target', 'tests', 'examples'))
    for path in (folder / 'rust/src').rglob('*.rs'):
        if path.relative_to(folder / 'rust/src').parts[0] in erase.MODULES.values():
            path.write_text(re.sub(r'(?m)^((?:pub(?:\([a-z]+\))? )?struct )', r'#[repr(C)]\n\1', path.read_text()))


def workspace(erase, folder, names):
    """Writes the workspace of these crates and of the packages."""
    copy_packages(erase, folder)
    shutil.copytree(erase.ROOT / 'tools/acpi_dump', folder / 'acpi_dump',
                    ignore=shutil.ignore_patterns('tests', 'examples', 'data'))
    toml = folder / 'acpi_dump/Cargo.toml'
    toml.write_text(toml.read_text().replace('../../bindings/', '../').replace('[lints]\nworkspace = true\n', ''))
    heap = 'linked_list_allocator'
    shutil.copytree(erase.ROOT / 'tests/rustc' / heap, folder / heap)
    for name in names:
        one_crate(erase, folder, name, [('zacpi', 'rust'), (NAME, 'programs'), (heap, heap)])
    members = ', '.join(f'"{name}"' for name in [*names, 'programs', 'acpi_dump'])
    (folder / 'Cargo.toml').write_text(WORKSPACE.format(members=members))


def one_crate(erase, folder, name, needs):
    for path in erase.files_of(name):
        head = '#![forbid(unsafe_code)]\n#![allow(unused)]\n' if str(path) in ('lib.rt', 'main.rt') else ''
        to = folder / name / 'src' / path.with_suffix('.rs')
        to.parent.mkdir(parents=True, exist_ok=True)
        to.write_text(text_of(erase, name, path, '', NAME, head))
    lines = '\n'.join(f'{need} = {{ path = "../{place}" }}' for need, place in needs)
    (folder / name / 'Cargo.toml').write_text(MANIFEST.format(name=name, needs=lines))
