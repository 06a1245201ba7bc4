# SPDX-License-Identifier: MIT
"""The exports of acpi_c as the Rust package has them, for scripts/erase. A slice is passed to Rattle's as C passes
a pointer and a number; rustc's `extern "C"` passes it as a struct, which is another way where registers run out. So
each takes both, and makes the slice of them: that is the package's unsafe code for C, and rests on what zacpi.h asks of
callers."""
import re

HEAD = '''#![allow(unsafe_code)]
// Records have slices where C's have a pointer and a number: rustc lays them out so.
#![allow(improper_ctypes_definitions)]
'''
EXPORT = re.compile(r'(pub extern "C" fn \w+\()([^)]*)(\) -> u32\s*\{\n)')
SLICE = re.compile(r'(\w+): &(mut )?\[([^\]]*)\]')


def with_pointers(text):
    """A file of exports, whose slices are passed as pointers and lengths."""
    def export(found):
        made = []

        def parameter(slice_of):
            name, mutable, item = slice_of.groups()
            suffix = '_mut' if mutable else ''
            made.append(f'    let {name} = unsafe {{ core::slice::from_raw_parts{suffix}({name}, {name}_length) }};\n')
            return f'{name}: *{"mut" if mutable else "const"} {item}, {name}_length: usize'
        parameters = SLICE.sub(parameter, found[2])
        return found[1] + parameters + found[3] + ''.join(made)
    return EXPORT.sub(export, text)


def with_slices(text):
    """The same without what was made of slices, for whoever looks for what else is added."""
    text = re.sub(r'\n *let (\w+) = unsafe \{ core::slice::from_raw_parts(?:_mut)?\(\1, \1_length\) \};', '', text)
    text = re.sub(r'\b(\w+): \*mut ([^,]*),\s*\1_length: usize', r'\1: &mut [\2]', text)
    return re.sub(r'\b(\w+): \*const ([^,]*),\s*\1_length: usize', r'\1: &[\2]', text)
