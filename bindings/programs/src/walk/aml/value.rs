// Made by scripts/erase of crates/acpi_dump_walk/src/aml/value.rt, where it is proved.
//! The values of objects, as far as they are constants (section 20.2.3). AML is not run.

use super::constant::{
    are_resources, buffer_in, eisa_letters_in, elements_of, has_ids, integer_in, is_eisa_id, name_in, next_element,
    resources_in, text_in, uuid_in,
};
use super::parts::{Form, form_of, print_form};
use super::resources::print_resources;
use crate::rattle::Pieces;
use crate::walk::fields::{print_guid_digits, print_hex, print_segments};
use crate::walk::language::cut_at;
use crate::walk::out::Out;
use zacpi::sleep::term::{Part, parts_end};

/// How deep packages are shown in packages at most.
const DEEPEST: u32 = 8;

/// How many bytes of a buffer are shown at most.
const MOST: usize = 32;

/// The address spaces of operation regions, from 0 on (section 19.6.114).
const SPACES: &str = "SystemMemory SystemIO PCI_Config EmbeddedControl SMBus SystemCMOS PciBarTarget IPMI \
    GeneralPurposeIO GenericSerialBus PCC PlatformRtMechanism";

/// What is beside the names of objects of an opcode, in the language of `parts`. The name of a block is a row of words
/// for the arguments and names that its bytes begin with, in which `%` is one, and its places count from after them.
const OBJECTS: &str = "\
= 0x06 0 - of %
= 0x15 2 -
type code 0:1 0 UnknownObj|1 IntObj|2 StrObj|3 BuffObj|4 PkgObj|5 FieldUnitObj|6 DeviceObj|7 EventObj|8 MethodObj|\
9 MutexObj|10 OpRegionObj|11 PowerResObj|12 ProcessorObj|13 ThermalZoneObj|14 BuffFieldObj|15 DDBHandleObj
arguments dec? 1:1
= 0x8a-0x8c 0 - of %|byte %
= 0x8d 0 - of %|bit %
= 0x8f 0 - of %|byte %
= 0x5b01 1 -
level word 0:1 0 3
= 0x5b13 0 - of %|bit %|% bits
= 0x5b81 1 -
access word 0:1 0 3 AnyAcc|ByteAcc|WordAcc|DWordAcc|QWordAcc|BufferAcc
lock word 0:1 4 4 NoLock|Lock
update word 0:1 5 6 Preserve|WriteAsOnes|WriteAsZeros
= 0x5b83 6 -
id dec 0:1
block hex 1:4
length dec 5:1 +of % bytes
= 0x5b84 3 -
level dec 0:1
order dec 1:2
= 0x5b86 1 0x5b81 data %
= 0x5b87 1 0x5b81 bank %|value %
= 0x5b88 0 - %|%|%
";

/// What is shown of an object besides its name.
#[derive(Clone, Copy)]
pub enum Value<'a> {
    /// Nothing.
    Hidden,
    /// What a `Name` is set to.
    Data(&'a [u8]),
    /// The address space of an operation region, its offset and its length.
    Region(&'a [u8]),
    /// A method's flags.
    Method(u8),
    /// The first bit of a field's unit, and how many it has.
    Bits(u64, u64),
    /// The opcode of another object, and the bytes that are beside its name.
    Parts(u16, &'a [u8]),
}

impl<'a> Value<'a> {
    /// The value of an object of an opcode, of which these bytes are beside its name.
    pub(super) fn beside_name(code: u16, bytes: &'a [u8]) -> Value<'a> {
        match (code, bytes) {
            (0x08, _) => Value::Data(bytes),
            (0x14, [flags, ..]) => Value::Method(*flags),
            (0x5B80, _) => Value::Region(bytes),
            (0x06 | 0x15 | 0x8A..=0x8F, _) | (0x5B01 | 0x5B13 | 0x5B81 | 0x5B83 | 0x5B84 | 0x5B86..=0x5B88, _) => {
                Value::Parts(code, bytes)
            }
            _ => Value::Hidden,
        }
    }

    /// Prints the value of an object of a path in a line, as a script takes it.
    pub fn print_raw(self, path: &[u8], out: &mut Out) {
        match self {
            Value::Data(data) => print_plain(path, data, out),
            _ => self.print(path, "; ", out),
        }
    }

    /// Prints the value of an object of a path; of several resources or packages, each but the first after `between`.
    pub fn print(self, path: &[u8], between: &str, out: &mut Out) {
        match self {
            Value::Hidden => {}
            Value::Data(data) => print_named(path, data, between, out),
            Value::Region(parts) => print_region(parts, out),
            Value::Method(flags) => {
                out.words("arguments %", &[flags as u64 % 8]);
                if flags & 8 != 0 {
                    out.text(", serialized");
                }
                if flags >= 16 {
                    out.words(", level %", &[flags as u64 / 16]);
                }
            }
            Value::Parts(code, bytes) => print_parts(code, bytes, out),
            Value::Bits(first, 1) => out.words("bit %", &[first]),
            Value::Bits(first, count) => {
                let last = first.saturating_add(count.saturating_sub(1));
                out.words("bits % to %", &[first, last])
            }
        }
    }
}

/// Prints what a name of a path is set to, as a script takes it: a text, an id and a UUID without what it is called,
/// and all bytes of another buffer.
fn print_plain(path: &[u8], data: &[u8], out: &mut Out) {
    if let Some(text) = text_in(data) {
        return out.escaped(text);
    }
    if has_ids(path) && is_eisa_id(data) {
        return print_eisa_id(data, out);
    }
    match (uuid_in(data), resources_in(path, data), buffer_in(data)) {
        (Some(uuid), _, _) => print_guid_digits(uuid, out),
        (None, None, Some((_, bytes))) => print_hex(bytes, out),
        _ => print_named(path, data, "; ", out),
    }
}

/// Prints what a name of a path is set to.
fn print_named(path: &[u8], data: &[u8], between: &str, out: &mut Out) {
    if let Some(bytes) = resources_in(path, data) {
        return print_resources(bytes, between, out);
    }
    if is_list(data) {
        return print_elements(data, false, DEEPEST - 1, between, out);
    }
    print_data(data, has_ids(path), DEEPEST, out)
}

/// Whether a constant is a package of which one of the first two elements is a buffer or a package: as `_PRT`, `_CST`
/// and `_DSD` are.
fn is_list(data: &[u8]) -> bool {
    let Some((_, elements)) = elements_of(data) else {
        return false;
    };
    let (_, rest) = next_element(elements).unwrap_or((&[], &[]));
    matches!(elements, [0x11..=0x13, ..]) || matches!(rest, [0x11..=0x13, ..])
}

/// Prints a constant, in which numbers may be the ids of devices.
fn print_data(data: &[u8], are_ids: bool, depth: u32, out: &mut Out) {
    if let Some(number) = integer_in(data) {
        return print_integer(data, number, are_ids, out);
    }
    if let Some(text) = text_in(data) {
        out.text("\"");
        for letter in text {
            out.text(if matches!(letter, b'"' | b'\\') { "\\" } else { "" });
            out.escaped(&[*letter]);
        }
        return out.text("\"");
    }
    match data {
        [0x11, ..] => print_buffer(data, out),
        [0x12 | 0x13, ..] if depth > 0 => {
            out.text("{");
            print_elements(data, are_ids, depth - 1, ", ", out);
            out.text("}")
        }
        _ => print_reference(data, out),
    }
}

/// Prints an integer, which may be an EISA id.
fn print_integer(data: &[u8], number: u64, are_ids: bool, out: &mut Out) {
    if !are_ids || !is_eisa_id(data) {
        return out.words("#", &[number]);
    }
    out.text("EISA id ");
    print_eisa_id(data, out)
}

/// Prints the EISA id that an integer is.
pub fn print_eisa_id(data: &[u8], out: &mut Out) {
    let Some((first, second, third)) = eisa_letters_in(data) else {
        return;
    };
    for letter in [first, second, third] {
        out.bytes(&[b'@' + letter % 32]);
    }
    for pair in data.get(3..).unwrap_or(&[]) {
        write!(out, "{pair:02X}");
    }
}

/// Prints a buffer: as the resources that it is, or as a UUID, if its 16 bytes have a version and a variant of one, or
/// its size and first bytes.
fn print_buffer(data: &[u8], out: &mut Out) {
    let Some((size, bytes)) = buffer_in(data) else {
        return out.text("..");
    };
    if are_resources(size, bytes) {
        out.text("(");
        print_resources(bytes, "; ", out);
        return out.text(")");
    }
    if let Some(uuid) = uuid_in(data) {
        out.text("UUID ");
        return print_guid_digits(uuid, out);
    }
    match size {
        Some(size) => out.words("buffer of % bytes", &[size]),
        None => out.text("buffer"),
    }
    if bytes.is_empty() {
        return;
    }
    out.text(": ");
    print_hex(bytes.get(..MOST).unwrap_or(bytes), out);
    if bytes.len() > MOST {
        out.text("..");
    }
}

/// Prints the elements of a package, each but the first after `between`: as many as it has, or fewer if no more are
/// set.
fn print_elements(data: &[u8], are_ids: bool, depth: u32, between: &str, out: &mut Out) {
    let Some((count, elements)) = elements_of(data) else {
        return out.text("..");
    };
    let mut rest = elements;
    for index in 0..count {
        if rest.is_empty() {
            return;
        }
        if index > 0 {
            out.text(between);
        }
        let Some((element, others)) = next_element(rest) else {
            return out.text("..");
        };
        print_data(element, are_ids, depth, out);
        rest = others;
    }
}

/// Prints the name that a constant is, as it is written, or that it is no constant.
pub fn print_reference(data: &[u8], out: &mut Out) {
    let Some((is_rooted, ups, segments)) = name_in(data) else {
        return out.text("..");
    };
    if is_rooted {
        out.text("\\");
    }
    for _ in 0..ups {
        out.text("^");
    }
    print_segments(segments, out)
}

/// Prints the address space of an operation region, its length and its offset.
fn print_region(parts: &[u8], out: &mut Out) {
    let [space, numbers @ ..] = parts else {
        return;
    };
    match SPACES.pieces(' ').nth(*space as usize) {
        Some(name) => out.text(name),
        None => out.words("space #", &[*space as u64]),
    }
    let Ok(end) = parts_end(&[Part::Argument], numbers, 0) else {
        return;
    };
    out.text(", ");
    print_data(&numbers[end..], false, 0, out);
    out.text(" bytes from ");
    print_data(&numbers[..end], false, 0, out)
}

/// Prints what is beside the name of an object of an opcode.
fn print_parts(code: u16, bytes: &[u8], out: &mut Out) {
    let Some(form) = form_of(code as u64, OBJECTS, bytes) else {
        return print_hex(bytes, out);
    };
    let mut rest = bytes;
    for words in form.name.0.pieces('|') {
        if !words.is_empty()
            && let Some((argument, others)) = next_element(rest)
        {
            let (before, after) = cut_at(words, '%');
            out.text(before);
            print_data(argument, false, 0, out);
            out.text(after);
            out.text(if others.is_empty() { "" } else { ", " });
            rest = others;
        }
    }
    if !rest.is_empty() {
        let name = ("", "");
        print_form(&Form { name, ..form }, rest, out)
    }
}
