// Made by scripts/erase of crates/acpi_dump_walk/src/fields.rt, where it is proved.
//! Fields, one a line: offset, name, value, meaning.

use crate::rattle::Pieces;
use crate::walk::language;
use crate::walk::language::{Meaning, cut_at, next_word, number_at};
use crate::walk::out::Out;
use crate::walk::text::print_indent;
use crate::walk::walk::Field;
use zacpi::sdt::field;

/// Prints bytes that no field covers, which begin at an offset of the table, 16 a line.
pub(crate) fn print_bytes(offset: u64, bytes: &[u8], depth: usize, out: &mut Out) {
    let mut offset = offset;
    for line in bytes.chunks(16) {
        print_indent(depth, out);
        write!(out, "{offset:04x}  ");
        print_hex(line, out);
        out.text("\n");
        offset = offset.saturating_add(16);
    }
}

/// Prints bytes as pairs of digits.
pub fn print_hex(bytes: &[u8], out: &mut Out) {
    for byte in bytes {
        write!(out, "{byte:02x}");
    }
}

/// The column in which values begin.
const VALUES: usize = 46;

/// Prints one field, in a structure so deep in others.
pub(crate) fn print_field(shown: &Field<'_>, depth: usize, out: &mut Out) {
    print_indent(depth, out);
    write!(out, "{:04x}  ", shown.offset);
    out.text(shown.label.name);
    let mut column = depth.saturating_mul(2).saturating_add(shown.label.name.len()).saturating_add(8);
    if let Some(number) = shown.number {
        write!(out, " {number:<3}");
        column = column.saturating_add(4);
    }
    print_spaces(column, out);
    out.text("  ");
    print_value(shown, out);
    print_meaning(shown, out);
    out.text("\n")
}

/// Prints the spaces from a column on up to where values begin.
pub(crate) fn print_spaces(column: usize, out: &mut Out) {
    for _ in column..VALUES {
        out.text(" ");
    }
}

/// Prints the path of an object of AML, whose segments have four letters each.
pub fn print_path(segments: &[u8], out: &mut Out) {
    out.text("\\");
    print_segments(segments, out)
}

/// Prints segments of four letters each.
pub fn print_segments(segments: &[u8], out: &mut Out) {
    for (index, segment) in segments.chunks(4).enumerate() {
        if index > 0 {
            out.text(".");
        }
        out.escaped(segment);
    }
}

/// Prints a number of up to eight bytes as one, the highest digit first, and a text or more bytes
/// in their order.
pub fn print_value(shown: &Field<'_>, out: &mut Out) {
    let (value, meaning) = (shown.bytes, shown.label.meaning);
    if value.len() > 8 || matches!(meaning, Meaning::Text | Meaning::Wide | Meaning::Row) {
        return print_hex(value, out);
    }
    if value.is_empty() {
        return out.text("0x");
    }
    let (number, digits) = (number_of(value), 2 * value.len());
    write!(out, "0x{number:0digits$x}")
}

/// The number of up to eight bytes.
pub fn number_of(value: &[u8]) -> u64 {
    number_at(value, 0, value.len())
}

/// A number of bytes in the largest unit that has a whole number of it.
pub fn size_of(bytes: u64) -> (u64, &'static str) {
    for (unit, size) in [("GiB", 1 << 30), ("MiB", 1 << 20), ("KiB", 1 << 10)] {
        if bytes != 0 && bytes % size == 0 {
            return (bytes / size, unit);
        }
    }
    (bytes, "B")
}

/// Prints the meaning of a field's value, if it means more than itself.
pub fn print_meaning(shown: &Field<'_>, out: &mut Out) {
    let (value, items) = (shown.bytes, shown.label.items);
    let number = number_of(value);
    match shown.label.meaning {
        Meaning::Plain => {}
        Meaning::Decimal => {
            write!(out, "  {number}");
            print_name(name_of(number, items), out)
        }
        Meaning::LessOne => write!(out, "  {}", number.saturating_add(1)),
        Meaning::Text => {
            out.text("  ");
            print_text(value, out)
        }
        Meaning::Wide => print_wide(value, out),
        Meaning::Row => print_row(value, out),
        Meaning::Guid => print_guid(value, items, out),
        Meaning::Function => print_function(number, out),
        Meaning::Path => print_hop(value, out),
        Meaning::Codes => print_name(name_of(number, items), out),
        Meaning::Flags | Meaning::Parts => print_flags(shown, out),
        Meaning::Register => print_register(value, out),
    }
}

/// Prints bytes as characters, those that aren't printable ASCII as `.`.
pub fn print_text(bytes: &[u8], out: &mut Out) {
    for byte in bytes {
        let is_shown = (0x20..0x7f).contains(byte);
        out.bytes(&[if is_shown { *byte } else { b'.' }]);
    }
}

/// The name of a number that is a code, or no letters if it is none.
pub(crate) fn name_of(number: u64, codes: &'static str) -> &'static str {
    for item in codes.split(['|', '\n']) {
        let (code, name) = next_word(item);
        if language::number_of(code) == Some(number) {
            return name.trim_ascii();
        }
    }
    ""
}

/// Prints a name after two spaces, unless it has no letters.
fn print_name(name: &str, out: &mut Out) {
    if !name.is_empty() {
        out.text("  ");
        out.text(name);
    }
}

/// The bits of a number from one on up to another.
pub(crate) fn bits_of(number: u64, first: u64, last: u64) -> u64 {
    if first > 63 || last < first {
        return 0;
    }
    number >> first & u64::MAX >> (63 - (last.min(63) - first))
}

/// A flag that a number has, or a number in it: the first and the last bit, the number that these are, and its name.
#[derive(Clone, Copy)]
struct Flag {
    first: u64,
    last: u64,
    part: u64,
    is_code: bool,
    name: &'static str,
}

/// The flag that an item names, if a number has it: `BIT`, `HIGH:LOW`, which aren't 0, or `HIGH:LOW/NUMBER`, which are
/// that number.
fn flag_in(number: u64, item: &'static str) -> Option<Flag> {
    let (word, name) = next_word(item);
    let (bits, code) = cut_at(word, '/');
    let (highest, lowest) = cut_at(bits, ':');
    let last = language::number_of(highest)?;
    let first = language::number_of(lowest).unwrap_or(last);
    let part = bits_of(number, first, last);
    let code = language::number_of(code);
    let is_there = match code {
        Some(code) => part == code,
        None => part != 0,
    };
    is_there.then_some(Flag { first, last, part, is_code: code.is_some(), name: name.trim_ascii() })
}

/// Prints the parts of a number that aren't 0, and the meanings of those that are codes.
fn print_flags(shown: &Field<'_>, out: &mut Out) {
    let mut is_first = true;
    for item in shown.label.items.split(['|', '\n']) {
        if let Some(flag) = flag_in(number_of(shown.bytes), item) {
            out.text(if is_first { "  " } else { ", " });
            out.text(flag.name);
            if !flag.is_code && flag.first < flag.last {
                match shown.label.meaning {
                    Meaning::Parts => write!(out, " 0x{:x}", flag.part),
                    _ => write!(out, " {}", flag.part),
                }
            }
            is_first = false;
        }
    }
}

/// The bits of a number that none of the flags names, and that aren't 0: a code alone names its bits.
fn unnamed_bits(number: u64, flags: &'static str) -> u64 {
    let mut rest = number;
    for item in flags.split(['|', '\n']) {
        if let Some(flag) = flag_in(number, item)
            && flag.first < 64
        {
            rest &= !(bits_of(u64::MAX, flag.first, flag.last) << flag.first);
        }
    }
    rest
}

/// The number of a field, if that is a code that the layout doesn't name, or the bits of it that no flag names.
pub fn unnamed_in(shown: &Field<'_>) -> Option<u64> {
    let (number, items) = (number_of(shown.bytes), shown.label.items);
    match shown.label.meaning {
        Meaning::Codes if name_of(number, items).is_empty() => Some(number),
        Meaning::Flags | Meaning::Parts => match unnamed_bits(number, items) {
            0 => None,
            bits => Some(bits),
        },
        _ => None,
    }
}

/// Prints a text in UTF-16 as characters, those that aren't printable ASCII as `.`, up to a zero.
fn print_wide(value: &[u8], out: &mut Out) {
    out.text("  ");
    for unit in value.chunks(2) {
        let letter = match unit {
            [0, 0] => return,
            [letter, 0] => *letter,
            _ => b'.',
        };
        print_text(&[letter], out);
    }
}

/// Prints bytes as decimal numbers.
fn print_row(value: &[u8], out: &mut Out) {
    out.text(" ");
    for number in value {
        write!(out, " {number}");
    }
}

/// Prints a GUID, whose first three numbers have their lowest bytes first, and its name if it is one of these.
fn print_guid(value: &[u8], names: &'static str, out: &mut Out) {
    if value.len() != 16 {
        return;
    }
    let start = out.length().saturating_add(2);
    out.text("  ");
    print_guid_digits(value, out);
    print_name(name_in(names, out.since(start)), out)
}

/// Prints the 16 bytes of a GUID.
pub fn print_guid_digits(value: &[u8], out: &mut Out) {
    if value.len() != 16 {
        return;
    }
    let first = field(value, 0, 4);
    let second = field(value, 4, 2);
    let third = field(value, 6, 2);
    write!(out, "{first:08x}-{second:04x}-{third:04x}-");
    print_hex(&value[8..10], out);
    out.text("-");
    print_hex(&value[10..], out)
}

/// The name of the item that begins with a word, or no letters if none does.
fn name_in(names: &'static str, wanted: &[u8]) -> &'static str {
    for item in names.pieces('\n') {
        let (word, name) = next_word(item);
        if word.as_bytes() == wanted {
            return name;
        }
    }
    ""
}

/// Prints the numbers of a device and a function.
fn print_hop(value: &[u8], out: &mut Out) {
    let [device, function] = value else {
        return;
    };
    write!(out, "  {device:02x}.{function}")
}

/// Prints a PCI function.
fn print_function(number: u64, out: &mut Out) {
    let bus = bits_of(number, 8, 15);
    let device = bits_of(number, 3, 7);
    let function = bits_of(number, 0, 2);
    write!(out, "  {bus:02x}:{device:02x}.{function}")
}

/// The names of address spaces (table 5.1).
const SPACES: &str = "0 (memory)|1 (I/O)|2 (PCI configuration)|3 (embedded controller)|4 (SMBus)|5 (CMOS)|6 (PCI BAR)
7 (IPMI)|8 (general-purpose I/O)|9 (serial bus)|10 (PCC)|11 (PRM)|0x7f (fixed hardware)";

/// Prints the parts of a generic address, if it isn't all zeros.
fn print_register(value: &[u8], out: &mut Out) {
    let [space, width, offset, size, address @ ..] = value else {
        return;
    };
    let address = number_of(address);
    if address == 0 && matches!(value, [0, 0, 0, 0, ..]) {
        return;
    }
    out.words("  space %", &[*space as u64]);
    let name = name_of(*space as u64, SPACES);
    if !name.is_empty() {
        out.text(" ");
        out.text(name);
    }
    let numbers = [*width as u64, *offset as u64, *size as u64, address];
    out.words(" width % offset % access % address #", &numbers)
}
