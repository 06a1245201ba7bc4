// Made by scripts/erase of crates/acpi_dump_walk/src/aml/constant.rt, where it is proved.
//! What constants are (section 20.2.3): integers, texts, buffers, packages and names.

use super::resources::is_template;
use crate::walk::fields::number_of;
use zacpi::sleep::block::block_at;
use zacpi::sleep::name::name_at;
use zacpi::sleep::term::{Part, parts_end};

/// The integer that is all of a constant.
pub fn integer_in(data: &[u8]) -> Option<u64> {
    match data {
        [0x00] => Some(0),
        [0x01] => Some(1),
        [0xFF] => Some(u64::MAX),
        [0x0A, _] | [0x0B, _, _] | [0x0C, _, _, _, _] | [0x0E, _, _, _, _, _, _, _, _] => Some(number_of(&data[1..])),
        _ => None,
    }
}

/// The letters of the EISA id that an integer is, each from 1 on. It has three letters of five bits and four
/// hexadecimal digits, the highest first (section 19.3.4).
pub(super) fn eisa_letters_in(data: &[u8]) -> Option<(u8, u8, u8)> {
    let [0x0C, high, next, ..] = data else {
        return None;
    };
    let letters = (*high / 4, *high % 4 * 8 + *next / 32, *next % 32);
    if matches!(letters, (1..=26, 1..=26, 1..=26)) { Some(letters) } else { None }
}

/// Whether an integer is an EISA id.
pub fn is_eisa_id(data: &[u8]) -> bool {
    eisa_letters_in(data).is_some()
}

/// The text that a constant is, without the zero at its end.
pub fn text_in(data: &[u8]) -> Option<&[u8]> {
    match data {
        [0x0D, text @ ..] => Some(text.strip_suffix(&[0]).unwrap_or(text)),
        _ => None,
    }
}

/// The size of a buffer, if it is constant, and the bytes that it begins with.
pub fn buffer_in(data: &[u8]) -> Option<(Option<u64>, &[u8])> {
    let [0x11, ..] = data else {
        return None;
    };
    let block = block_at(data, 1).ok()?;
    let start = parts_end(&[Part::Argument], data, block.start).ok()?;
    let size = integer_in(data.get(block.start..start)?);
    Some((size, data.get(start..block.end)?))
}

/// Whether a buffer of a size is resources and nothing else, as a register of `_PCT` or `_CST` is.
pub fn are_resources(size: Option<u64>, bytes: &[u8]) -> bool {
    size == Some(bytes.len() as u64) && is_template(bytes)
}

/// The UUID that a buffer is: 16 bytes of version 1 to 5, of the variant of RFC 4122.
pub fn uuid_in(data: &[u8]) -> Option<&[u8]> {
    match buffer_in(data) {
        Some((Some(16), bytes @ [_, _, _, _, _, _, _, 0x10..=0x5F, 0x80..=0xBF, ..])) if bytes.len() == 16 => {
            Some(bytes)
        }
        _ => None,
    }
}

/// The first of a package's elements, and those after it, if it ends in them.
pub fn next_element(elements: &[u8]) -> Option<(&[u8], &[u8])> {
    let end = parts_end(&[Part::Argument], elements, 0).ok()?;
    Some((elements.get(..end)?, elements.get(end..)?))
}

/// How many elements a package has, and the bytes of those that are set; `None` of other constants, and of a count that
/// isn't constant.
pub fn elements_of(data: &[u8]) -> Option<(u64, &[u8])> {
    let part = match data {
        [0x12, ..] => Part::Byte,
        [0x13, ..] => Part::Argument,
        _ => return None,
    };
    let block = block_at(data, 1).ok()?;
    let start = parts_end(&[part], data, block.start).ok()?;
    let number = data.get(block.start..start)?;
    let count = match part {
        Part::Byte => number_of(number),
        _ => integer_in(number)?,
    };
    Some((count, data.get(start..block.end)?))
}

/// The name that a constant is: whether it begins at the root, how many scopes up it begins, and its segments.
pub fn name_in(data: &[u8]) -> Option<(bool, usize, &[u8])> {
    let name = name_at(data, 0).ok()?;
    if name.end != data.len() {
        return None;
    }
    Some((data.first() == Some(&b'\\'), name.ups, data.get(name.first..)?))
}

/// The last segment of a path.
fn last_name(path: &[u8]) -> &[u8] {
    path.get(path.len().saturating_sub(4)..).unwrap_or(&[])
}

/// The descriptors of resources that a name of a path is set to (sections 6.2.2 to 6.2.13).
pub fn resources_in<'a>(path: &[u8], data: &'a [u8]) -> Option<&'a [u8]> {
    let (size, bytes) = buffer_in(data)?;
    let is_named = matches!(last_name(path), b"_CRS" | b"_PRS" | b"_DMA");
    (is_named || are_resources(size, bytes)).then_some(bytes)
}

/// Whether a name of a path is set to ids of devices (sections 6.1.2 and 6.1.5).
pub fn has_ids(path: &[u8]) -> bool {
    matches!(last_name(path), b"_HID" | b"_CID")
}
