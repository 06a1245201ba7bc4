// Made by scripts/erase of crates/acpi_bytes/src/bytes.rt, where it is proved.
//! Numbers, sums and texts of bytes.

pub use crate::bytes::sum::byte_sum;

/// The `N` bytes at an offset, filled up with zeros if the bytes end before.
#[inline(always)]
pub fn filled<const N: usize>(bytes: &[u8], offset: usize) -> [u8; N] {
    let rest = skip(bytes, offset);
    let present = if N < rest.len() { &rest[..N] } else { rest };
    let mut filled = [0; N];
    filled[..present.len()].copy_from_slice(present);
    filled
}

/// The `N` bytes at an offset, all of which are there: nothing is tested.
///
/// # Panics
///
/// Panics if the bytes end before the array would.
#[inline(always)]
pub fn filled_in<const N: usize>(bytes: &[u8], offset: usize) -> [u8; N] {
    let rest = &bytes[offset..];
    let present = &rest[..N];
    let mut filled = [0; N];
    filled[..present.len()].copy_from_slice(present);
    filled
}

/// The number of eight bytes, the lowest first. Here and in `number_of` they are named one by one, so that they are
/// loaded at once: what is copied into an array first is stored in pieces, and the load waits for them.
#[inline(always)]
fn eight(bytes: &[u8]) -> u64 {
    u64::from_le_bytes([bytes[0], bytes[1], bytes[2], bytes[3], bytes[4], bytes[5], bytes[6], bytes[7]])
}

/// The number that at most eight bytes encode, the lowest byte first.
#[inline(always)]
fn number_of(bytes: &[u8]) -> u64 {
    if bytes.len() == 8 {
        return eight(bytes);
    }
    match bytes {
        [a] => *a as u64,
        [a, b] => u16::from_le_bytes([*a, *b]) as u64,
        [a, b, c, d] => u32::from_le_bytes([*a, *b, *c, *d]) as u64,
        _ => {
            return u64::from_le_bytes(filled(bytes, 0));
        }
    }
}

/// The number that at most eight bytes encode, the lowest byte first, out of line: few tables end inside a
/// field, and if they don't, the length is known when this is compiled.
#[inline(never)]
fn rest_of(bytes: &[u8]) -> u64 {
    number_of(bytes)
}

/// The little-endian number of the `n` bytes at an offset, for `n` of at most 8. A byte past the
/// end is read as zero (numbers: section 5.2).
#[inline(always)]
pub fn field(bytes: &[u8], offset: usize, n: usize) -> u64 {
    if offset > bytes.len() {
        return 0;
    }
    let rest = &bytes[offset..];
    if n <= rest.len() { number_of(&rest[..n]) } else { rest_of(rest) }
}

/// The little-endian number of the `n` bytes at an offset, for `n` of at most 8, all of which are there:
/// nothing is tested (numbers: section 5.2).
///
/// # Panics
///
/// Panics if the bytes end before the field does.
#[inline(always)]
pub fn field_in(bytes: &[u8], offset: usize, n: usize) -> u64 {
    let rest = &bytes[offset..];
    number_of(&rest[..n])
}

/// The number of the byte at an offset, which is there: `field_in` for a field of this width.
///
/// # Panics
///
/// Panics if the bytes end before the field does.
#[inline(always)]
pub fn u8_in(bytes: &[u8], offset: usize) -> u8 {
    field_in(bytes, offset, 1) as u8
}

/// The number of the two bytes at an offset, which are there: `field_in` for a field of this width.
///
/// # Panics
///
/// Panics if the bytes end before the field does.
#[inline(always)]
pub fn u16_in(bytes: &[u8], offset: usize) -> u16 {
    field_in(bytes, offset, 2) as u16
}

/// The number of the four bytes at an offset, which are there: `field_in` for a field of this width.
///
/// # Panics
///
/// Panics if the bytes end before the field does.
#[inline(always)]
pub fn u32_in(bytes: &[u8], offset: usize) -> u32 {
    field_in(bytes, offset, 4) as u32
}

/// The text that the bytes encode in UTF-8, or `None` if they are not valid UTF-8.
pub fn text_of(bytes: &[u8]) -> Option<&str> {
    match core::str::from_utf8(bytes) {
        Ok(text) => Some(text),
        Err(_) => None,
    }
}

/// The bytes after the first `n`, or none if there are no more.
pub fn skip(bytes: &[u8], n: usize) -> &[u8] {
    if n < bytes.len() { &bytes[n..] } else { &[] }
}

/// Whether the `n` bytes at an offset are in the table.
#[inline(always)]
pub(crate) fn has_part(bytes: &[u8], offset: usize, n: usize) -> bool {
    offset <= bytes.len() && n <= bytes.len() - offset
}

/// Whether bit `k`, for `k` below 64, of a number is set, bit 0 being the lowest.
///
/// # Panics
///
/// Panics if `k` is above 63, where overflow is checked.
#[inline(always)]
pub fn has_bit(number: u64, k: u32) -> bool {
    (number >> k) & 1 == 1
}

/// The number of the `width` bits from bit `low` on, both below 64, bit 0 being the lowest.
///
/// # Panics
///
/// Panics if `low` or `width` is above 63, where overflow is checked.
#[inline(always)]
pub fn bits(number: u64, low: u32, width: u32) -> u64 {
    (number >> low) % (1 << width)
}

/// Whether each byte is below 128. It has no early end, so that the compiler tests the bytes of an array all
/// at once.
#[inline(always)]
fn are_plain(bytes: &[u8]) -> bool {
    let mut plain = true;
    for byte in bytes {
        plain = plain & (*byte < 128);
    }
    plain
}

/// Whether the bytes are valid UTF-8.
#[inline(always)]
pub fn is_text(bytes: &[u8]) -> bool {
    if are_plain(bytes) {
        return true;
    }
    is_other_text(bytes)
}

/// Whether the bytes are valid UTF-8, out of line: few names have bytes of 128 and above. A few bytes are tested at a
/// time, so that std's loops over words, which long texts are for, aren't part of each program that looks a table up.
#[inline(never)]
fn is_other_text(bytes: &[u8]) -> bool {
    let mut rest = bytes;
    while !rest.is_empty() {
        let count = leading_text(rest);
        if count == 0 {
            return false;
        }
        rest = &rest[count..];
    }
    true
}

/// How many of the first four bytes the whole characters at their front have: a character has at most four.
#[inline(always)]
fn leading_text(bytes: &[u8]) -> usize {
    let few = if bytes.len() < 4 { bytes } else { &bytes[..4] };
    match core::str::from_utf8(few) {
        Ok(_) => few.len(),
        Err(error) => error.valid_up_to(),
    }
}
