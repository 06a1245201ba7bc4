//! How calls.rs describes calls and records, and how the words of a call become what Rust takes.

/// A field of a record: a number, or a list (`item` is its record; `changed` if the library writes it), which is a
/// pointer and a length.
pub struct Field {
    pub name: &'static str,
    pub at: usize,
    pub size: usize,
    pub item: i32,
    pub changed: bool,
}

pub struct Record {
    pub name: &'static str,
    pub size: usize,
    pub fields: &'static [Field],
    /// Where records are in it, and which.
    pub parts: &'static [(usize, usize)],
}

#[derive(Clone, Copy, PartialEq)]
pub enum Kind {
    Source,
    Number,
    Letters,
    In,
    InList,
    ChangedList,
    Changed,
    Out,
    OutList,
    Count,
    Named,
}

pub type Words = [usize; 12];

pub struct Call {
    pub name: &'static str,
    pub arguments: &'static [(Kind, usize, &'static str)],
    pub c: fn(&Words) -> u32,
    pub rust: fn(&Words) -> u32,
}

pub unsafe fn at<'a, T>(place: usize) -> &'a T {
    unsafe { &*(place as *const T) }
}

pub unsafe fn at_mut<'a, T>(place: usize) -> &'a mut T {
    unsafe { &mut *(place as *mut T) }
}

pub unsafe fn list<'a, T>(place: usize, length: usize) -> &'a [T] {
    unsafe { std::slice::from_raw_parts(place as *const T, length) }
}

pub unsafe fn list_mut<'a, T>(place: usize, length: usize) -> &'a mut [T] {
    unsafe { std::slice::from_raw_parts_mut(place as *mut T, length) }
}

/// A record of four bytes.
pub unsafe fn letters<T: Copy>(word: u32) -> T {
    assert!(size_of::<T>() == 4);
    unsafe { std::mem::transmute_copy(&word) }
}

/// Puts a number into so many bytes, if all of them are there.
pub fn put(bytes: &mut [u8], at: usize, size: usize, value: u64) {
    if at + size <= bytes.len() {
        bytes[at..at + size].copy_from_slice(&value.to_le_bytes()[..size]);
    }
}

/// The number that bytes are.
pub fn number(bytes: &[u8]) -> u64 {
    bytes.iter().rev().fold(0, |number, byte| number << 8 | *byte as u64)
}
