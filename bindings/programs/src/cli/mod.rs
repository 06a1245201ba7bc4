// Made by scripts/erase of crates/acpi_cli/src/lib.rt, where it is proved.
//! Code that the programs share: arguments, the way to the root table that they name, and files that are saved.

#![forbid(unsafe_code)]
// What contracts alone use.
#![allow(dead_code, unused_imports, unused_labels, unused_variables)]
// It is written as it is proved.
#![allow(clippy::style, clippy::complexity, clippy::perf, clippy::manual_unwrap_or_default)]

pub mod root;
pub mod save;
pub mod storage;

use crate::rattle::alloc::{AllocError, Global};
use crate::rattle::env;
use crate::rattle::io;
use crate::rattle::io::ErrorKind;
use crate::rattle::{CollectIn, HostRuntime, String, Vec};

/// Whether each character is a digit of a base. A sign is none.
fn are_digits(text: &str, base: u32) -> bool {
    text.bytes().all(|byte| (byte as char).is_digit(base))
}

/// The number that digits of a base encode, the highest first, or `None` if there are none, more
/// than `most`, or something else among them.
pub fn number_of(digits: &str, base: u32, most: usize) -> Option<u64> {
    if digits.len() > most || !are_digits(digits, base) {
        return None;
    }
    u64::from_str_radix(digits, base).ok()
}

/// The revision that an argument encodes, by one to three decimal digits, or `None` if it is something else
/// or above 255.
pub fn parse_revision(word: &str) -> Option<u8> {
    u8::try_from(number_of(word, 10, 3)?).ok()
}

/// The address that an argument encodes, by `0x` and one to sixteen hexadecimal digits of either case, or
/// `None` if it is something else.
pub fn parse_address(word: &str) -> Option<u64> {
    number_of(word.strip_prefix("0x")?, 16, 16)
}

/// These arguments, or no arguments if the system doesn't return them for another reason than memory, as when one is
/// not valid UTF-8.
///
/// Fails if memory for the arguments runs out.
pub fn args_or_none(alloc: Global, args: io::Result<Vec<String>>) -> io::Result<Vec<String>> {
    match args {
        Err(refusal) if refusal.kind() != ErrorKind::OutOfMemory => Ok(Vec::new(alloc)),
        args => args,
    }
}

/// The arguments without the first, the program's name: all others, in order.
fn after_name(mut args: Vec<String>) -> Vec<String> {
    if args.is_empty() {
        return args;
    }
    args.remove(0);
    args
}

/// The process's arguments after the program's name, in order.
///
/// Fails if the system doesn't return them.
fn args_after_name(rt: &HostRuntime) -> io::Result<Vec<String>> {
    let args = env::args(rt)?.collect_in(rt.alloc())?;
    Ok(after_name(args))
}

/// The process's arguments after the program's name, in order, or no arguments if the system doesn't return them for
/// another reason than memory, as when one is not valid UTF-8.
///
/// Fails if memory for them runs out.
pub fn args(rt: &HostRuntime) -> io::Result<Vec<String>> {
    args_or_none(rt.alloc(), args_after_name(rt))
}

/// Owned texts, borrowed, in order.
///
/// Fails if it runs out of memory.
pub fn borrowed(alloc: Global, texts: &[String]) -> Result<Vec<&str>, AllocError> {
    let mut borrowed = Vec::new(alloc);
    for text in texts {
        borrowed.push(text.as_str())?;
    }
    Ok(borrowed)
}
