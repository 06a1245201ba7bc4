// Made by scripts/erase of crates/acpi_pack_lib/src/arguments.rt, where it is proved.
//! The arguments of the program, as a command.

use crate::cli::parse_address;
use crate::rattle::Vec;
use crate::rattle::alloc::{AllocError, Global};

/// The form of the files that are packed.
pub enum Form {
    /// Ranges of memory, from these physical addresses on, one for each file.
    Memory(Vec<u64>),
    /// Tables, one in each file.
    Tables,
}

/// The options, which come before OUT, in any order.
#[derive(Clone, Copy)]
pub struct Options {
    /// `--fix-checksum`: the Checksum of each file that is a table is set, so that its bytes sum to 0.
    pub fixes_sums: bool,
    /// `--raw`: plain memory is written in place of an image.
    pub is_plain: bool,
}

/// The command that the arguments are.
pub struct Command<'w> {
    /// The options.
    pub options: Options,
    /// The name of the file that is to be made.
    pub out: &'w str,
    /// The names of the files that it is made from, in order.
    pub names: Vec<&'w str>,
    /// The form of these files.
    pub form: Form,
}

/// The command of pairs of arguments, ADDRESS and FILE.
///
/// Fails if it runs out of memory.
fn parse_memory<'w>(
    alloc: Global,
    options: Options,
    out: &'w str,
    words: &[&'w str],
) -> Result<Option<Command<'w>>, AllocError> {
    let mut addresses = Vec::new(alloc);
    let mut names = Vec::new(alloc);
    let mut rest = words;
    'pairs: loop {
        match rest {
            [address, file, others @ ..] => {
                let Some(address) = parse_address(address) else {
                    return Ok(None);
                };
                addresses.push(address)?;
                names.push(*file)?;
                rest = others;
            }
            [_] => return Ok(None),
            [] => {
                return Ok(Some(Command { options, out, names, form: Form::Memory(addresses) }));
            }
        }
    }
}

/// The command of files of tables.
///
/// Fails if it runs out of memory.
fn parse_tables<'w>(
    alloc: Global,
    options: Options,
    out: &'w str,
    words: &[&'w str],
) -> Result<Option<Command<'w>>, AllocError> {
    Ok(Some(Command { options, out, names: Vec::from_slice(alloc, words)?, form: Form::Tables }))
}

/// The command of a form, and the arguments after it.
///
/// Fails if it runs out of memory.
fn parse_form<'w>(
    alloc: Global,
    options: Options,
    out: &'w str,
    form: &str,
    words: &[&'w str],
) -> Result<Option<Command<'w>>, AllocError> {
    match form {
        "memory" => parse_memory(alloc, options, out, words),
        "tables" => parse_tables(alloc, options, out, words),
        _ => Ok(None),
    }
}

/// The options that arguments begin with, and the arguments after them.
fn options_of<'c, 'w>(words: &'c [&'w str]) -> (Options, &'c [&'w str]) {
    let mut options = Options { fixes_sums: false, is_plain: false };
    let mut rest = words;
    while let [word, others @ ..] = rest {
        match *word {
            "--fix-checksum" => options.fixes_sums = true,
            "--raw" => options.is_plain = true,
            _ => return (options, rest),
        }
        rest = others;
    }
    (options, rest)
}

/// The command that the arguments after the program's name are, or `None` if they are not a command: options,
/// OUT, which may be any other text, a form, and the arguments of that form, at least one.
///
/// Fails if it runs out of memory.
pub fn parse_command<'w>(alloc: Global, words: &[&'w str]) -> Result<Option<Command<'w>>, AllocError> {
    let (options, rest) = options_of(words);
    let [out, form, files @ ..] = rest else {
        return Ok(None);
    };
    if files.is_empty() {
        return Ok(None);
    }
    parse_form(alloc, options, out, form, files)
}
