// Made by scripts/erase of crates/acpi_pack_lib/src/program.rt, where it is proved.
//! The program over any files, any storage and any writers.

use crate::cli::storage::Storage;
use crate::pack::arguments::parse_command;
use crate::pack::files::{Files, count};
use crate::pack::help::{USAGE, help_or_version};
use crate::pack::outcome::{Outcome, outcome_of};
use crate::pack::reading::{contents_from, read_all};
use crate::rattle::String;
use crate::rattle::alloc::{AllocError, Global};
use crate::rattle::io;
use crate::rattle::io::Write;

/// What becomes of a run on the arguments after the program's name. If they are a command, the files that it names
/// are read, in order, and else none.
///
/// Fails if memory for anything but the image itself runs out, and requests no other file then.
fn outcome_for<'w, F: Files>(alloc: Global, arguments: &[&'w str], files: &mut F) -> Result<Outcome<'w>, AllocError> {
    if let Some(text) = help_or_version(arguments) {
        return Ok(Outcome::Shown(text));
    }
    let Some(command) = parse_command(alloc, arguments)? else {
        return Ok(Outcome::Refused(String::from_str(alloc, USAGE)?, 2));
    };
    let start = count(files);
    read_all(files, &command.names)?;
    let sources = contents_from(alloc, files, start)?;
    outcome_of(alloc, command, &sources)
}

/// Prints what an outcome has for the outputs, and saves its file, if it has one. It returns the status.
///
/// Fails if a write fails or memory runs out.
pub fn carry_out<S: Storage, W: Write, E: Write>(
    outcome: Outcome<'_>,
    storage: &mut S,
    out: &mut W,
    err: &mut E,
) -> io::Result<u8> {
    match outcome {
        Outcome::Shown(text) => {
            out.write_all(text.as_bytes())?;
            Ok(0)
        }
        Outcome::Refused(text, status) => {
            err.write_all(text.as_bytes())?;
            Ok(status)
        }
        Outcome::Packed { command, left_out, bytes, lines } => {
            let name = command.out;
            err.write_all(left_out.as_bytes())?;
            match storage.save(name, &command.names, bytes)? {
                Ok(()) => {
                    out.write_all(lines.as_bytes())?;
                    Ok(0)
                }
                Err(refusal) => {
                    writeln!(err, "refused {name}: {refusal}")?;
                    Ok(1)
                }
            }
        }
    }
}

/// Runs the program on the arguments after its name, and returns the status. `--help` and `--version` alone
/// print how the program is called and its version, on the output, and nothing else is done: the status is
/// 0. If other arguments are a command, the files that it names are read, in order, and the image that is
/// made of them is saved; then the lines of its records are printed on the output. The status is 0 if the
/// image is saved, 1 if something fails, and 2 if the arguments are not a command.
///
/// Fails if a write fails, or memory for anything but the image itself. The image is saved by then if its lines, or why
/// it isn't saved, can't be printed; after any other error it isn't.
pub fn pack<F: Files, S: Storage, W: Write, E: Write>(
    alloc: Global,
    arguments: &[&str],
    files: &mut F,
    storage: &mut S,
    out: &mut W,
    err: &mut E,
) -> io::Result<u8> {
    let outcome = outcome_for(alloc, arguments, files)?;
    carry_out(outcome, storage, out, err)
}
