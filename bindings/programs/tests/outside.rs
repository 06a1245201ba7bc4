//! What can't be seen of a program from outside: arguments that can't be had, writes that fail, names of files that no
//! shell passes, and memory that runs out.
use acpi_programs::cli::args_or_none;
use acpi_programs::cli::save::{SaveError, save};
use acpi_programs::cli::storage::HostStorage;
use acpi_programs::pack::Refusal;
use acpi_programs::pack::arguments::parse_command;
use acpi_programs::pack::outcome::Outcome;
use acpi_programs::pack::program::carry_out;
use acpi_programs::rattle::alloc::Global;
use acpi_programs::rattle::{HostRuntime, String, Vec};
use std::io::{self, ErrorKind, Write};
use std::path::Path;

/// The folder of these tests.
const FOLDER: &str = env!("CARGO_TARGET_TMPDIR");

/// How many arguments there are, or none if they can't be had.
fn count_of(texts: io::Result<Vec<String>>) -> Option<usize> {
    args_or_none(Global, texts).ok().map(|texts| texts.len())
}

#[test]
fn arguments_that_cant_be_had() {
    let argument = String::from_str(Global, "some.image").unwrap();
    let found = [
        count_of(Ok(Vec::from_array(Global, [argument]).unwrap())),
        count_of(Err(ErrorKind::OutOfMemory.into())),
        count_of(Err(ErrorKind::InvalidData.into())),
    ];
    assert_eq!(found, [Some(1), None, Some(0)]);
}

/// A writer that takes nothing.
struct Closed;

impl Write for Closed {
    fn write(&mut self, _: &[u8]) -> io::Result<usize> {
        Err(ErrorKind::Other.into())
    }

    fn flush(&mut self) -> io::Result<()> {
        Ok(())
    }
}

/// `acpi_pack` can't print which file it leaves out, and so saves nothing.
#[test]
fn a_line_that_cant_be_printed_fails() {
    let name = format!("{FOLDER}/unsaved");
    let command = parse_command(Global, &[&name, "tables", "facs"]).unwrap().expect("it is a command");
    let outcome = Outcome::Packed {
        command,
        left_out: String::from_str(Global, "left out facs\n").unwrap(),
        bytes: Vec::new(Global),
        lines: String::new(Global),
    };
    let runtime = HostRuntime::new();
    let done = carry_out(outcome, &mut HostStorage::new(&runtime), &mut Closed, &mut Closed);
    assert_eq!((done.map_err(|error| error.kind()), Path::new(&name).exists()), (Err(ErrorKind::Other), false));
}

/// What is not saved, by arguments that no program can be passed: a file made of itself, and a name with a zero.
/// `crates/acpi_pack/runs` has all other results of saving.
#[test]
fn leaves_all_as_it_was_where_it_refuses() {
    let (kept, zero) = (format!("{FOLDER}/kept"), format!("{FOLDER}/a name\0b"));
    let runtime = HostRuntime::new();
    assert_eq!(save(&runtime, &kept, &[&kept], b"one"), Err(SaveError::SameFile));
    assert_eq!(save(&runtime, &zero, &[], b"one"), Err(SaveError::Unwritable));
    assert!(!Path::new(&kept).exists() && !Path::new(&format!("{FOLDER}/a name")).exists());
}

/// `crates/acpi_pack/runs` has the errors of files.
#[test]
fn errors_print_their_names() {
    assert_eq!([Refusal::NoRoom, Refusal::OutOfMemory].map(|error| error.to_string()), ["NoRoom", "OutOfMemory"]);
}
