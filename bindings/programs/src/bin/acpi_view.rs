// Made by scripts/erase of crates/acpi_view/src/main.rt, where it is proved.
//! Prints what the ACPI tables in a file of memory contain.
//!
//! `acpi_view IMAGE rsdt REVISION ADDRESS` opens the root table at an address,
//! `acpi_view IMAGE rsdp ADDRESS` the one that the RSDP at an address leads to, and
//! `acpi_view IMAGE bios` the one that the RSDP leads to which the BIOS areas hold. `--help` and
//! `--version` alone print what they say.

#![forbid(unsafe_code)]
#![allow(unused_imports)]

use acpi_programs::cli::{args, borrowed};
use acpi_programs::rattle::HostRuntime;
use acpi_programs::rattle::fs;
use acpi_programs::rattle::io;
use acpi_programs::rattle::io::Write;
use acpi_programs::rattle::process::ExitCode;
use acpi_programs::view::arguments::file_named;
use acpi_programs::view::run::{USAGE, run};

/// The line after `USAGE`: how else the program is called.
const OTHERS: &str = "       acpi_view --help | --version\n";

/// The program's version.
const VERSION: &str = "acpi_view 1.0.0\n";

fn main() -> ExitCode {
    let rt = HostRuntime::new();
    ExitCode::from(status(&rt).unwrap_or(1))
}

/// Prints a text on standard output, and returns the status.
///
/// Fails if the write fails.
fn print(rt: &HostRuntime, text: &str) -> io::Result<u8> {
    let mut out = io::writer(rt);
    out.write_all(text.as_bytes())?;
    out.flush()?;
    Ok(0)
}

/// The status of the program over the process's arguments, the file that they name and its outputs. No file is
/// read if they are not a command.
///
/// Fails if there is no memory for the arguments, or if the help or the version can't be written.
fn status(rt: &HostRuntime) -> io::Result<u8> {
    let args = args(rt)?;
    let words = borrowed(rt.alloc(), &args)?;
    match words.as_slice() {
        ["--help"] => {
            print(rt, USAGE)?;
            return print(rt, OTHERS);
        }
        ["--version"] => return print(rt, VERSION),
        _ => {}
    }
    let image = match file_named(&words) {
        Some(name) => fs::read(rt, name).ok(),
        None => None,
    };
    let (mut out, mut err) = (io::writer(rt), rt.stderr());
    Ok(run(rt.alloc(), &words, image.as_deref(), &mut out, &mut err))
}
