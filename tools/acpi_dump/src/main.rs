//! Shows the ACPI tables of a machine, of files, of acpidump's text or of memory.

use std::ffi::OsString;
use std::io::Write;
use std::process::ExitCode;

fn main() -> ExitCode {
    let words: Result<Vec<String>, OsString> = std::env::args_os().skip(1).map(OsString::into_string).collect();
    let status = match &words {
        Ok(words) => acpi_dump::run(&words.iter().map(String::as_str).collect::<Vec<_>>()),
        Err(_) => writeln!(std::io::stderr(), "acpi_dump: an argument is not UTF-8").map(|()| 2),
    };
    ExitCode::from(status.unwrap_or(1))
}
