//! acpi_dump: the ACPI tables of a machine, of files or of memory, shown, checked and compared.
//!
//! What reads tables is `acpi_programs`, which is proved. The library is there only for the program, its tests and
//! what makes the completions: its functions aren't an interface.

mod check;
mod compare;
mod document;
mod dump;
#[cfg(feature = "fleet")]
mod fleet;
mod page;
mod prelude;
mod summary;
mod text;

pub use dump::run::{printed_of, run};

pub fn options() -> clap::Command {
    dump::arguments::command()
}

pub fn rules() -> Vec<&'static str> {
    check::rules::all().map(|rule| rule.id).collect()
}
