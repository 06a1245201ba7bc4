//! What the core prints and returns, as std has it.

use crate::prelude::*;
use acpi_programs::rattle::alloc::AllocError;

/// The text of what a call prints.
pub(crate) fn printed(print: impl FnOnce(&mut Out)) -> String {
    let mut out = Out::new(Global);
    print(&mut out);
    text_of(&out).to_string()
}

pub(crate) fn text_of(out: &Out) -> &str {
    out.printed().unwrap_or_default()
}

/// What the core returns unless memory runs out. That ends the program, as where a list of std's grows.
pub(crate) fn granted<T>(result: Result<T, AllocError>) -> T {
    result.expect("memory")
}
