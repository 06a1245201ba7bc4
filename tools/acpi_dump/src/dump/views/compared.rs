//! What differs between two inputs.

use crate::compare::{DifferenceLines, compare};
use crate::document::{self, Compared, Document, Tables};
use crate::dump::run::Run;
use crate::prelude::*;
use acpi_programs::input::gather::Input;

impl Run<'_> {
    /// Prints what differs between two inputs.
    ///
    /// Fails, after printing why, if one has no tables.
    pub(crate) fn print_compared(&mut self, first: &Input, second: &Input) -> Result<u8, Stop> {
        let names = (self.name(), self.second_name());
        let (old, new) = (self.tables_in(names.0, first)?.entries, self.tables_in(names.1, second)?.entries);
        let ignored = &self.request.ignored;
        let differ = if self.is_json() {
            let mut tables = Compared::default();
            let differ = compare(&old, &new, ignored, &mut tables);
            let tables = Tables::Compared(tables.0);
            document::print(&Document::of_tables(&self.request.inputs, "compare", tables), self.out);
            differ
        } else {
            compare(&old, &new, ignored, &mut DifferenceLines { names, out: &mut *self.out })
        };
        if differ && self.request.arguments.exit_code {
            return Ok(1);
        }
        Ok(self.strict_status(&old).max(self.strict_status(&new)))
    }
}
