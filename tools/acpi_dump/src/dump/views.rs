//! The views of an input, as text or as one JSON document.

mod compared;
mod found;
mod judged;
mod junit;
mod machine;
mod page;
mod read;
mod rules;
mod sarif;
mod single;

use super::contents::{chosen_of, names_for, parts_of, print_tables, tell_missing};
use super::listing::print_lines;
use super::request::View;
use super::run::Run;
use crate::document::{self, Document, Part, Tables};
use crate::prelude::*;
use acpi_programs::input::extract::save_tables;
use acpi_programs::input::gather::Input;

impl Run<'_> {
    /// Prints what is requested of an input.
    ///
    /// Fails, after printing why, if that isn't there.
    pub(crate) fn print_input(&mut self, input: &Input) -> Result<u8, Stop> {
        match self.request.view {
            View::Candidates => self.print_found(input),
            View::Summary => self.print_summary(input),
            View::Findings => self.print_judged(input),
            view => {
                let entries = self.tables_in(self.name(), input)?.with_pointer(self.request);
                if view == View::Values { Ok(self.print_values(&entries)) } else { self.print_entries(&entries) }
            }
        }
    }

    /// Saves the tables of an input as files of a folder.
    ///
    /// Fails, after printing why, if there are none.
    pub(crate) fn save_input(&mut self, folder: &str, input: &Input) -> Result<u8, Stop> {
        let choices = &self.request.choices;
        let entries = self.tables_in(self.name(), input)?.entries;
        tell_missing(&entries, choices, self.name(), self.log);
        let entries = chosen_of(&entries, choices);
        let saving = self.saving();
        save_tables(saving, folder, &entries, &mut self.sources, &mut self.storage, self.out, self.log)?;
        Ok(self.strict_status(&entries))
    }

    fn print_entries(&mut self, entries: &[Entry<'_>]) -> Result<u8, Stop> {
        let (choices, is_chosen) = (&self.request.choices, self.request.view == View::Tables);
        let paths = &names_for(entries, choices);
        let names = &Names::new(Global, paths)?;
        match (self.is_json(), is_chosen) {
            (true, _) => {
                let (view, tables) = if is_chosen {
                    ("contents", parts_of(entries, choices, names))
                } else {
                    ("tables", entries.iter().map(|entry| (entry, Part::Nothing)).collect())
                };
                document::print(&Document::of_tables(&self.request.inputs, view, Tables::Shown(tables)), self.out);
            }
            (false, true) => print_tables(entries, choices, names, self.paint, self.out),
            (false, false) => print_lines(entries, self.paint, self.out),
        }
        if is_chosen {
            tell_missing(entries, choices, self.name(), self.log);
        }
        Ok(self.strict_status(entries))
    }
}
