//! A page of an input, or of what differs between two.

use super::read::Tables;
use crate::dump::run::Run;
use crate::page::{Given, Html, Source, print_page};
use crate::prelude::*;
use acpi_programs::input::extract::save_file;
use acpi_programs::input::gather::Input;

impl Run<'_> {
    /// Saves the page of an input as a file, or that of what differs between two, the second one beside it. The file `-`
    /// is standard output.
    ///
    /// Fails, after printing why, if one has no tables.
    pub(crate) fn save_page(&mut self, file: &str, input: &Input, second: Option<&Input>) -> Result<u8, Stop> {
        let (names, mut page) = ([self.name()], Html::default());
        let tables = self.tables_in(names[0], input)?;
        let status = match second {
            None => self.print_page(None, &self.request.inputs, &tables, &mut page)?,
            Some(second) => {
                let judged = self.tables_in(self.second_name(), second)?;
                let first = Given { names: &names, entries: &tables.entries };
                let status = self.print_page(Some(first), &[self.second_name()], &judged, &mut page)?;
                status.max(self.strict_status(&tables.entries))
            }
        };
        if file == "-" {
            self.out.text(page.as_str());
        } else {
            let (saving, bytes) = (self.saving(), page.as_str().as_bytes());
            granted(save_file(saving, file, bytes, &mut self.sources, &mut self.storage, self.log));
        }
        Ok(status)
    }

    /// Prints the page of tables, beside the tables of a first input if there is one. Returns the status.
    fn print_page(
        &mut self,
        first: Option<Given<'_>>,
        names: &[&str],
        tables: &Tables<'_>,
        page: &mut Html,
    ) -> Result<u8, Stop> {
        let (findings, _) = &self.findings_in(tables)?;
        let (input, ignored) = (Given { names, entries: &tables.entries }, &self.request.ignored);
        print_page(Source { input, first, ignored, findings }, page);
        Ok(self.status_of(&tables.entries, findings))
    }
}
