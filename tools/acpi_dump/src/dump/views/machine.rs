//! The machine in short. The facts of tables that come as files are those of the valid ones, in a memory where each
//! has a place.

use crate::document::{self, Document};
use crate::dump::run::Run;
use crate::prelude::*;
use crate::summary::{Facts, add_domains, add_facts, add_units};
use acpi_programs::image::{PlacedTable, write_image};
use acpi_programs::image_reader::MemoryImage;
use acpi_programs::input::entries::{entries_of, entries_of_files};
use acpi_programs::input::gather::Input;
use acpi_programs::input::machine::letters_of;
use acpi_programs::input::status::Status;

/// Where the root table of tables that come as files is put, and from where on they are.
const ROOT: u64 = 0x1000_0000;

const FIRST: u64 = 0x1_0000_0000;

/// The letters of tables that no root table lists.
const UNLISTED: &[&[u8]] = &[b"DSDT", b"FACS", b"RSDT", b"XSDT", b"RSD "];

/// The valid ones of tables that come as files, each with a place in memory. Bytes after the Length don't count.
fn placed_of<'e>(entries: &[Entry<'e>]) -> Vec<PlacedTable<'e>> {
    let listed = |entry: &&Entry<'_>| entry.status.is_read() && !UNLISTED.contains(&letters_of(entry.bytes));
    let mut address = FIRST;
    let place = |entry: &Entry<'e>| {
        let placed = PlacedTable { address, bytes: entry.table() };
        // The length of a table is below 2^32, so that 16 times it keeps the next one aligned and apart.
        address += entry.bytes.len() as u64 * 16;
        placed
    };
    entries.iter().filter(listed).map(place).collect()
}

/// Adds a table that is somewhere, and can't be read: of one with bytes after its Length those before are.
fn add_unread(facts: &mut Facts, entry: &Entry<'_>) {
    let is_read = matches!(entry.status, Status::Longer(_));
    if entry.status.is_invalid() && !is_read && !matches!(entry.place, Place::Nowhere) {
        facts.next("not_read").text("not read\t").shown_as("table", printed(|out| print_name(entry, out)));
        facts.text(": ").shown("status", entry.status);
    }
}

impl Run<'_> {
    fn add_memory(&mut self, memory: &MemoryImage<'_>, facts: &mut Facts) -> Result<(), Stop> {
        let (_, tables) = &self.open(self.name(), memory)?;
        add_facts(tables, facts);
        Ok(())
    }

    /// Adds the facts of an input, of files by the valid ones, and returns its tables.
    fn add_facts_in<'i>(&mut self, input: &'i Input, facts: &mut Facts) -> Result<Vec<Entry<'i>>, Stop> {
        match input {
            Input::Memory(image) => {
                let memory = &self.memory_of(self.name(), image)?;
                let (_, tables) = &self.open(self.name(), memory)?;
                add_facts(tables, facts);
                Ok(entries_of(Global, memory, tables)?.to_vec())
            }
            Input::Tables(files) => {
                let entries = entries_of_files(Global, files)?.to_vec();
                let packed = write_image(Global, 0xe0000, ROOT, 2, &placed_of(&entries));
                let packed = packed.map_err(|refusal| self.fail(refusal))?;
                let memory = MemoryImage::from_bytes(Global, &packed).map_err(|_| Stop::OutOfMemory)?;
                self.add_memory(&memory, facts)?;
                Ok(entries)
            }
        }
    }

    pub(super) fn print_summary(&mut self, input: &Input) -> Result<u8, Stop> {
        let mut facts = Facts::default();
        let entries = self.add_facts_in(input, &mut facts)?;
        add_domains(&entries, &mut facts);
        add_units(&entries, &mut facts);
        for entry in &entries {
            add_unread(&mut facts, entry);
        }
        if self.is_json() {
            let document = Document::of_machine(&self.request.inputs, &facts.lines, &facts.summary);
            document::print(&document, self.out);
        } else {
            for fact in facts.lines.lines() {
                let (name, text) = fact.split_once('\t').unwrap_or((fact, ""));
                writeln!(self.out, "{name:<20} {text}");
            }
        }
        Ok(self.strict_status(&entries))
    }
}
