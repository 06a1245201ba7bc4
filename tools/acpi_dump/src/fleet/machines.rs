//! The machines of a fleet: where they are, and their tables.

use super::sources::Unpacked;
use crate::prelude::*;
use acpi_programs::cli::root::Root;
use acpi_programs::image_reader::MemoryImage;
use acpi_programs::input::candidates::{candidates, ebda_of, starts};
use acpi_programs::input::entries::{bytes_from, entries_of, entries_of_files};
use acpi_programs::input::gather::{Input, gather};
use acpi_programs::input::read::Reading;
use acpi_programs::input::sources::HostSources;
use acpi_programs::input::status::Status;
use acpi_programs::input::tables::TableFile;
use acpi_programs::rattle::alloc::AllocError;
use acpi_programs::rattle::{HostRuntime, Vec as Entries};
use std::fs::{File, read_dir};
use std::io::Read;
use std::path::Path;

/// How deep folders are looked for machines in folders at most.
const DEEPEST: u32 = 8;

/// How many files of a folder are looked at to see whether they are tables.
const LOOKED_AT: usize = 16;

/// A file or a folder that is to be a machine, or why it can't be read.
pub(super) struct Found {
    pub(super) name: String,
    pub(super) why: Option<String>,
}

/// The machines that inputs name, in order, those in a folder by their names.
pub(super) fn paths_of(inputs: &[String]) -> Vec<Found> {
    let mut found = Vec::new();
    for input in inputs {
        add_paths(input, DEEPEST, &mut found);
    }
    found
}

fn add_paths(name: &str, depth: u32, found: &mut Vec<Found>) {
    let of = |why| Found { name: name.to_string(), why };
    if name == "-" || !Path::new(name).is_dir() || depth == 0 {
        return found.push(of(None));
    }
    match names_in(name) {
        Err(error) => found.push(of(Some(error.to_string()))),
        Ok(names) if is_machine(name, &names) => found.push(of(None)),
        Ok(names) => {
            for inner in names {
                add_paths(&format!("{}/{inner}", name.trim_end_matches('/')), depth - 1, found);
            }
        }
    }
}

/// The names in a folder, in order, without those that are hidden. One that is not UTF-8 is as it can be shown, and so
/// names nothing, which is told when it is read.
fn names_in(folder: &str) -> std::io::Result<Vec<String>> {
    let mut names = Vec::new();
    for entry in read_dir(folder)? {
        let name = entry?.file_name().to_string_lossy().into_owned();
        if !name.starts_with('.') {
            names.push(name);
        }
    }
    names.sort();
    Ok(names)
}

/// Whether a folder has the tables of one machine: some file is a table, or an RSDP.
fn is_machine(folder: &str, names: &[String]) -> bool {
    names.iter().take(LOOKED_AT).any(|name| is_table(&Path::new(folder).join(name)))
}

/// Whether a file has the length that a table's Length field contains (section 5.2.6).
fn is_table(path: &Path) -> bool {
    let mut head = [0; 8];
    let Ok(size) = path.metadata().map(|it| if it.is_file() { it.len() } else { 0 }) else {
        return false;
    };
    if size < 8 || File::open(path).and_then(|mut file| file.read_exact(&mut head)).is_err() {
        return false;
    }
    let length = u32::from_le_bytes([head[4], head[5], head[6], head[7]]);
    head == *b"RSD PTR " || u64::from(length) == size
}

/// The tables of a machine, as they were read.
pub(super) struct Machine(Input);

/// Reads the machine of a name.
///
/// Fails with why it can't.
pub(super) fn read_machine(name: &str, most: u64) -> Result<Machine, String> {
    let runtime = HostRuntime::new();
    let (mut sources, mut log) = (Unpacked(HostSources::new(&runtime)), Log::new(Global));
    let reading = Reading { kind: None, at: None, most };
    match gather(Global, &[name], reading, &mut sources, &mut log) {
        Ok(input) => Ok(Machine(input)),
        Err(Stop::OutOfMemory) => Err("out of memory".to_string()),
        Err(Stop::Message) => {
            let told = log.text.printed().unwrap_or("").trim_end();
            let first = told.lines().next().unwrap_or("it can't be read");
            Err(first.strip_prefix("acpi_dump: ").unwrap_or(first).to_string())
        }
    }
}

fn unchecked(file: &TableFile) -> Entry<'_> {
    let place = file.address.map_or(Place::File(&file.name), Place::Address);
    Entry { place, sought: None, bytes: &file.bytes, status: Status::Valid }
}

impl Machine {
    /// What a function returns of the tables, which are none if memory has no valid RSDP. Their statuses aren't known.
    pub(super) fn with_entries<T>(&self, work: impl FnOnce(&[Entry<'_>]) -> T) -> T {
        match &self.0 {
            Input::Tables(files) => work(&files.iter().map(unchecked).collect::<Vec<_>>()),
            Input::Memory(image) => match MemoryImage::from_bytes(Global, image) {
                Ok(memory) => work(&of_memory(&memory).unwrap_or(Entries::new(Global))),
                Err(_) => work(&[]),
            },
        }
    }
}

impl Machine {
    /// Whether the table of a number, which is this one, is invalid.
    pub(super) fn is_invalid(&self, number: usize, entry: &Entry<'_>) -> bool {
        match &self.0 {
            Input::Tables(files) => match entries_of_files(Global, &files[number..=number]) {
                Ok(checked) => checked.iter().any(|entry| entry.status.is_invalid()),
                Err(_) => false,
            },
            Input::Memory(_) => entry.status.is_invalid(),
        }
    }
}

fn of_memory<'i>(memory: &MemoryImage<'i>) -> Result<Entries<Entry<'i>>, AllocError> {
    let found = candidates(Global, memory)?;
    let addresses = starts(Global, &found, ebda_of(bytes_from(memory, 0x40e)))?;
    let root = addresses.first().map(|address| Root::Rsdp { address: *address });
    match root.map(|root| root.open(memory)) {
        Some(Ok(tables)) => entries_of(Global, memory, &tables),
        _ => Ok(Entries::new(Global)),
    }
}
