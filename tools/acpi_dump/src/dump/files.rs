//! What a run reads.

use acpi_programs::input::sources::{HostSources, Kind, Listing, Sources};
use acpi_programs::rattle::Vec as Bytes;
use acpi_programs::rattle::alloc::Global;
use std::io::Result;

/// The system's files, and perhaps bytes in place of its standard input.
pub(crate) struct Files<'r> {
    pub(crate) host: HostSources<'r>,
    pub(crate) input: Option<&'r [u8]>,
}

impl Sources for Files<'_> {
    fn kind_of(&mut self, name: &str) -> Result<Kind> {
        self.host.kind_of(name)
    }

    fn names_in(&mut self, alloc: Global, folder: &str) -> Result<Listing> {
        self.host.names_in(alloc, folder)
    }

    fn read(&mut self, alloc: Global, name: &str, most: u64) -> Result<Bytes<u8>> {
        self.host.read(alloc, name, most)
    }

    fn read_standard_input(&mut self, alloc: Global, most: u64) -> Result<Bytes<u8>> {
        match self.input {
            Some(bytes) => Ok(Bytes::from_slice(alloc, bytes)?),
            None => self.host.read_standard_input(alloc, most),
        }
    }

    fn takes_color(&mut self) -> bool {
        self.host.takes_color()
    }

    fn today(&mut self) -> Result<u64> {
        self.host.today()
    }
}
