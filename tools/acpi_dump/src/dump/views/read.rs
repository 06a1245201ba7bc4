//! The tables of an input, and what leads to them.

use crate::check::Machine;
use crate::dump::request::Request;
use crate::dump::run::Run;
use crate::prelude::*;
use acpi_programs::cli::root::Root;
use acpi_programs::image_reader::MemoryImage;
use acpi_programs::input::candidates::{candidates, ebda_of, starts};
use acpi_programs::input::entries::{bytes_from, entries_of, entries_of_files, entry_at, rsdp_at};
use acpi_programs::input::errors::{At, fail_with};
use acpi_programs::input::gather::Input;
use zacpi::AcpiTables;

/// The tables of an input, and what leads to them.
pub(super) struct Tables<'i> {
    pub(super) entries: Vec<Entry<'i>>,
    /// The RSDP of a memory, which no table lists.
    pointer: Option<Entry<'i>>,
    rsdp: &'i [u8],
    rsdt: &'i [u8],
}

impl<'i> Tables<'i> {
    /// The tables, and after them the RSDP of a memory if it is requested.
    pub(super) fn with_pointer(mut self, request: &Request<'_>) -> Vec<Entry<'i>> {
        self.entries.extend(self.pointer.filter(|_| request.names_rsdp()));
        self.entries
    }

    pub(super) fn machine(&self) -> Machine<'_> {
        Machine { entries: &self.entries, rsdp: self.rsdp, rsdt: self.rsdt }
    }

    /// Tables that come as files: an RSDP and an RSDT beside an XSDT are among them.
    fn of_files(entries: Vec<Entry<'i>>) -> Tables<'i> {
        let valid = |letters: &[u8]| {
            let found = entries.iter().find(|it| it.bytes.starts_with(letters) && !it.status.is_invalid());
            found.map_or(&[][..], |entry| entry.bytes)
        };
        let rsdt = if valid(b"XSDT").is_empty() { &[] } else { valid(b"RSDT") };
        Tables { pointer: None, rsdp: valid(b"RSD PTR "), rsdt, entries }
    }
}

impl Run<'_> {
    /// The memory that an image encodes.
    ///
    /// Fails, after printing why, if it encodes none.
    pub(super) fn memory_of<'i>(&mut self, name: &str, image: &'i [u8]) -> Result<MemoryImage<'i>, Stop> {
        MemoryImage::from_bytes(Global, image).map_err(|refusal| fail_with(self.log, name, &refusal))
    }

    /// The way to the root table of a memory: the one that is said, or the one RSDP that a search finds. If there are
    /// several, it prints that, and takes the first.
    ///
    /// Fails, after printing that, if there is none.
    fn start_of(&mut self, name: &str, memory: &MemoryImage<'_>) -> Result<Root, Stop> {
        if let Some(root) = self.request.start {
            return Ok(root);
        }
        let ebda = ebda_of(bytes_from(memory, 0x40e));
        let addresses = &starts(Global, &candidates(Global, memory)?, ebda)?;
        let [address, others @ ..] = addresses.as_slice() else {
            let why = "no valid RSDP: --find shows those that there are, --start says where to begin";
            return Err(fail(self.log, name, &why));
        };
        if !others.is_empty() {
            let all: String = addresses.iter().map(|address| format!(" {address:#x}")).collect();
            tell(self.log, name, &format_args!("valid RSDPs at{all}: the first is taken"));
        }
        Ok(Root::Rsdp { address: *address })
    }

    /// The way to the root table of a memory, and the tables below that.
    ///
    /// Fails, after printing why, if there are none.
    pub(super) fn open<'h, 'i>(
        &mut self,
        name: &str,
        memory: &'h MemoryImage<'i>,
    ) -> Result<(Root, AcpiTables<'h, MemoryImage<'i>>), Stop> {
        let root = self.start_of(name, memory)?;
        match (root.open(memory), root) {
            (Ok(tables), _) => Ok((root, tables)),
            (Err(error), Root::Bios) => Err(fail_with(self.log, name, &error)),
            (Err(error), Root::Rsdt { address, .. } | Root::Rsdp { address }) => {
                Err(fail_with(self.log, name, &At { address, error }))
            }
        }
    }

    /// The tables of an input of a name.
    ///
    /// Fails, after printing why, if there are none.
    pub(super) fn tables_in<'i>(&mut self, name: &str, input: &'i Input) -> Result<Tables<'i>, Stop> {
        match input {
            Input::Tables(files) => Ok(Tables::of_files(entries_of_files(Global, files)?.to_vec())),
            Input::Memory(image) => {
                let memory = self.memory_of(name, image)?;
                self.tables_of_memory(name, &memory)
            }
        }
    }

    /// The tables of a memory, whose RSDP may give a valid RSDT beside an XSDT.
    fn tables_of_memory<'i>(&mut self, name: &str, memory: &MemoryImage<'i>) -> Result<Tables<'i>, Stop> {
        let (root, tables) = &self.open(name, memory)?;
        let entries = entries_of(Global, memory, tables)?.to_vec();
        let Root::Rsdp { address } = *root else {
            return Ok(Tables { entries, pointer: None, rsdp: &[], rsdt: &[] });
        };
        let bytes = bytes_from(memory, address);
        // Revision, RsdtAddress.
        let (revision, beside) = (field(bytes, 15, 1), field(bytes, 16, 4));
        let beside = entry_at(Global, memory, beside, Some(Signature::RSDT));
        let has_rsdt = revision != 0 && !beside.status.is_invalid();
        Ok(Tables {
            entries,
            pointer: Some(rsdp_at(memory, address)),
            rsdp: bytes.get(..36).unwrap_or(&[]),
            rsdt: if has_rsdt { beside.bytes } else { &[] },
        })
    }
}
