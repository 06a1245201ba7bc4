//! Files that may be compressed.

use crate::prelude::*;
use acpi_programs::input::sources::{HostSources, Kind, Listing, Sources};
use acpi_programs::rattle::{ReadToEndIn, Vec as Bytes};
use std::io::{Error, ErrorKind, Read, Result};

/// The folders and files of the system. A file that gzip or xz compressed is read as what it was.
pub(super) struct Unpacked<'r>(pub(super) HostSources<'r>);

/// How the files begin that gzip and xz make (RFC 1952, section 2.3.1; The .xz File Format, section 2.1.1.1).
const GZIP: &[u8] = &[0x1f, 0x8b];
const XZ: &[u8] = &[0xfd, b'7', b'z', b'X', b'Z', 0];

/// All bytes of a reader, if they are at most `most`.
fn read_at_most(reader: impl Read, most: u64) -> Result<Bytes<u8>> {
    let mut bytes = Bytes::new(Global);
    reader.take(most.saturating_add(1)).read_to_end_in(&mut bytes)?;
    if bytes.len() as u64 > most { Err(ErrorKind::FileTooLarge.into()) } else { Ok(bytes) }
}

fn unpacked(bytes: Bytes<u8>, most: u64) -> Result<Bytes<u8>> {
    if bytes.starts_with(GZIP) {
        return read_at_most(flate2::read::MultiGzDecoder::new(&bytes[..]), most);
    }
    if bytes.starts_with(XZ) {
        return of_xz(&bytes, most);
    }
    Ok(bytes)
}

#[cfg(feature = "xz")]
fn of_xz(bytes: &[u8], most: u64) -> Result<Bytes<u8>> {
    read_at_most(xz2::read::XzDecoder::new_multi_decoder(bytes), most)
}

#[cfg(not(feature = "xz"))]
fn of_xz(_: &[u8], _: u64) -> Result<Bytes<u8>> {
    Err(ErrorKind::Unsupported.into())
}

impl Sources for Unpacked<'_> {
    fn kind_of(&mut self, name: &str) -> Result<Kind> {
        self.0.kind_of(name)
    }

    fn names_in(&mut self, alloc: Global, folder: &str) -> Result<Listing> {
        self.0.names_in(alloc, folder)
    }

    fn read(&mut self, alloc: Global, name: &str, most: u64) -> Result<Bytes<u8>> {
        unpacked(self.0.read(alloc, name, most)?, most)
    }

    fn read_standard_input(&mut self, alloc: Global, most: u64) -> Result<Bytes<u8>> {
        unpacked(self.0.read_standard_input(alloc, most)?, most)
    }

    fn takes_color(&mut self) -> bool {
        false
    }

    fn today(&mut self) -> Result<u64> {
        Err(Error::from(ErrorKind::Unsupported))
    }
}
