// Made by scripts/erase of crates/acpi_pack/src/main.rt, where it is proved.
//! Makes an image of memory from files.
//!
//! `acpi_pack OUT memory ADDRESS FILE [ADDRESS FILE]...` puts each file at its address, and
//! `acpi_pack OUT tables FILE...` makes an RSDP and an XSDT that lists the tables that the files
//! are. Before OUT `--fix-checksum` sets the tables' checksums, and `--raw` makes plain memory
//! of the image.

#![forbid(unsafe_code)]
#![allow(unused_imports)]

use acpi_programs::cli::storage::HostStorage;
use acpi_programs::cli::{args, borrowed};
use acpi_programs::pack::files::HostFiles;
use acpi_programs::pack::program::pack;
use acpi_programs::rattle::HostRuntime;
use acpi_programs::rattle::io;
use acpi_programs::rattle::process::ExitCode;

fn main() -> ExitCode {
    let rt = HostRuntime::new();
    ExitCode::from(status(&rt).unwrap_or(1))
}

/// The status of the program over the process's arguments, files, storage and outputs.
///
/// Fails if a write fails or memory runs out.
fn status(rt: &HostRuntime) -> io::Result<u8> {
    let args = args(rt)?;
    let args = borrowed(rt.alloc(), &args)?;
    let (mut files, mut storage) = (HostFiles::new(rt), HostStorage::new(rt));
    let (mut out, mut err) = (io::writer(rt), rt.stderr());
    pack(rt.alloc(), &args, &mut files, &mut storage, &mut out, &mut err)
}
