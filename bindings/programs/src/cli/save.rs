// Made by scripts/erase of crates/acpi_cli/src/save.rt, where it is proved.
//! Saving the file that is made.

use crate::rattle::fs::{self, File, Metadata, OpenOptions};
use crate::rattle::io::{self, ErrorKind, Write};
use crate::rattle::os::unix::fs::{MetadataExt, OpenOptionsExt};
use crate::rattle::{HostRuntime, format};
use core::fmt;

/// Why a file is not saved, in the order in which that is tested; but if the system can't look at the name with `.part`
/// after it, that is `Unwritable`, before `PartExists` is tested.
#[derive(Clone, Copy, Debug, PartialEq, Eq)]
pub enum SaveError {
    /// Something else than a regular file has the name: a folder, a device, a pipe, a socket, or a symbolic
    /// link, wherever that leads.
    NotAFile,
    /// The file of that name is one of the files that are packed.
    SameFile,
    /// Something has the name with `.part` after it: another run is at work, or was stopped. If none
    /// is at work, that file is to be removed.
    PartExists,
    /// The system can't look at the name, or the file can't be made, written or renamed.
    Unwritable,
    /// The allocator had no memory.
    OutOfMemory,
}

/// Prints the variant's name.
impl fmt::Display for SaveError {
    fn fmt(&self, f: &mut fmt::Formatter<'_>) -> fmt::Result {
        f.write_str(match self {
            SaveError::NotAFile => "NotAFile",
            SaveError::SameFile => "SameFile",
            SaveError::PartExists => "PartExists",
            SaveError::Unwritable => "Unwritable",
            SaveError::OutOfMemory => "OutOfMemory",
        })
    }
}

/// The thing that has a name.
pub(crate) enum Found {
    /// Nothing has the name.
    Nothing,
    /// A regular file has the name.
    File(Metadata),
    /// Something else has the name.
    Other,
    /// The system failed to report it.
    Unknown,
}

/// The thing that has a name, by what the system returns for it, symbolic links not followed.
fn found_by(answer: io::Result<Metadata>) -> Found {
    match answer {
        Ok(metadata) if metadata.is_file() => Found::File(metadata),
        Ok(_) => Found::Other,
        Err(error) if error.kind() == ErrorKind::NotFound => Found::Nothing,
        Err(_) => Found::Unknown,
    }
}

/// The identity of a file: its device, and its number there.
#[derive(Clone, Copy)]
pub(crate) struct Identity {
    device: u64,
    number: u64,
}

/// The identity of the file of this metadata.
fn identity_of(metadata: &Metadata) -> Identity {
    Identity { device: metadata.dev(), number: metadata.ino() }
}

/// Whether these are known to be one file.
fn are_same(one: Option<Identity>, other: Option<Identity>) -> bool {
    match (one, other) {
        (Some(one), Some(other)) => one.device == other.device && one.number == other.number,
        _ => false,
    }
}

/// Whether a file is one of the sources: of the same name, or the same file under another name.
fn is_source(rt: &HostRuntime, name: &str, found: &Found, sources: &[&str]) -> bool {
    let identity = match found {
        Found::File(metadata) => Some(identity_of(metadata)),
        _ => None,
    };
    for source in sources {
        let other = match fs::metadata(rt, *source) {
            Ok(metadata) => Some(identity_of(&metadata)),
            Err(_) => None,
        };
        if *source == name || are_same(identity, other) {
            return true;
        }
    }
    false
}

/// Tests the thing that has the name of the file that is to be made.
///
/// Fails, in this order, with `NotAFile`, `SameFile`, and `Unwritable` if the system fails to report what has
/// that name.
fn check_found(found: &Found, is_source: bool) -> Result<(), SaveError> {
    match (found, is_source) {
        (Found::Other, _) => Err(SaveError::NotAFile),
        (_, true) => Err(SaveError::SameFile),
        (Found::Unknown, false) => Err(SaveError::Unwritable),
        (Found::Nothing | Found::File(_), false) => Ok(()),
    }
}

/// The error of a file that isn't written or renamed.
fn write_refusal(error: io::Error) -> SaveError {
    if error.kind() == ErrorKind::OutOfMemory { SaveError::OutOfMemory } else { SaveError::Unwritable }
}

/// The error of a new file that isn't made.
fn make_refusal(error: io::Error) -> SaveError {
    if error.kind() == ErrorKind::AlreadyExists { SaveError::PartExists } else { write_refusal(error) }
}

/// Makes a file that only its owner may read and write.
fn make(rt: &HostRuntime, name: &str) -> io::Result<File> {
    OpenOptions::new().write(true).create_new(true).mode(0o600).open(rt, name)
}

/// Writes all bytes into a file, down to the disk, and sets the mode of the one that it
/// replaces.
fn put(mut file: File, bytes: &[u8], found: &Found) -> io::Result<()> {
    file.write_all(bytes)?;
    if let Found::File(metadata) = found {
        file.set_permissions(metadata.permissions())?;
    }
    file.sync_all()
}

/// Saves bytes under a name, in place of a regular file that has it. They are written whole into a file with
/// `.part` after the name, which is then renamed, so that a reader finds the old file or the new one and no
/// prefix of it. The file has the mode of the one that it replaces, and if there is none, only its owner may
/// read and write it. `sources` are the names of the files that the bytes were made from.
///
/// Fails, in this order, with `NotAFile` if something else than a regular file has this name,
/// `SameFile` if it is one of the sources, `Unwritable` if the system fails to report what has this name,
/// `PartExists` if something has the name with `.part` after it, and `Unwritable` if the file can't be made,
/// written or renamed; and with `OutOfMemory` if memory runs out. If a file with `.part` was made, it is then
/// removed, if the system allows that, and the file that has this name is as it was.
pub fn save(rt: &HostRuntime, name: &str, sources: &[&str], bytes: &[u8]) -> Result<(), SaveError> {
    let found = found_by(fs::symlink_metadata(rt, name));
    check_found(&found, is_source(rt, name, &found, sources))?;
    let Ok(part) = format!(in rt.alloc(); "{name}.part") else {
        return Err(SaveError::OutOfMemory);
    };
    let file = match make(rt, part.as_str()) {
        Ok(file) => file,
        Err(error) => return Err(make_refusal(error)),
    };
    let saved = put(file, bytes, &found).and_then(|()| fs::rename(rt, part.as_str(), name));
    match saved {
        Ok(()) => Ok(()),
        Err(error) => {
            let _ = fs::remove_file(rt, part.as_str());
            Err(write_refusal(error))
        }
    }
}
