//! Files. Where a system has no modes of files, those that are passed change nothing.
use super::alloc::Global;
use super::{HostRuntime, String, Vec};
pub use std::fs::Metadata;
use std::io::{Error, ErrorKind, Read, Result, Write};

/// An open file.
pub struct File(std::fs::File);

impl File {
    pub fn open(_rt: &HostRuntime, name: &str) -> Result<File> {
        Ok(File(std::fs::File::open(name)?))
    }

    pub fn set_permissions(&self, permissions: std::fs::Permissions) -> Result<()> {
        self.0.set_permissions(permissions)
    }

    pub fn sync_all(&self) -> Result<()> {
        self.0.sync_all()
    }
}

impl Read for File {
    fn read(&mut self, buf: &mut [u8]) -> Result<usize> {
        self.0.read(buf)
    }
}

impl Write for File {
    fn write(&mut self, buf: &[u8]) -> Result<usize> {
        self.0.write(buf)
    }

    fn flush(&mut self) -> Result<()> {
        self.0.flush()
    }
}

pub struct OpenOptions(std::fs::OpenOptions);

impl OpenOptions {
    #[allow(clippy::new_without_default)]
    pub fn new() -> OpenOptions {
        OpenOptions(std::fs::OpenOptions::new())
    }

    pub fn write(mut self, write: bool) -> OpenOptions {
        self.0.write(write);
        self
    }

    pub fn create_new(mut self, create: bool) -> OpenOptions {
        self.0.create_new(create);
        self
    }

    #[cfg_attr(not(unix), allow(unused_mut))]
    pub fn mode(mut self, mode: u32) -> OpenOptions {
        #[cfg(unix)]
        std::os::unix::fs::OpenOptionsExt::mode(&mut self.0, mode);
        let _ = mode;
        self
    }

    pub fn open(self, _rt: &HostRuntime, name: &str) -> Result<File> {
        Ok(File(self.0.open(name)?))
    }
}

/// How a folder is made.
pub struct DirBuilder(std::fs::DirBuilder);

impl DirBuilder {
    #[allow(clippy::new_without_default)]
    pub fn new() -> DirBuilder {
        DirBuilder(std::fs::DirBuilder::new())
    }

    pub fn mode(&mut self, mode: u32) {
        #[cfg(unix)]
        std::os::unix::fs::DirBuilderExt::mode(&mut self.0, mode);
        let _ = mode;
    }

    pub fn create(&self, _rt: &HostRuntime, name: &str) -> Result<()> {
        self.0.create(name)
    }
}

/// An entry of a folder, whose name is valid UTF-8.
pub struct DirEntry(String);

impl DirEntry {
    pub fn file_name(&self) -> &str {
        &self.0
    }
}

pub struct ReadDir(std::fs::ReadDir);

impl Iterator for ReadDir {
    type Item = Result<DirEntry>;

    fn next(&mut self) -> Option<Result<DirEntry>> {
        Some(self.0.next()?.and_then(|entry| {
            let name = entry.file_name().into_string().map_err(|_| Error::from(ErrorKind::InvalidFilename))?;
            Ok(DirEntry(String::from_str(Global, &name)?))
        }))
    }
}

pub fn read(_rt: &HostRuntime, name: &str) -> Result<Vec<u8>> {
    Ok(Vec::of(std::fs::read(name)?))
}

pub fn read_to_string(_rt: &HostRuntime, name: &str) -> Result<String> {
    Ok(String::from_str(Global, &std::fs::read_to_string(name)?)?)
}

pub fn metadata(_rt: &HostRuntime, name: &str) -> Result<Metadata> {
    std::fs::metadata(name)
}

pub fn symlink_metadata(_rt: &HostRuntime, name: &str) -> Result<Metadata> {
    std::fs::symlink_metadata(name)
}

pub fn rename(_rt: &HostRuntime, from: &str, to: &str) -> Result<()> {
    std::fs::rename(from, to)
}

pub fn remove_file(_rt: &HostRuntime, name: &str) -> Result<()> {
    std::fs::remove_file(name)
}

pub fn read_dir(_rt: &HostRuntime, name: &str) -> Result<ReadDir> {
    Ok(ReadDir(std::fs::read_dir(name)?))
}
