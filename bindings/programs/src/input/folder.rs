// Made by scripts/erase of crates/acpi_dump_input/src/folder.rt, where it is proved.
//! The tables of a folder.

use crate::cli::borrowed;
use crate::input::errors::{Stop, fail, tell};
use crate::input::kind::Kind;
use crate::input::order::in_order;
use crate::input::read::{Reader, Reading};
use crate::input::sources;
use crate::input::sources::{Listing, Sources};
use crate::rattle::alloc::{AllocError, Global};
use crate::rattle::{String, Vec, format};

/// The folders beside Linux's tables: of those that were loaded later, and of what tables point to, which may be none.
const INNER: [&str; 2] = ["data", "dynamic"];

/// The name of a folder less a slash at its end.
fn without_slash(folder: &str) -> &str {
    match folder.strip_suffix('/') {
        Some(name) => name,
        None => folder,
    }
}

/// The path of a file of this name in a folder.
fn path_in(alloc: Global, folder: &str, name: &str) -> Result<String, AllocError> {
    Ok(format!(in alloc; "{folder}/{name}")?)
}

impl<S: Sources> Reader<'_, S> {
    /// Adds the tables of a file in a folder. A folder in it is skipped, and so is what is no file or has no tables,
    /// with a message. A file with `.dat` after its name is a table, if it is nothing else.
    fn add_within(&mut self, path: &str) -> Result<(), Stop> {
        match self.sources.kind_of(path) {
            Ok(sources::Kind::Folder) => return Ok(()),
            Ok(sources::Kind::Other) => return Ok(tell(self.log, path, &"not a file: skipped")),
            _ => {}
        }
        let reading = Reading { kind: None, at: None, ..self.reading };
        let (kind, bytes) = self.read(path, reading)?;
        let kind = match kind {
            None if path.ends_with(".dat") => Some(Kind::Table),
            kind => kind,
        };
        if let Some(Kind::Table | Kind::Text) = kind {
            return self.add(path, kind, bytes);
        }
        tell(self.log, path, &"not a table: skipped");
        Ok(())
    }

    /// Adds the tables of the files of these names in a folder, in the order of their names. What isn't added leaves
    /// the others as they are.
    fn add_names(&mut self, folder: &str, names: &[&str]) -> Result<(), Stop> {
        let before = self.tables.len();
        let mut last = Ok(());
        let place = without_slash(folder);
        for name in &in_order(self.alloc, names)? {
            let name = *name;
            let path = path_in(self.alloc, place, name)?;
            if let Err(stop) = self.add_within(path.as_str()) {
                if let Stop::OutOfMemory = stop {
                    return Err(stop);
                }
                last = Err(stop);
            }
        }
        if self.tables.len() > before {
            return Ok(());
        }
        last?;
        Err(fail(self.log, folder, &"no table in it"))
    }

    /// Adds to the names of what is in a folder those of the files in its folders of tables, after the folder's name.
    fn push_inner(&mut self, folder: &str, names: &mut Vec<String>) -> Result<(), Stop> {
        for inner in &INNER {
            let path = path_in(self.alloc, without_slash(folder), *inner)?;
            if !matches!(self.sources.kind_of(path.as_str()), Ok(sources::Kind::Folder)) {
                continue;
            }
            let listing = self.sources.names_in(self.alloc, path.as_str());
            for name in &self.or_report(path.as_str(), listing)?.names {
                let within = path_in(self.alloc, *inner, name.as_str())?;
                names.push(within).map_err(AllocError::from)?;
            }
        }
        Ok(())
    }

    /// Adds the tables of a folder, and of the folders in it in which Linux has more of them.
    ///
    /// Fails, after printing why, if there are none.
    pub(crate) fn add_folder(&mut self, folder: &str) -> Result<(), Stop> {
        let listing = self.sources.names_in(self.alloc, folder);
        let Listing { mut names, unnamed } = self.or_report(folder, listing)?;
        self.push_inner(folder, &mut names)?;
        if unnamed > 0 {
            let what = format_args!("names that are not UTF-8, not shown: {unnamed}");
            fail(self.log, folder, &what);
        }
        let names = borrowed(self.alloc, &names)?;
        self.add_names(folder, &names)
    }
}
