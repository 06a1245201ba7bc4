// Made by scripts/erase of crates/acpi_dump_code/src/known.rt, where it is proved.
//! What the names of tables stand for: which of them are methods, and with how many arguments.

use crate::code::listing::{ShowCode, list_table};
use crate::rattle::Vec;
use crate::rattle::alloc::{AllocError, Global};

/// The names that each machine has (sections 5.3.1 and 5.7), of which `_OSI` is a method of one argument.
const PREDEFINED: [(&str, Option<u8>); 9] = [
    ("_GL_", None),
    ("_GPE", None),
    ("_OSI", Some(1)),
    ("_OS_", None),
    ("_PR_", None),
    ("_REV", None),
    ("_SB_", None),
    ("_SI_", None),
    ("_TZ_", None),
];

/// How often the tables are read for names at most: a method that a term calls may be defined after the term, and what
/// comes after a call is found once the number of arguments is known.
const ROUNDS: usize = 4;

/// A name that is defined: where the segments of its path are, whether another table defines it, and if it is a method
/// the number of arguments.
type Defined = (usize, usize, bool, Option<u8>);

/// The names that tables define.
pub struct Paths {
    letters: Vec<u8>,
    list: Vec<Defined>,
    is_refused: bool,
}

/// What names stand for, sorted by their paths, and of one path those first that a table defines itself.
pub struct Known<'a> {
    list: Vec<(&'a [u8], bool, Option<u8>)>,
}

/// What a name stands for.
#[derive(Clone, Copy)]
pub(crate) enum Meaning {
    /// No table that was read defines it.
    Unknown,
    /// Tables define it with different numbers of arguments.
    Several,
    /// A method with this number of arguments, or if there is none another object.
    Found(Option<u8>),
}

impl Paths {
    /// Those of each machine.
    fn new(alloc: Global) -> Paths {
        let mut paths = Paths { letters: Vec::new(alloc), list: Vec::new(alloc), is_refused: false };
        for (name, arguments) in &PREDEFINED {
            paths.define(name.as_bytes(), true, *arguments);
        }
        paths
    }
}

impl ShowCode for Paths {
    fn define(&mut self, path: &[u8], is_elsewhere: bool, arguments: Option<u8>) {
        let start = self.letters.len();
        self.is_refused |= self.letters.extend_from_slice(path).is_err();
        let defined = (start, self.letters.len(), is_elsewhere, arguments);
        self.is_refused |= self.list.push(defined).is_err();
    }
}

impl<'a> Known<'a> {
    /// What the names that tables define stand for.
    ///
    /// Fails if memory runs out.
    pub fn new(alloc: Global, paths: &'a Paths) -> Result<Known<'a>, AllocError> {
        if paths.is_refused {
            return Err(AllocError);
        }
        let mut list = Vec::new(alloc);
        for (start, end, is_elsewhere, arguments) in &paths.list {
            let path = paths.letters.get(*start..*end).unwrap_or(&[]);
            list.push((path, *is_elsewhere, *arguments))?;
        }
        list.sort()?;
        Ok(Known { list })
    }

    /// What the path of these segments stands for.
    pub(crate) fn meaning(&self, path: &[u8]) -> Meaning {
        let first = self.list.partition_point(|it| it.0 < path);
        let Some((found, is_elsewhere, arguments)) = self.list.get(first).copied() else {
            return Meaning::Unknown;
        };
        if found != path {
            return Meaning::Unknown;
        }
        let end = self.list.partition_point(|it| (it.0, it.1) <= (path, is_elsewhere));
        if let Some((_, _, others)) = self.list.get(end.saturating_sub(1)).copied()
            && others != arguments
        {
            return Meaning::Several;
        }
        Meaning::Found(arguments)
    }
}

/// The names that tables define, of which these are known already.
fn next_paths(alloc: Global, tables: &[&[u8]], paths: &Paths) -> Result<Paths, AllocError> {
    let mut next = Paths::new(alloc);
    let known = Known::new(alloc, paths)?;
    for table in tables {
        list_table(alloc, &known, *table, &mut next)?;
    }
    Ok(next)
}

/// The names that tables define, each the bytes of a DSDT, an SSDT or a PSDT.
///
/// If memory runs out, this fails, or `Known::new` with what it returns.
pub fn paths_of(alloc: Global, tables: &[&[u8]]) -> Result<Paths, AllocError> {
    let mut paths = Paths::new(alloc);
    if tables.is_empty() {
        return Ok(paths);
    }
    for _ in 0..ROUNDS {
        let next = next_paths(alloc, tables, &paths)?;
        let is_last = next.list.len() == paths.list.len();
        paths = next;
        if is_last {
            break;
        }
    }
    Ok(paths)
}
