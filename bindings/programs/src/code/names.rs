// Made by scripts/erase of crates/acpi_dump_code/src/names.rt, where it is proved.
//! The names in a listing: what they stand for, and what they define.

use crate::code::begun::Begun;
use crate::code::known::Meaning;
use crate::code::lines::Listing;
use crate::code::listing::ShowCode;
use crate::code::parts::print_name;
use crate::code::why::Why;
use crate::rattle::alloc::AllocError;
use crate::walk::aml::Ends;
use zacpi::sleep::AmlError;
use zacpi::sleep::name::{Name, name_at};

/// How many segments a path has at most.
const DEEPEST: usize = 32;

/// Where the scopes end that the path of a name begins with, between two places of letters.
pub(crate) fn base_end(scope: (usize, usize), aml: &[u8], at: usize, name: &Name) -> usize {
    if aml.get(at) == Some(&b'\\') {
        return scope.0;
    }
    let outer = scope.1.saturating_sub(name.ups.saturating_mul(4));
    outer.max(scope.0)
}

impl Listing<'_, '_, '_, '_> {
    /// What the path stands for that is letters between two places and segments after them.
    fn meaning_of(&mut self, from: usize, to: usize, segments: &[u8]) -> Result<Meaning, AllocError> {
        let start = self.append(from, to, segments)?;
        let meaning = match self.letters.get(start..) {
            Some(path) => self.known.meaning(path),
            None => Meaning::Unknown,
        };
        self.letters.truncate(start);
        Ok(meaning)
    }

    /// What a name stands for, and where the scopes end that its path begins with. A name of one segment is looked up
    /// in each scope from the innermost one on (section 5.3).
    pub(crate) fn find(
        &mut self,
        scope: (usize, usize),
        aml: &[u8],
        at: usize,
        name: &Name,
    ) -> Result<(usize, Meaning), AllocError> {
        let segments = aml.get(name.first..name.end).unwrap_or(&[]);
        let is_sought = name.first == at && segments.len() == 4;
        let base = base_end(scope, aml, at, name);
        let mut end = base;
        for _ in 0..DEEPEST.saturating_add(1) {
            let meaning = self.meaning_of(scope.0, end, segments)?;
            if !matches!(meaning, Meaning::Unknown) {
                return Ok((end, meaning));
            }
            if !is_sought || end <= scope.0 {
                break;
            }
            end = end.saturating_sub(4);
        }
        Ok((base, Meaning::Unknown))
    }

    /// Adds letters that are there between two places, and segments after them. Returns where they begin.
    fn append(&mut self, from: usize, to: usize, segments: &[u8]) -> Result<usize, AllocError> {
        let start = self.letters.len();
        if from <= to && to <= start {
            self.letters.extend_from_within(from..to)?;
        }
        self.letters.extend_from_slice(segments)?;
        Ok(start)
    }

    /// Adds the path of a name to the letters, which begins with the scopes up to a place of them.
    ///
    /// Fails if it has too many segments.
    pub(crate) fn add_path(
        &mut self,
        scope: (usize, usize),
        end: usize,
        aml: &[u8],
        at: usize,
        name: &Name,
    ) -> Result<(usize, usize), Why> {
        let segments = aml.get(name.first..name.end).unwrap_or(&[]);
        let start = self.append(scope.0, end, segments)?;
        let path = (start, self.letters.len());
        if path.1.saturating_sub(start) / 4 > DEEPEST {
            return Err(Why::Ends(Ends::Deep(at)));
        }
        Ok(path)
    }

    /// Shows that a path is defined.
    pub(crate) fn define<S: ShowCode>(
        &self,
        path: (usize, usize),
        is_elsewhere: bool,
        arguments: Option<u8>,
        show: &mut S,
    ) {
        let path = self.letters.get(path.0..path.1).unwrap_or(&[]);
        show.define(path, is_elsewhere, arguments)
    }

    /// Reads a name that is a part of an operation by itself.
    pub(crate) fn name<S: ShowCode>(
        &mut self,
        begun: &mut Begun,
        part: u8,
        aml: &[u8],
        at: usize,
        show: &mut S,
    ) -> Result<(), Why> {
        let name = name_at(aml, at)?;
        self.begin_part(begun, part, show);
        print_name(aml.get(at..name.end).unwrap_or(&[]), &mut self.text);
        self.at = name.end;
        let scope = begun.scope;
        match part {
            b'N' => {
                let end = base_end(scope, aml, at, &name);
                let path = self.add_path(scope, end, aml, at, &name)?;
                begun.path = Some(path);
                if !matches!(begun.rest, [b'M' | b'X', ..]) {
                    self.define(path, false, None, show);
                }
            }
            b'O' => {
                let (end, _) = self.find(scope, aml, at, &name)?;
                begun.path = Some(self.add_path(scope, end, aml, at, &name)?);
            }
            b'A' => {
                let (_, meaning) = self.find(scope, aml, at, &name)?;
                self.alias(begun, meaning, aml, name.end, show)?;
            }
            _ => {}
        }
        Ok(())
    }

    /// Reads the name of an alias of what has this meaning.
    fn alias<S: ShowCode>(
        &mut self,
        begun: &mut Begun,
        meaning: Meaning,
        aml: &[u8],
        at: usize,
        show: &mut S,
    ) -> Result<(), Why> {
        if at >= aml.len() {
            return Err(Why::from(AmlError::PastEnd(at)));
        }
        let name = name_at(aml, at)?;
        self.begin_part(begun, b'N', show);
        print_name(aml.get(at..name.end).unwrap_or(&[]), &mut self.text);
        self.at = name.end;
        let end = base_end(begun.scope, aml, at, &name);
        let path = self.add_path(begun.scope, end, aml, at, &name)?;
        if let Meaning::Found(arguments) = meaning {
            self.define(path, false, arguments, show);
        }
        Ok(())
    }
}
