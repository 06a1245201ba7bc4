//! Single values of tables, by the words of `--get`.

use super::request::parse_signature;
use crate::prelude::*;
use acpi_programs::walk::aml::Value;
use acpi_programs::walk::language::number_of;

/// A value: a field of a table, which may be in structures, or an object that AML defines.
#[derive(Clone, Copy)]
pub(crate) struct Wanted<'w> {
    pub(crate) signature: Signature,
    /// The structures, the outermost first, each by its number or its name, with `.` between them.
    within: &'w str,
    /// The name of the field, or the path of the object.
    name: &'w str,
    is_object: bool,
}

impl<'w> Wanted<'w> {
    /// The value that a word requests: `SIG.FIELD`, `SIG.ENTRY.FIELD`, with more entries before it if they are in
    /// others, or `SIG:OBJECT`.
    pub(crate) fn read(word: &'w str) -> Option<Wanted<'w>> {
        let (letters, within, name, is_object) = match word.split_once(':') {
            Some((letters, path)) if letters.len() == 4 => (letters, "", path, true),
            _ => {
                let (letters, rest) = word.split_once('.')?;
                let (within, name) = rest.rsplit_once('.').unwrap_or(("", rest));
                (letters, within, name, false)
            }
        };
        let signature = parse_signature(letters)??;
        (!name.is_empty()).then_some(Wanted { signature, within, name, is_object })
    }

    /// The number or the name of the structure that is in this many others.
    fn structure(&self, depth: usize) -> Option<&'w str> {
        self.within.split('.').nth(depth).filter(|_| !self.within.is_empty())
    }

    /// Whether it is a structure that is in this many others.
    fn is_in(&self, depth: usize, group: &Group) -> bool {
        self.structure(depth).is_some_and(|word| word == group.name || number_of(word) == Some(group.number))
    }
}

/// Whether a field has a name, which a number may follow if it is one of several.
fn is_field(name: &str, shown: &Field<'_>) -> bool {
    name.strip_prefix(shown.label.name)
        .is_some_and(|rest| rest.is_empty() || shown.number.is_some() && number_of(rest.trim_ascii()) == shown.number)
}

/// Whether a name is a path of four letters each. A segment that is shorter ends in `_`.
fn is_path(name: &str, path: &[u8]) -> bool {
    let is_segment = |(name, segment): (&str, &[u8])| {
        let rest = segment.strip_prefix(name.as_bytes());
        !name.is_empty() && rest.is_some_and(|rest| rest.iter().all(|letter| *letter == b'_'))
    };
    let names = name.strip_prefix('\\').unwrap_or(name).split('.');
    names.clone().count() * 4 == path.len() && names.zip(path.chunks(4)).all(is_segment)
}

/// Shows the first field or object with a value that is wanted to another, and nothing else.
pub(crate) struct Finder<'f, S> {
    pub(crate) wanted: Wanted<'f>,
    /// How many structures have begun and haven't ended, and how many of the outermost ones of these are wanted.
    depth: usize,
    entered: usize,
    pub(crate) is_found: bool,
    show: &'f mut S,
}

impl<'f, S> Finder<'f, S> {
    pub(crate) fn new(wanted: Wanted<'f>, show: &'f mut S) -> Finder<'f, S> {
        Finder { wanted, depth: 0, entered: 0, is_found: false, show }
    }
}

impl<S: Show> Show for Finder<'_, S> {
    fn field(&mut self, shown: &Field<'_>) {
        let is_here = self.entered == self.depth && self.wanted.structure(self.depth).is_none();
        let name = self.wanted.name;
        if !self.is_found && is_here && !self.wanted.is_object && is_field(name, shown) {
            self.is_found = true;
            self.show.field(shown);
        }
    }

    fn begin(&mut self, group: &Group) {
        if self.entered == self.depth && self.wanted.is_in(self.depth, group) {
            self.entered += 1;
        }
        self.depth += 1;
    }

    fn end(&mut self) {
        self.depth -= 1;
        self.entered = self.entered.min(self.depth);
    }
}

impl<S: ShowObjects> ShowObjects for Finder<'_, S> {
    fn object(&mut self, object: &Object<'_>) {
        let is_hidden = matches!(object.value, Value::Hidden);
        if self.is_found || is_hidden || !self.wanted.is_object {
            return;
        }
        let name = self.wanted.name;
        if let Some(path) = object.path
            && is_path(name, path)
        {
            self.is_found = true;
            self.show.object(object);
        }
    }

    fn ends(&mut self, _offset: u64, _why: Ends) {}
}
