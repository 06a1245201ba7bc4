//! What a summary consists of: lines, and the objects of a document, whose members are the numbers and the texts of the
//! lines.

use crate::document::wide;
use crate::prelude::*;
use serde::Serialize;
use std::borrow::Cow;
use std::collections::BTreeMap;
use std::fmt::{Display, Write};
use zacpi::address::GenericAddress;

/// What a member is.
#[derive(Serialize)]
#[serde(untagged)]
pub(crate) enum Fact {
    Number(u64),
    Flag(bool),
    Text(String),
    /// Numbers that follow each other.
    Range {
        first: u64,
        last: u64,
    },
    /// Numbers, of which some may not be known.
    Row(Vec<Option<u64>>),
    List(Vec<Fact>),
}

type Object = BTreeMap<Cow<'static, str>, Fact>;

#[derive(Serialize)]
#[serde(untagged)]
enum Subject {
    One(Object),
    Many(Vec<Object>),
}

/// The objects of a machine, by their subjects.
#[derive(Serialize, Default)]
pub(crate) struct Summary(BTreeMap<&'static str, Subject>);

/// The facts of a machine.
#[derive(Default)]
pub(crate) struct Facts {
    /// The lines: a name, a tab, and what holds.
    pub(crate) lines: String,
    pub(crate) summary: Summary,
    subject: &'static str,
    /// Whether the object of the line has members.
    has_begun: bool,
    is_one: bool,
}

impl Facts {
    /// Begins a line, and the object of a subject of which there is one.
    pub(crate) fn one(&mut self, subject: &'static str) -> &mut Facts {
        if !self.lines.is_empty() {
            self.lines.push('\n');
        }
        (self.subject, self.has_begun, self.is_one) = (subject, false, true);
        self
    }

    /// Begins a line, and an object of a subject of which there may be several.
    pub(crate) fn next(&mut self, subject: &'static str) -> &mut Facts {
        self.one(subject).is_one = false;
        self
    }

    fn object(&mut self) -> &mut Object {
        let (is_one, has_begun) = (self.is_one, std::mem::replace(&mut self.has_begun, true));
        let empty = || if is_one { Subject::One(Object::new()) } else { Subject::Many(Vec::new()) };
        match self.summary.0.entry(self.subject).or_insert_with(empty) {
            Subject::One(object) => object,
            Subject::Many(objects) => {
                if !has_begun {
                    objects.push(Object::new());
                }
                objects.last_mut().expect("one has begun")
            }
        }
    }

    pub(crate) fn member(&mut self, name: &'static str, fact: Fact) -> &mut Facts {
        self.object().insert(Cow::Borrowed(name), fact);
        self
    }

    pub(crate) fn item(&mut self, name: &'static str, fact: Fact) -> &mut Facts {
        let list = self.object().entry(Cow::Borrowed(name)).or_insert_with(|| Fact::List(Vec::new()));
        if let Fact::List(list) = list {
            list.push(fact);
        }
        self
    }

    pub(crate) fn text(&mut self, words: impl Display) -> &mut Facts {
        write!(self.lines, "{words}").expect("a String is written");
        self
    }

    pub(crate) fn number(&mut self, name: &'static str, number: impl Into<u64>) -> &mut Facts {
        let number = number.into();
        self.text(number).member(name, Fact::Number(number))
    }

    pub(crate) fn hex(&mut self, name: &'static str, number: impl Into<u64>) -> &mut Facts {
        let digits = wide(number.into());
        self.text(&digits).member(name, Fact::Text(digits))
    }

    pub(crate) fn shown(&mut self, name: &'static str, text: impl Display) -> &mut Facts {
        let text = printed(|out| out.value(&text));
        self.text(&text).member(name, Fact::Text(text))
    }

    pub(crate) fn shown_as(&mut self, name: &'static str, text: String) -> &mut Facts {
        self.text(&text).member(name, Fact::Text(text))
    }

    pub(crate) fn code(&mut self, name: &'static str, code: impl Into<u64>, meaning: impl Display) -> &mut Facts {
        let meaning = meaning.to_string();
        self.text(&meaning).member(name, Fact::Number(code.into()));
        if !meaning.is_empty() {
            self.object().insert(Cow::Owned(format!("{name}_meaning")), Fact::Text(meaning));
        }
        self
    }

    pub(crate) fn size(&mut self, name: &'static str, bytes: u64) -> &mut Facts {
        let (size, unit) = size_of(bytes);
        self.text(format_args!("{size} {unit}")).member(name, Fact::Text(wide(bytes)))
    }

    pub(crate) fn register(&mut self, base: &GenericAddress) -> &mut Facts {
        let space = base.address_space;
        self.code("space", space.code(), format_args!("{space:?}")).text(" ").hex("address", base.address)
    }

    pub(crate) fn refused(&mut self, part: &'static str, refusal: AcpiError) {
        self.next("not_known").shown("part", part).text("\tnot known: ").shown("error", refusal);
    }
}
