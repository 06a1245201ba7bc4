//! The objects of AML that differ between two tables, paired by their paths.

use super::code::{CodeLine, changed_lines};
use super::known::{self, Known, objects_of};
use super::outline::Side;
use super::pairs::Pairs;
use super::pieces::{cut_piece, elements_of, head_of, inner, keys_of, step_of};
use super::{Difference, Title};
use crate::prelude::*;
use std::borrow::Cow;

/// The differences between the objects of two tables, of each its bytes and what names stand for.
struct Changes<'a, 'n> {
    tables: [(&'a [u8], &'n Names<'n>); 2],
    /// The differences that came before.
    others: usize,
    found: Vec<Difference<'a>>,
}

impl<'a> Changes<'a, '_> {
    fn next(&self) -> usize {
        self.found.len() - self.others + 1
    }

    fn add_alone(&mut self, object: &Known<'a>, is_first: bool) {
        let part = self.next();
        let (old, new) = if is_first { (Some(""), None) } else { (None, Some("")) };
        let (old, new) = (old.map(Cow::Borrowed), new.map(Cow::Borrowed));
        let title = Title::Alone(*object);
        self.found.push(Difference { part, offset: object.offset, old, new, ..Difference::of(title) });
    }

    /// Adds what differs in an object, whose first difference has a number.
    fn add(
        &mut self,
        was: &Known<'a>,
        part: usize,
        name: Cow<'a, str>,
        (old, new): (Option<Cow<'a, str>>, Option<Cow<'a, str>>),
        code: Vec<CodeLine>,
    ) {
        let title = Title::Object(*was);
        self.found.push(Difference { part, offset: was.offset, name, old, new, code, ..Difference::of(title) });
    }

    /// Adds an object that both tables have, if what it is, its value or its own bytes differ.
    fn add_pair(&mut self, was: &Known<'a>, is: &Known<'a>) {
        let number = self.next();
        let is_code = was.kind == "Method";
        if was.kind != is.kind {
            let (old, new) = (was.whole_value(), format!("{}, {}", is.kind, is.whole_value()));
            return self.add(was, number, was.kind.into(), (Some(old.into()), Some(new.into())), Vec::new());
        }
        if was.value != is.value {
            self.add_elements(was, is, number);
        }
        let are_others = was.own != is.own;
        let is_told = self.next() > number || was.value == is.value && !are_others;
        if is_code && are_others || !is_told {
            let code = if is_code && are_others { changed_lines(self.tables, was, is) } else { Vec::new() };
            // Bytes differ that aren't shown, or code; the lengths are told if these differ.
            let word = if is_code { "code" } else { "bytes" };
            let (old, new) = if was.length == is.length {
                (word.to_string(), format!("other {word}"))
            } else {
                (format!("{} bytes", was.length), format!("{} bytes, other {word}", is.length))
            };
            self.add(was, number, was.kind.into(), (Some(old.into()), Some(new.into())), code);
        }
    }

    /// Adds the elements of a value that differ: place by place if there are as many, and else by what they begin with.
    fn add_elements(&mut self, was: &Known<'a>, is: &Known<'a>, number: usize) {
        let (old, new) = (elements_of(was.value), elements_of(is.value));
        let mut pairs = Pairs::none(old.len(), new.len());
        if old.len() == new.len() {
            (0..old.len()).for_each(|place| pairs.take(place, place));
        } else {
            let keys = (keys_of(&old), keys_of(&new));
            for texts in [3, 2, 1] {
                pairs.add(&keys.0, &keys.1, texts);
            }
        }
        for (place, element) in old.iter().enumerate() {
            let among = (old.len() > 1).then_some(place);
            match pairs.other(place) {
                Some(other) => self.add_element(was, number, among, element, new[other]),
                None => self.add_piece(was, number, "", None, (Some(element), None)),
            }
        }
        for (place, element) in new.iter().enumerate() {
            if !pairs.is_taken(place) {
                self.add_piece(was, number, "", None, (None, Some(element)));
            }
        }
    }

    /// Adds what differs between two elements of a value, of which the first one may have a place among others.
    fn add_element(&mut self, was: &Known<'a>, number: usize, place: Option<usize>, one: &'a str, other: &'a str) {
        let (whole, head) = (inner(one), head_of(one));
        let is_package = whole.len() < one.len() && place.is_none();
        let (mut old, mut new, mut index) = (whole, inner(other), 0);
        while !old.is_empty() || !new.is_empty() {
            let (was_piece, piece) = (cut_piece(old, b','), cut_piece(new, b','));
            let (is_old, is_new) = step_of(was_piece, piece);
            if was_piece.0 != piece.0 {
                // What comes before this piece, without the comma.
                let before = whole.len().saturating_sub(old.len() + 2);
                let name = whole.get(..before.min(head.len())).unwrap_or("");
                let pieces = (is_old.then_some(was_piece.0), is_new.then_some(piece.0));
                let (name, place) = if is_package { ("", Some(index)) } else { (name, place) };
                self.add_piece(was, number, name, place, pieces);
            }
            if is_old {
                old = was_piece.1;
                index += 1;
            }
            if is_new {
                new = piece.1;
            }
        }
    }

    /// Adds a piece of a value, under the name of its element, or its place, or else what the object is.
    fn add_piece(
        &mut self,
        was: &Known<'a>,
        number: usize,
        name: &'a str,
        place: Option<usize>,
        (old, new): (Option<&'a str>, Option<&'a str>),
    ) {
        let name = match place {
            _ if !name.is_empty() && was.kind == "Name" => name.into(),
            Some(place) => format!("element {place}").into(),
            None => was.kind.into(),
        };
        self.add(was, number, name, (old.map(Cow::Borrowed), new.map(Cow::Borrowed)), Vec::new());
    }
}

/// Adds the differences between the objects of two tables, less those of the kinds that are ignored: in the order of the
/// first table, and then those that the second one alone has.
pub(super) fn add_changes<'a>(
    found: Vec<Difference<'a>>,
    (old, new): (Side<'a>, Side<'a>),
    names: (&Names<'_>, &Names<'_>),
    ignored: &[&str],
) -> Vec<Difference<'a>> {
    let tables = [(old.table, names.0), (new.table, names.1)];
    let (old, new) = (objects_of(old), objects_of(new));
    let mut pairs = Pairs::none(old.len(), new.len());
    let keys = (known::keys_of(&old), known::keys_of(&new));
    pairs.add(&keys.0, &keys.1, 2);
    pairs.add(&keys.0, &keys.1, 1);
    let mut changes = Changes { tables, others: found.len(), found };
    for (place, was) in old.iter().enumerate() {
        match pairs.other(place) {
            Some(other) if !ignored.contains(&was.kind) => changes.add_pair(was, &new[other]),
            Some(_) => {}
            None => changes.add_alone(was, true),
        }
    }
    for (place, is) in new.iter().enumerate() {
        if !pairs.is_taken(place) {
            changes.add_alone(is, false);
        }
    }
    changes.found
}
