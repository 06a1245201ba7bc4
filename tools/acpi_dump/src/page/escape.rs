//! Texts of tables, files and options, which stay texts in a page.

use super::ids::Id;
use crate::compare::outline::Item;
use crate::prelude::*;
use acpi_programs::input::status::Status;
use std::borrow::Cow;
use std::fmt::Write;

/// How many digits of a value are shown.
const DIGITS: usize = 26;

/// What is put in place of a `$` in the skeleton of a part of a page.
#[derive(Clone, Copy)]
pub enum Piece<'a> {
    /// Characters of a text or of an attribute in double quotes.
    Text(&'a str),
    Bytes(&'a [u8]),
    /// The first digits of a value, or a path.
    Value(&'a str),
    /// The first words of a text, of at most this many letters together.
    Words(&'a str, usize),
    /// The name of a field, with its number if it has one.
    Name(&'a Item),
    /// The names of what an input was read from.
    Names(&'a [&'a str]),
    Letters(Signature),
    Status(Status),
    /// The id of a table, or of the row of a byte of it.
    Id(Id, Option<u64>),
    Decimal(u64),
    /// A number in hexadecimal digits, after `0x`, or without that and four of them at least.
    Hex(u64),
    Digits(u64),
    Offset(u64),
    /// A number in hexadecimal digits, at least so many.
    Padded(u64, usize),
    /// HTML of this program.
    Markup(&'static str),
    Printed(&'a Html),
}

/// HTML, or other XML: what is put into it is markup that is in this program's source, or text that is escaped.
#[derive(Default)]
pub struct Html(String);

impl Html {
    pub fn as_str(&self) -> &str {
        &self.0
    }

    pub fn is_empty(&self) -> bool {
        self.0.is_empty()
    }

    pub fn clear(&mut self) {
        self.0.clear();
    }

    pub fn markup(&mut self, markup: &'static str) {
        self.0.push_str(markup);
    }

    /// Adds bytes as characters of a text or of an attribute in quotes: `&`, `<`, `>` and the quotes as entities, and
    /// those that aren't printable ASCII as `.`.
    pub fn escaped(&mut self, bytes: &[u8]) {
        for byte in bytes {
            match byte {
                b'&' => self.0.push_str("&amp;"),
                b'<' => self.0.push_str("&lt;"),
                b'>' => self.0.push_str("&gt;"),
                b'"' => self.0.push_str("&quot;"),
                b'\'' => self.0.push_str("&#39;"),
                0x20..=0x7e => self.0.push(char::from(*byte)),
                _ => self.0.push('.'),
            }
        }
    }

    fn number(&mut self, digits: std::fmt::Arguments<'_>) {
        self.0.write_fmt(digits).expect("a String is written");
    }

    pub fn append(&mut self, other: &Html) {
        self.0.push_str(&other.0);
    }

    /// Adds markup, with the next number in place of each `#` (in hexadecimal digits) and `%` (in decimal ones).
    pub fn words(&mut self, markup: &'static str, numbers: &[u64]) {
        let mut numbers = numbers.iter();
        for letter in markup.chars() {
            match letter {
                '#' => numbers.next().into_iter().for_each(|number| self.number(format_args!("0x{number:x}"))),
                '%' => numbers.next().into_iter().for_each(|number| self.number(format_args!("{number}"))),
                _ => self.0.push(letter),
            }
        }
    }

    /// Adds the skeleton of a part of a page, each `$` in it as the next of the pieces, or as it is if none is left.
    pub fn fill(&mut self, skeleton: &'static str, pieces: &[Piece<'_>]) {
        let mut pieces = pieces.iter();
        for (place, markup) in skeleton.split('$').enumerate() {
            if place > 0 {
                match pieces.next() {
                    Some(piece) => self.piece(*piece),
                    None => self.0.push('$'),
                }
            }
            self.0.push_str(markup);
        }
    }

    /// Adds what is put in place of a `$`: all of it escaped, unless it is HTML already.
    fn piece(&mut self, piece: Piece<'_>) {
        match piece {
            Piece::Markup(html) => self.markup(html),
            Piece::Printed(html) => self.append(html),
            Piece::Text(letters) => self.escaped(letters.as_bytes()),
            Piece::Bytes(bytes) => self.escaped(bytes),
            Piece::Value(value) => self.escaped(first_digits(value).as_bytes()),
            Piece::Words(words, most) => {
                let front = first_words(words, most);
                self.escaped(front.as_bytes());
                self.markup(if front.len() < words.len() { " .." } else { "" });
            }
            Piece::Name(item) => {
                self.escaped(item.name.as_bytes());
                if let Some(number) = item.number {
                    self.words(" %", &[number]);
                }
            }
            Piece::Names([]) => self.markup("this machine"),
            Piece::Names(names) => self.escaped(names.join(" ").as_bytes()),
            Piece::Letters(signature) => self.escaped(&signature.to_bytes()),
            Piece::Status(status) => self.escaped(status.to_string().as_bytes()),
            Piece::Id(id, offset) => {
                self.escaped(id.to_string().as_bytes());
                if let Some(offset) = offset {
                    self.words("-#", &[offset]);
                }
            }
            Piece::Decimal(number) => self.words("%", &[number]),
            Piece::Hex(number) => self.words("#", &[number]),
            Piece::Digits(number) => self.number(format_args!("{number:x}")),
            Piece::Offset(offset) => self.number(format_args!("{offset:04x}")),
            Piece::Padded(number, width) => self.number(format_args!("{number:0width$x}")),
        }
    }
}

pub(super) fn word_if(holds: bool, text: &'static str) -> Piece<'static> {
    Piece::Text(if holds { text } else { "" })
}

fn first_digits(value: &str) -> Cow<'_, str> {
    match value.get(..DIGITS) {
        Some(front) if value.len() > DIGITS && !value.starts_with('\\') => Cow::Owned(format!("{front}..")),
        _ => Cow::Borrowed(value),
    }
}

/// The first words of a text, of at most so many letters together.
fn first_words(text: &str, most: usize) -> &str {
    if text.len() <= most {
        return text;
    }
    let front = text.get(..most).unwrap_or(text);
    front.rsplit_once(' ').map_or(front, |(words, _)| words.trim_end_matches([',', ' ']))
}
