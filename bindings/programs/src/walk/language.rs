// Made by scripts/erase of crates/acpi_dump_walk/src/language.rt, where it is proved.
//! The language in which the layouts of tables are written.
//!
//! A text is blocks of lines. A block describes a structure: `= NAME KIND SIZE TITLE`, and then a line
//! for each part, in the order of the offsets, which count from the beginning of the structure. KIND
//! is `*`, or the type, or the first and the last type, that a structure of the name's list has: as
//! `0x10` or `0x00-0x3f`. SIZE is the length where a type determines it, the least length where each
//! structure tells its own, or `-`.
//!
//! - `OFFSET LENGTH MEANING NAME` is a field. With `|` there follow what its number means.
//! - `OFFSET LENGTH[COUNT] MEANING NAME` are COUNT fields of one length, and `[*]` as many as fit.
//! - `OFFSET {COUNT} HOW` are COUNT structures, `{*}` as many as fit, `{~LENGTH}` as many as are in LENGTH
//!   bytes. HOW is `each LENGTH BLOCK` if the structure that they are in tells their length, `own
//!   LENGTH BLOCK` if each tells its own, `typed PLACE LENGTH BLOCK` if each has a type, and `sized PLACE
//!   BLOCK` if its type determines its length. The block of the kind `*` is what all begin with.
//! - `if PLACE FIRST-LAST BLOCK` are the lines of a block if the number is in the range, `if PLACE NUMBER
//!   BLOCK` if it is that, `if PLACE &NUMBER BLOCK` if it has one of these bits, and `if PLACE !NUMBER BLOCK`
//!   if it has none of them.
//! - `with BLOCK` are the lines of a block.
//! - `then BLOCK` are the lines of a block, by offsets from the end of what comes before.
//!
//! PLACE is `OFFSET:LENGTH`, a number in the structure. OFFSET, LENGTH and COUNT are sums and
//! differences of products of numbers and places, as `40+28*32:1`. OFFSET may also be `>`: after
//! what comes before. LENGTH may be `*`, to the end of the structure, `z`, to the first zero and with it, or
//! `<OFFSET`, to that offset.
//!
//! MEANING is `-` (the number itself), `dec` (also in decimal digits), `dec+1` (1 more in decimal digits),
//! `text`, `wide` (UTF-16), `row` (numbers of a byte), `guid`, `fn` (bus, device and function), `path` (device
//! and function), `gas` (a generic address), `codes` (`| NUMBER MEANING` for each), `flags`: `| BIT NAME`,
//! `| HIGH:LOW NAME` for a number, `| HIGH:LOW/NUMBER MEANING` for a code, or `parts`, as `flags`, but with
//! numbers in hexadecimal digits. `dec` and `guid` may have codes too. `| @BLOCK` takes them from a block.
//!
//! A word that isn't understood, and the name of a block that isn't there, is the fault `Unread`.
//! `scripts/check/layouts` reads every layout, and so finds it before a table does.

use crate::rattle::Pieces;
use crate::walk::fault::Fault;
use zacpi::sdt::field;

/// The meaning of a field's bytes, as the first lines of this file say.
#[derive(Clone, Copy)]
pub enum Meaning {
    /// The number itself.
    Plain,
    /// The number in decimal digits too, and the name of it if it is one of the codes.
    Decimal,
    /// The number of what is counted, less 1.
    LessOne,
    Text,
    Wide,
    Row,
    /// Section 19.6.142.
    Guid,
    /// The bus in bits 15:8, the device in bits 7:3, the function in bits 2:0.
    Function,
    Path,
    Codes,
    Flags,
    Parts,
    /// A generic address (section 5.2.3.2).
    Register,
}

/// What a line has of a field: its name, its meaning, and the codes, flags or names that the meaning takes.
#[derive(Clone, Copy)]
pub struct Label {
    pub name: &'static str,
    pub meaning: Meaning,
    pub items: &'static str,
}

/// A block: the parts of its first line, and the others.
#[derive(Clone, Copy)]
pub(crate) struct Block {
    pub(crate) name: &'static str,
    /// The first and the last type, unless it is what all begin with.
    kinds: Option<(u64, u64)>,
    pub(crate) size: &'static str,
    pub(crate) title: &'static str,
    pub(crate) lines: &'static str,
}

/// How many blocks a text has at most.
const MOST: usize = 40;

/// A text up to its first separator, and the rest after that.
pub fn cut_at(text: &str, separator: char) -> (&str, &str) {
    text.two_pieces(separator).unwrap_or((text, ""))
}

/// The first word of a line, and what follows it.
pub fn next_word(line: &str) -> (&str, &str) {
    cut_at(line.trim_ascii_start(), ' ')
}

/// The number that a word is, in decimal digits or after `0x` in hexadecimal ones.
pub fn number_of(word: &str) -> Option<u64> {
    match word.strip_prefix("0x") {
        Some(digits) => u64::from_str_radix(digits, 16).ok(),
        None => word.parse::<u64>().ok(),
    }
}

/// The number of `length` bytes at an offset, the lowest first: 0 if they aren't there.
pub fn number_at(bytes: &[u8], offset: usize, length: usize) -> u64 {
    if length <= 8 && offset.saturating_add(length) <= bytes.len() { field(bytes, offset, length) } else { 0 }
}

/// A number as a length or an offset. Where addresses have 32 bits, one that they can't have becomes the largest, past
/// the end of all that is there.
pub fn size(number: u64) -> usize {
    number.min(usize::MAX as u64) as usize
}

/// The number of a factor: a number, or the number at a place of bytes.
pub(crate) fn factor_of(word: &str, bytes: &[u8]) -> Option<u64> {
    let (offset, length) = cut_at(word, ':');
    let number = number_of(offset)?;
    if length.is_empty() {
        return Some(number);
    }
    Some(number_at(bytes, size(number), size(number_of(length)?)))
}

/// The product of the factors of a term.
fn product_of(term: &str, bytes: &[u8]) -> Option<u64> {
    let mut product = 1u64;
    for word in term.pieces('*') {
        product = product.saturating_mul(factor_of(word, bytes)?);
    }
    Some(product)
}

/// The value of terms that are added or taken.
fn total_of(word: &str, bytes: &[u8]) -> Option<u64> {
    let mut sum = 0u64;
    for added in word.pieces('+') {
        let (term, taken) = added.two_pieces('-').unwrap_or((added, "0"));
        sum = sum.saturating_add(product_of(term, bytes)?);
        sum = sum.saturating_sub(product_of(taken, bytes)?);
    }
    Some(sum)
}

/// The value of a sum over the bytes of a structure.
///
/// Fails if it isn't understood.
pub(crate) fn sum_of(word: &'static str, bytes: &[u8]) -> Result<u64, Fault> {
    // Most sums are one number or one place.
    let number = factor_of(word, bytes).or_else(|| total_of(word, bytes));
    number.ok_or(Fault::Unread(word))
}

/// The offset after the last place that a sum reads: 0 if it reads none.
pub(crate) fn places_end(word: &str) -> usize {
    let mut last = 0;
    for factor in word.split(['+', '-', '*']) {
        let (offset, length) = cut_at(factor, ':');
        if let (Some(offset), Some(length)) = (number_of(offset), number_of(length)) {
            last = last.max(size(offset.saturating_add(length)));
        }
    }
    last
}

/// The first and the last number of a range, or the number of a word twice.
pub(crate) fn range_of(word: &str) -> Option<(u64, u64)> {
    let (first, last) = word.two_pieces('-').unwrap_or((word, word));
    Some((number_of(first)?, number_of(last)?))
}

/// Whether a number meets a word of `if`: `None` if the word isn't understood.
pub(crate) fn choice_of(number: u64, word: &str) -> Option<bool> {
    match (word.strip_prefix('&'), word.strip_prefix('!')) {
        (Some(mask), _) => Some(number & number_of(mask)? != 0),
        (_, Some(mask)) => Some(number & number_of(mask)? == 0),
        _ => {
            let (first, last) = range_of(word)?;
            Some(first <= number && number <= last)
        }
    }
}

/// Whether a number is as a word of `if` says.
pub fn is_chosen(number: u64, word: &str) -> bool {
    choice_of(number, word) == Some(true)
}

impl Block {
    /// In place of a block that isn't there: no structure has its name.
    pub(crate) const NONE: Block = Block { name: "", kinds: Some((1, 0)), size: "", title: "", lines: "" };

    /// The block that a text after a `=` describes.
    fn read(text: &'static str) -> Block {
        let (head, lines) = cut_at(text, '\n');
        let (name, head) = next_word(head);
        let (kinds, head) = next_word(head);
        let (size, title) = next_word(head);
        Block { name, kinds: range_of(kinds), size, title: title.trim_ascii_start(), lines }
    }

    /// Whether it is for structures of a type, or for what all of them begin with.
    fn is_of_kind(&self, kind: Option<u64>) -> bool {
        match (kind, self.kinds) {
            (None, None) => true,
            (Some(kind), Some((first, last))) => first <= kind && kind <= last,
            _ => false,
        }
    }
}

/// The blocks of a text. Each look-up goes over their names, and the text is read once.
#[derive(Clone, Copy)]
pub(crate) struct Blocks {
    list: [Block; MOST],
}

impl Blocks {
    /// The blocks of a text.
    pub(crate) fn read(text: &'static str) -> Blocks {
        let mut list = [Block::NONE; MOST];
        for (place, block) in list.iter_mut().zip(text.pieces('=').skip(1)) {
            *place = Block::read(block);
        }
        Blocks { list }
    }

    /// The block with a name, for structures of a type, or for what all of them begin with.
    pub(crate) fn find(&self, name: &str, kind: Option<u64>) -> Option<Block> {
        let mut blocks = self.list.iter();
        blocks.find(|block| block.name == name && block.is_of_kind(kind)).copied()
    }

    /// The block that the first word names.
    pub(crate) fn named(&self, rest: &'static str) -> Result<Block, Fault> {
        let (name, _) = next_word(rest);
        self.find(name, None).ok_or(Fault::Unread(name))
    }

    /// The name, meaning and items of a field, from a line after the field's length.
    pub(crate) fn label(&self, rest: &'static str) -> Result<Label, Fault> {
        let (word, rest) = next_word(rest);
        let (name, mut items) = cut_at(rest, '|');
        if let Some(block) = items.trim_ascii().strip_prefix('@') {
            items = self.named(block)?.lines;
        }
        Ok(Label { name: name.trim_ascii(), items, meaning: Meaning::read(word)? })
    }
}

impl Meaning {
    /// The meaning that a word names.
    ///
    /// Fails if it names none.
    fn read(word: &'static str) -> Result<Meaning, Fault> {
        Ok(match word {
            "-" => Meaning::Plain,
            "dec" => Meaning::Decimal,
            "dec+1" => Meaning::LessOne,
            "text" => Meaning::Text,
            "wide" => Meaning::Wide,
            "row" => Meaning::Row,
            "guid" => Meaning::Guid,
            "fn" => Meaning::Function,
            "path" => Meaning::Path,
            "gas" => Meaning::Register,
            "codes" => Meaning::Codes,
            "flags" => Meaning::Flags,
            "parts" => Meaning::Parts,
            _ => return Err(Fault::Unread(word)),
        })
    }
}
