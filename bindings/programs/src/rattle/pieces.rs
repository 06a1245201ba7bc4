//! The pieces of a text between the places of a character, in place of Rust's `split` and `split_once`, whose search is
//! made for long pieces: most of the programs' time is in it, and the layouts' lines and words are short.

pub trait Pieces {
    /// What Rust's `split` returns for a character.
    fn pieces(&self, at: char) -> Between<'_>;

    /// What Rust's `split_once` returns for a character.
    fn two_pieces(&self, at: char) -> Option<(&str, &str)>;
}

impl Pieces for str {
    fn pieces(&self, at: char) -> Between<'_> {
        Between { rest: Some(self), at }
    }

    fn two_pieces(&self, at: char) -> Option<(&str, &str)> {
        let place = place_of(self, at)?;
        Some((&self[..place], &self[place + at.len_utf8()..]))
    }
}

pub struct Between<'t> {
    rest: Option<&'t str>,
    at: char,
}

impl<'t> Iterator for Between<'t> {
    type Item = &'t str;

    fn next(&mut self) -> Option<&'t str> {
        let rest = self.rest?;
        let (piece, rest) = match rest.two_pieces(self.at) {
            Some((piece, rest)) => (piece, Some(rest)),
            None => (rest, None),
        };
        self.rest = rest;
        Some(piece)
    }
}

/// Where a character is first. Of one of ASCII eight bytes are compared at once: those that are it become 0, and of the
/// bits that are then kept the lowest is in the first 0.
fn place_of(text: &str, wanted: char) -> Option<usize> {
    const ONES: u64 = 0x0101_0101_0101_0101;
    if !wanted.is_ascii() {
        return text.find(wanted);
    }
    let (bytes, mut place) = (text.as_bytes(), 0);
    while let Some(eight) = bytes.get(place..).and_then(|rest| rest.first_chunk()) {
        let differing = u64::from_le_bytes(*eight) ^ (ONES * wanted as u64);
        let zeros = differing.wrapping_sub(ONES) & !differing & (ONES << 7);
        if zeros != 0 {
            return Some(place + zeros.trailing_zeros() as usize / 8);
        }
        place += 8;
    }
    bytes[place..].iter().position(|byte| *byte == wanted as u8).map(|at| place + at)
}
