// Made by scripts/erase of crates/acpi_dump_code/src/begun.rt, where it is proved.
//! Operations that have begun.

/// Whether a part is a list that fills a block up to its end.
fn fills_block(part: u8) -> bool {
    matches!(part, b'L' | b'E' | b'F' | b'B')
}

/// An operation that has begun.
#[derive(Clone, Copy)]
pub(crate) struct Begun {
    /// The parts that are still to be read.
    pub(crate) rest: &'static [u8],
    /// Where its block ends, or that which it is in.
    pub(crate) end: usize,
    pub(crate) has_block: bool,
    /// How deep what fills its block is.
    pub(crate) inner: usize,
    /// Whether its parts still go on its line, and whether one did.
    pub(crate) is_inline: bool,
    pub(crate) has_parts: bool,
    /// Between which places of the letters the path is of what it is in, and of what it defines.
    pub(crate) scope: (usize, usize),
    pub(crate) path: Option<(usize, usize)>,
    /// The letters before it began.
    pub(crate) letters: usize,
}

impl Begun {
    /// The next part, if it isn't all: the last one comes again up to the end of the block if it is a list.
    pub(crate) fn next(&mut self, at: usize) -> Option<u8> {
        let [part, rest @ ..] = self.rest else {
            return None;
        };
        if !fills_block(*part) {
            self.rest = rest;
        } else if at >= self.end {
            return None;
        }
        if *part == b'L' {
            self.scope = self.path.unwrap_or(self.scope);
        }
        self.is_inline &= !matches!(*part, b'L' | b'F' | b'B');
        Some(*part)
    }

    /// How deep a part is that has a line of its own: what fills the block is less deep than other parts.
    pub(crate) fn depth_of(&self, part: u8) -> usize {
        if fills_block(part) { self.inner } else { self.inner.saturating_add(1) }
    }
}
