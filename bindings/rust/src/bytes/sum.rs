// Made by scripts/erase of crates/acpi_bytes/src/sum.rt, where it is proved.
//! The sum of bytes modulo 256: in lanes, where the processor has vectors, or in words of eight bytes.

mod lanes;

use crate::bytes::bytes::field_in;
use lanes::{LANES, lane_sum};

/// As many bytes as a word has.
const WORD: usize = 8;

/// As many bytes as one turn of a loop adds.
const BLOCK: usize = 8 * WORD;

/// The bytes of a word that are at even places.
const EVEN: u64 = 0x00ff_00ff_00ff_00ff;

/// As many bytes as `WordSums` has room for: 256 words.
const MOST: usize = 2048;

/// Whether the processor has vectors to add lanes in. `scripts/dist` makes it false for code that may use none, and may
/// read a word at any address. It has no contract, so its callers are proved for either result.
#[inline(always)]
fn has_vectors() -> bool {
    cfg!(any(target_feature = "sse2", target_feature = "neon"))
}

/// The sum of the bytes modulo 256, which is 0 over the whole of a valid table (section 5.2.6).
#[inline]
pub fn byte_sum(bytes: &[u8]) -> u8 {
    if !has_vectors() {
        word_sum(bytes)
    } else if bytes.len() < LANES {
        plain_sum(bytes)
    } else {
        lane_sum(bytes)
    }
}

/// The sum of few bytes modulo 256, one at a time.
#[inline(always)]
fn plain_sum(bytes: &[u8]) -> u8 {
    let mut total: u8 = 0;
    for byte in bytes {
        total = total.wrapping_add(*byte);
    }
    total
}

/// The sum of the bytes modulo 256, in words.
#[inline(never)]
fn word_sum(bytes: &[u8]) -> u8 {
    let mut total: u8 = 0;
    let mut at = 0;
    while bytes.len() - at >= WORD {
        let words = ((bytes.len() - at) / WORD).min(MOST / WORD);
        let end = at + words * WORD;
        total = total.wrapping_add(sum_of_words(&bytes[at..end]));
        at = end;
    }
    total.wrapping_add(plain_sum(&bytes[at..]))
}

/// The sum of few words' bytes modulo 256.
#[inline(always)]
fn sum_of_words(bytes: &[u8]) -> u8 {
    let mut sums = WordSums { whole: 0, even: 0 };
    let mut at = 0;
    while bytes.len() - at >= BLOCK {
        sums = sums.with_word(bytes, at);
        sums = sums.with_word(bytes, at + WORD);
        sums = sums.with_word(bytes, at + 2 * WORD);
        sums = sums.with_word(bytes, at + 3 * WORD);
        sums = sums.with_word(bytes, at + 4 * WORD);
        sums = sums.with_word(bytes, at + 5 * WORD);
        sums = sums.with_word(bytes, at + 6 * WORD);
        sums = sums.with_word(bytes, at + 7 * WORD);
        at += BLOCK;
    }
    while bytes.len() - at >= WORD {
        sums = sums.with_word(bytes, at);
        at += WORD;
    }
    let odd = sums.whole.wrapping_sub(sums.even) >> 8;
    let lanes = (sums.even & EVEN) + (odd & EVEN);
    // Modulo 65535 a lane's weight, a power of 65536, is 1, so the lanes add up.
    (lanes % 65535 % 256) as u8
}

/// What words add up to: the whole words modulo 2^64, and their bytes at even places, each in a lane of 16 bits. What
/// the whole words have beside the even bytes are the odd ones, so only the even ones are taken out of each word.
#[derive(Clone, Copy, Debug)]
struct WordSums {
    whole: u64,
    even: u64,
}

impl WordSums {
    /// These with the word at a place added.
    #[inline(always)]
    fn with_word(self, bytes: &[u8], at: usize) -> WordSums {
        let word = field_in(bytes, at, WORD);
        WordSums { whole: self.whole.wrapping_add(word), even: self.even.wrapping_add(word & EVEN) }
    }
}
