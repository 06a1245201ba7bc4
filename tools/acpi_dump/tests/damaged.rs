//! Damaged inputs of each kind in each view, chosen by a seed: 2,000 of each kind, or $DAMAGED.

mod views;

use acpi_dump::printed_of;
use std::path::Path;
use views::show_all;

/// Numbers by xorshift (Marsaglia, 2003).
struct Random(u64);

impl Random {
    fn below(&mut self, end: usize) -> usize {
        self.0 ^= self.0 << 13;
        self.0 ^= self.0 >> 7;
        self.0 ^= self.0 << 17;
        (self.0 % end.max(1) as u64) as usize
    }

    /// Bytes with a few of them changed, taken out, repeated or cut off.
    fn damaged(&mut self, bytes: &[u8]) -> Vec<u8> {
        let mut bytes = bytes.to_vec();
        for _ in 0..=self.below(12) {
            let (at, length) = (self.below(bytes.len()), 1 + self.below(8));
            let end = bytes.len().min(at + length);
            match self.below(8) {
                0 => bytes.truncate(at),
                1 => drop(bytes.drain(at..end)),
                2 => drop(bytes.splice(at..at, bytes[at..end].to_vec())),
                3 if at < end => bytes[at] = 0xff,
                4 if at < end => bytes[at] = 0,
                5 if at < end => bytes[at] ^= 1 << self.below(8),
                _ if at < end => bytes[at] = self.below(256) as u8,
                _ => {}
            }
        }
        bytes
    }
}

fn data(name: &str) -> Vec<u8> {
    std::fs::read(Path::new(env!("CARGO_MANIFEST_DIR")).join("data").join(name)).expect("it is a sample")
}

/// Shows damaged ones of some inputs, as words describe them.
fn show_damaged(kind: &[&str], inputs: &[Vec<u8>]) {
    let count = std::env::var("DAMAGED").ok().and_then(|count| count.parse().ok()).unwrap_or(2000);
    let mut random = Random(0x2545_f491_4f6c_dd1d);
    for number in 0..count {
        let input = &inputs[number % inputs.len()];
        show_all(kind, &random.damaged(input));
    }
}

/// The samples that small machines have.
fn images() -> Vec<Vec<u8>> {
    ["ten_tables.image", "numa.image", "dmar.image", "ivrs.image", "nvdimm.image", "virt.image"].map(data).to_vec()
}

#[test]
fn images_are_shown() {
    show_damaged(&["--as", "image"], &images());
}

/// The memory of an image of one record, after its address and its length.
#[test]
fn memory_is_shown() {
    show_damaged(&["--at", "0x70000000", "--start", "rsdp:0x70000000"], &[data("ten_tables.image").split_off(16)]);
}

fn texts() -> Vec<Vec<u8>> {
    images().iter().map(|image| printed_of(&["-", "--as", "image", "--text"], image).into_bytes()).collect()
}

#[test]
fn texts_are_shown() {
    show_damaged(&["--as", "text"], &texts());
}

/// The tables of a text, whose lines are an offset, a colon and 16 bytes.
#[test]
fn tables_are_shown() {
    let mut tables: Vec<Vec<u8>> = Vec::new();
    for line in texts().iter().flat_map(|text| str::from_utf8(text).expect("it is ASCII").lines()) {
        match line.split_once(": ") {
            None if line.contains(" @ ") => tables.push(Vec::new()),
            Some((_, bytes)) => {
                let digits = bytes.get(..48).unwrap_or(bytes).split_ascii_whitespace();
                let table = tables.last_mut().expect("a table has begun");
                table.extend(digits.map_while(|byte| u8::from_str_radix(byte, 16).ok()));
            }
            None => {}
        }
    }
    assert!(tables.len() > 30);
    show_damaged(&["--as", "table"], &tables);
}

/// What the fuzz target shows, of bytes that are no input, and of those that a fuzzer found.
#[test]
fn any_bytes_are_shown() {
    let mut random = Random(1);
    for length in (0..200).chain([1000, 5000]) {
        let bytes: Vec<u8> = (0..length).map(|_| random.below(256) as u8).collect();
        show_all(&[], &bytes);
    }
}
