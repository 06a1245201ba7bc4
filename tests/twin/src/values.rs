//! What calls are passed: numbers, records and lists, in memory that both sides read.

use crate::memory::shared;
use crate::random::Random;
use crate::words::{Field, Record, number, put};

/// How much memory the inputs have, and the outputs of each side: a case may write several tables above 64 KiB.
pub const CAPACITY: usize = 1 << 19;

/// Memory that is aligned for every record.
pub struct Arena(*mut u8);

impl Arena {
    pub fn new() -> Arena {
        Arena(shared(CAPACITY))
    }

    pub fn start(&self) -> usize {
        self.0 as usize
    }

    pub fn bytes(&mut self) -> &mut [u8] {
        unsafe { std::slice::from_raw_parts_mut(self.0, CAPACITY) }
    }
}

/// What the values of a case are taken from.
pub struct Facts<'a> {
    pub source: [u8; 32],
    pub rsdp: &'a [u8],
    pub tables: &'a [Vec<u8>],
    pub addresses: &'a [u64],
    pub is_huge: bool, // a region isn't in the memory that another process shares
}

/// What chooses values. `nice` is 0 for any numbers, 1 for mostly small ones, 2 and 3 for nearly none but what records
/// have.
pub struct Chance<'a> {
    pub random: Random,
    pub nice: u64,
    pub facts: &'a Facts<'a>,
}

impl Chance<'_> {
    pub fn number(&mut self, size: usize) -> u64 {
        if self.nice >= 2 && !self.random.one_in(40) {
            return self.valid(size);
        }
        let nice = self.nice != 0;
        let most = u64::MAX >> (64 - 8 * size);
        let random = &mut self.random;
        match random.below(if nice { 16 } else { 20 }) {
            0..8 => random.below(if nice { 3 } else { 6 }),
            8 => random.below(256),
            9 | 10 if nice => random.below(2),
            9..13 if !self.facts.tables.is_empty() => self.of_tables(size),
            13 => random.next(),
            14 => random.next() & 0xffff_f000,
            15 => 1 << random.below(8 * size as u64),
            16 => most,
            17 => most - random.below(4),
            18 => (1u64 << random.below(8 * size as u64)).wrapping_sub(1),
            _ => random.next(),
        }
    }

    /// What a record is likely to be valid with: of addresses those of pages too, below 2^32 and above.
    fn valid(&mut self, size: usize) -> u64 {
        let random = &mut self.random;
        match size {
            1 => self.nice - 2 + random.below(2),
            8 if random.one_in(6) => 0x1000 * random.below(1 << 50),
            8 if random.one_in(3) => 0x1000 * random.below(0x1000),
            8 if random.one_in(2) => 0x1000 * random.below(10),
            _ if random.one_in(2) => random.below(3),
            _ => random.below(20),
        }
    }

    /// A number that is in a table, or an address about one.
    fn of_tables(&mut self, size: usize) -> u64 {
        let (random, facts) = (&mut self.random, self.facts);
        if size == 8 && random.one_in(2) && !facts.addresses.is_empty() {
            return random.of(facts.addresses).wrapping_add(random.below(3) * random.below(64));
        }
        let table = &facts.tables[random.index(facts.tables.len())];
        let from = random.index(table.len().max(size + 1) - size).min(table.len());
        number(&table[from..(from + size).min(table.len())])
    }

    /// An argument by its name.
    pub fn argument(&mut self, name: &str, size: usize) -> u64 {
        let made = self.number(size);
        let random = &mut self.random;
        match name {
            "index" if !random.one_in(4) => random.below(4),
            "state" if !random.one_in(4) => random.below(8),
            "table" if !random.one_in(8) && !self.facts.addresses.is_empty() => random.of(self.facts.addresses),
            _ => made,
        }
    }

    /// A signature, mostly of one of the tables.
    pub fn letters(&mut self) -> usize {
        let (random, facts) = (&mut self.random, self.facts);
        if random.one_in(8) || facts.tables.is_empty() {
            return random.next() as u32 as usize;
        }
        let table = &facts.tables[random.index(facts.tables.len())];
        number(&table[..table.len().min(4)]) as usize
    }

    /// How many items a list has.
    fn length(&mut self, depth: u32) -> usize {
        let random = &mut self.random;
        match random.below(if self.nice >= 2 { 7 } else { 8 }) {
            0 | 1 => 0,
            2..4 => 1,
            4..7 => random.index(5),
            _ => random.index(if depth == 0 { 18 } else { 6 }),
        }
    }
}

/// How entries of tables that have such walks are laid out: first, and the places and widths of Type and Length.
const WALKS: [[u8; 5]; 6] =
    [[44, 0, 1, 1, 1], [48, 0, 1, 1, 1], [48, 0, 2, 2, 2], [48, 0, 1, 2, 2], [96, 0, 1, 1, 2], [36, 0, 2, 2, 4]];

const MOST_READ: usize = 6; // of a record

/// The memory of what is passed, of which `top` bytes are taken.
pub struct Inputs {
    pub arena: Arena,
    pub top: usize,
    pub records: &'static [Record],
    /// What calls of the case have written so far, by record: it may be passed to others.
    read: Vec<Vec<Vec<u8>>>,
}

impl Inputs {
    pub fn new(records: &'static [Record]) -> Inputs {
        Inputs { arena: Arena::new(), top: 0, records, read: vec![Vec::new(); records.len()] }
    }

    pub fn forget(&mut self) {
        self.read.iter_mut().for_each(Vec::clear);
    }

    pub fn keep_read(&mut self, record: usize, bytes: &[u8]) {
        if self.records[record].fields.len() > 1 && self.read[record].len() < MOST_READ {
            self.read[record].push(bytes.to_vec());
        }
    }

    /// Puts over a record, and what it consists of, what was read, if something was.
    fn put_read(&mut self, at: usize, record: usize, chance: &mut Chance) {
        for &(place, part) in self.records[record].parts {
            self.put_read(at + place, part, chance);
        }
        let read = &self.read[record];
        if read.is_empty() || chance.random.one_in(5) {
            return;
        }
        let bytes = read[chance.random.index(read.len())].clone();
        self.bytes(at, bytes.len()).copy_from_slice(&bytes);
    }

    pub fn bytes(&mut self, at: usize, size: usize) -> &mut [u8] {
        &mut self.arena.bytes()[at..at + size]
    }

    pub fn take(&mut self, size: usize) -> usize {
        let at = self.top;
        self.top += size.next_multiple_of(16) + 16;
        assert!(self.top <= CAPACITY);
        at
    }

    pub fn copy(&mut self, bytes: &[u8]) -> usize {
        let at = self.take(bytes.len());
        self.bytes(at, bytes.len()).copy_from_slice(bytes);
        self.arena.start() + at
    }

    /// Fills a record. Lists of it are made too.
    pub fn fill(&mut self, at: usize, place: usize, chance: &mut Chance, depth: u32) {
        let record = &self.records[place];
        if record.name == "zacpi_walk" && !chance.random.one_in(4) {
            let [first, type_at, type_width, length_at, length_width] = chance.random.of(&WALKS);
            let walk = [first, 0, 0, 0, type_at, type_width, length_at, length_width];
            self.bytes(at, 8).copy_from_slice(&walk);
            return;
        }
        for field in record.fields.iter().filter(|field| field.item < 0) {
            self.put_number(at, field, chance);
        }
        if chance.nice >= 2 {
            self.put_read(at, place, chance);
            if chance.random.one_in(2) {
                let field = &record.fields[chance.random.index(record.fields.len())];
                self.put_number(at, field, chance);
            }
        }
        for field in record.fields.iter().filter(|field| field.item >= 0) {
            let (place, length) = self.list(field.item as usize, chance, depth);
            put(self.bytes(at + field.at, 16), 0, 8, place as u64);
            put(self.bytes(at + field.at, 16), 8, 8, length as u64);
        }
    }

    /// A number that a field of its name may have.
    fn put_number(&mut self, at: usize, field: &Field, chance: &mut Chance) {
        let mut number = chance.number(field.size);
        let random = &mut chance.random;
        let is_code = field.name.ends_with("polarity") || field.name.ends_with("trigger");
        if field.name.ends_with("kind") && chance.nice != 0 {
            let any = random.below(24);
            number = any / 12 | ((any % 12 == 0) as u64) << 16; // also none, whose lower bits are one
        } else if field.name.ends_with("space") && random.one_in(2) {
            number = random.of(&[0, 1, 2, 3, 4, 5, 6, 7, 8, 9, 10, 11, 127, 192, 255]);
        } else if is_code && chance.nice != 0 {
            number = random.of(&[0, 1, 1, 1, 1, 2, 3, 3, 3]);
        } else if field.size == 8 && random.one_in(16) {
            number = u64::MAX;
        }
        put(self.bytes(at + field.at, field.size), 0, field.size, number);
    }

    /// A list: its place and its length.
    pub fn list(&mut self, item: usize, chance: &mut Chance, depth: u32) -> (usize, usize) {
        let size = self.records[item].size;
        let mut length = chance.length(depth);
        if size == 1 && chance.random.one_in(2) {
            if !chance.random.one_in(3) && !chance.facts.tables.is_empty() {
                return self.table(chance);
            }
            let n = chance.random.below(8);
            length = match n {
                0..6 => (n * n) as usize,
                _ if chance.random.one_in(12) => 65_400 + chance.random.index(200), // about 64 KiB
                _ => chance.random.index(200),
            };
        }
        let at = self.take(length * size);
        for i in 0..length.min(4000) {
            self.fill(at + i * size, item, chance, depth + 1);
        }
        self.bytes(at, length * size)[length.min(4000) * size..].fill(7);
        (self.arena.start() + at, length)
    }

    /// A list of bytes that is a table, or the RSDP.
    fn table(&mut self, chance: &mut Chance) -> (usize, usize) {
        let any = chance.random.index(chance.facts.tables.len() + 3);
        let table = chance.facts.tables.get(any).map_or(chance.facts.rsdp, |table| &table[..]);
        let length = table.len().min(600);
        (self.copy(&table[..length]), length)
    }
}
