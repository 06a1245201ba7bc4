//! Cases, the file that they are kept in, and new cases made of them.

use crate::damage::damage;
use crate::memory::HEADER;
use crate::random::Random;
use crate::words::number;
use std::io;

/// All that a case is made of: tables, a seed of how they are laid out, and a seed of what calls are passed.
#[derive(Clone)]
pub struct Case {
    pub tables: Vec<Vec<u8>>,
    pub layout: u64,
    pub arguments: u64,
}

impl Case {
    pub fn size(&self) -> usize {
        self.tables.iter().map(|table| table.len()).sum()
    }
}

/// Tables that new cases take theirs from, and the cases.
#[derive(Default)]
pub struct Corpus {
    pub pool: Vec<Vec<u8>>,
    pub cases: Vec<Case>,
}

fn put_tables(bytes: &mut Vec<u8>, tables: &[Vec<u8>]) {
    bytes.extend((tables.len() as u32).to_le_bytes());
    for table in tables {
        bytes.extend((table.len() as u32).to_le_bytes());
        bytes.extend(table);
    }
}

fn take(bytes: &mut &[u8], count: usize) -> io::Result<Vec<u8>> {
    let Some((first, rest)) = bytes.split_at_checked(count) else { return Err(io::ErrorKind::UnexpectedEof.into()) };
    *bytes = rest;
    Ok(first.to_vec())
}

fn take_tables(bytes: &mut &[u8]) -> io::Result<Vec<Vec<u8>>> {
    let count = number(&take(bytes, 4)?);
    (0..count).map(|_| take(bytes, 4).and_then(|length| take(bytes, number(&length) as usize))).collect()
}

impl Corpus {
    pub fn load(path: &str) -> io::Result<Corpus> {
        let file = std::fs::read(path)?;
        let mut bytes = &file[..];
        let mut corpus = Corpus { pool: take_tables(&mut bytes)?, cases: Vec::new() };
        while !bytes.is_empty() {
            let (layout, arguments) = (number(&take(&mut bytes, 8)?), number(&take(&mut bytes, 8)?));
            corpus.cases.push(Case { tables: take_tables(&mut bytes)?, layout, arguments });
        }
        Ok(corpus)
    }

    pub fn save(&self, path: &str) -> io::Result<()> {
        let mut bytes = Vec::new();
        put_tables(&mut bytes, &self.pool);
        for case in &self.cases {
            bytes.extend(case.layout.to_le_bytes());
            bytes.extend(case.arguments.to_le_bytes());
            put_tables(&mut bytes, &case.tables);
        }
        std::fs::write(path, bytes)
    }

    /// Takes into the pool the tables of a file, at most so many of a signature.
    pub fn take_pool(&mut self, bytes: &[u8], most: usize) {
        for at in 0..bytes.len().saturating_sub(HEADER - 1) {
            let Some(table) = table_at(&bytes[at..]) else { continue };
            let alike = self.pool.iter().filter(|other| other[..4] == table[..4]).count();
            if alike < most && !self.pool.contains(&table) {
                self.pool.push(table);
            }
        }
    }

    /// A case of some tables of the pool.
    fn fresh(&self, random: &mut Random) -> Case {
        let mut wanted: Vec<[u8; 4]> = vec![*b"FACP", *b"DSDT", *b"FACS", *b"APIC"];
        let mut names: Vec<[u8; 4]> = self.pool.iter().map(|table| [table[0], table[1], table[2], table[3]]).collect();
        names.sort();
        names.dedup();
        (0..random.below(6)).for_each(|_| wanted.push(random.of(&names)));
        let mut tables = Vec::new();
        for name in wanted {
            let of: Vec<&Vec<u8>> = self.pool.iter().filter(|table| table[..4] == name).collect();
            if !random.one_in(8) && !of.is_empty() {
                tables.push(of[random.index(of.len())].clone());
            }
        }
        Case { tables, layout: random.next(), arguments: random.next() }
    }

    /// A new case: one of those that are there, changed, most often one of the last.
    pub fn change(&self, random: &mut Random) -> Case {
        let cases = &self.cases;
        if cases.is_empty() || random.one_in(40) {
            return self.fresh(random);
        }
        let last = cases.len() - 1 - random.index(cases.len().min(20));
        let at = if random.one_in(3) { last } else { random.index(cases.len()) };
        let mut case = cases[at].clone();
        let times = random.of(&[0, 1, 1, 1, 2, 2, 3, 4, 6]);
        (0..times).for_each(|_| self.change_once(&mut case, random));
        if times == 0 || random.one_in(4) {
            case.layout = random.next();
        }
        if times == 0 || !random.one_in(3) {
            case.arguments = random.next();
        }
        case
    }

    fn change_once(&self, case: &mut Case, random: &mut Random) {
        let other = &self.cases[random.index(self.cases.len())];
        match random.below(12) {
            _ if case.tables.is_empty() => case.tables = other.tables.clone(),
            0 => {
                case.tables.remove(random.index(case.tables.len()));
            }
            1 if case.tables.len() < 14 && !self.pool.is_empty() => {
                let table = self.pool[random.index(self.pool.len())].clone();
                case.tables.insert(random.index(case.tables.len() + 1), table);
            }
            2 | 3 if !other.tables.is_empty() => {
                // the same table of another case
                let table = other.tables[random.index(other.tables.len())].clone();
                match case.tables.iter().position(|mine| mine.get(..4) == table.get(..4)) {
                    Some(at) => case.tables[at] = table,
                    None if case.tables.len() < 14 => case.tables.push(table),
                    None => {}
                }
            }
            _ => {
                let at = random.index(case.tables.len());
                damage(&mut case.tables[at], &self.pool, random);
            }
        }
    }
}

/// The table that begins with these bytes, if one does: its first bytes, and of AML those about the first sleep state.
fn table_at(bytes: &[u8]) -> Option<Vec<u8>> {
    let name = &bytes[..4];
    let is_name = name.iter().all(|letter| letter.is_ascii_uppercase() || letter.is_ascii_digit());
    let length = number(&bytes[4..8]) as usize;
    if !is_name || length < HEADER || length > bytes.len() || length >= 0x40000 || matches!(name, b"XSDT" | b"RSDT") {
        return None;
    }
    let table = &bytes[..length];
    let sum = table.iter().fold(0u8, |sum, byte| sum.wrapping_add(*byte));
    if sum != 0 && !(name == b"FACS" && length == 64) {
        return None;
    }
    let mut made = table.to_vec();
    if length > 500 && matches!(name, b"DSDT" | b"SSDT") {
        let from = table.windows(2).position(|two| two == b"_S").unwrap_or(HEADER + 8).max(HEADER + 8) - 8;
        made = [&table[..HEADER], &table[from..(from + 160).min(length)]].concat();
    }
    made.truncate(4000);
    Some(made)
}
