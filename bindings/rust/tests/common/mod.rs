//! Memory that tests lay out by hand, a field at a time: an offset is beside the name that the specification has
//! for its field.
#![allow(dead_code)]
pub mod writing;

use std::fmt::Debug;
use zacpi::address::{AccessSize, AddressSpace, GenericAddress};
use zacpi::handler::MappedRegion;
use zacpi::lists::records::Source;
use zacpi::lists::refusal::Refusal;
use zacpi::lists::regions::Region;
use zacpi::write::TableIds;
use zacpi::{AcpiTable, AcpiTables};

/// A field: its offset, its width in bytes, and its value, which is written its lowest byte first.
pub type Field = (usize, usize, u64);

/// A Generic Address Structure (section 5.2.3.2) at an offset: Address Space ID at 0, Register Bit Width at 1, Register
/// Bit Offset at 2, Access Size at 3, Address at 4.
pub fn generic(at: usize, space: u64, width: u64, offset: u64, access: u64, address: u64) -> [Field; 5] {
    [(at, 1, space), (at + 1, 1, width), (at + 2, 1, offset), (at + 3, 1, access), (at + 4, 8, address)]
}

/// A register of ports, as a field of 32 bits has it.
pub fn ports(address: u64, bit_width: u8) -> GenericAddress {
    let (address_space, access_size) = (AddressSpace::SystemIo, AccessSize::Undefined);
    GenericAddress { address_space, bit_width, bit_offset: 0, access_size, address }
}

/// Who made the tables of [`Memory`].
pub const IDS: TableIds = TableIds {
    oem_id: *b"OEMID ",
    oem_table_id: *b"HANDMADE",
    oem_revision: 1,
    creator_id: *b"TEST",
    creator_revision: 2,
};

/// Where root tables lie.
pub const ROOT: u64 = 0x10_0000;

/// 64 KiB of memory from [`ROOT`] on.
pub struct Memory {
    pub bytes: Vec<u8>,
}

pub type Tables<'h> = AcpiTables<'h, MappedRegion<'h>>;

impl Memory {
    pub fn new() -> Self {
        Memory { bytes: vec![0; 0x1_0000] }
    }

    /// An RSDT (section 5.2.7) at [`ROOT`] that lists addresses: its Entry fields begin at 36.
    pub fn rsdt(listed: &[u64]) -> Self {
        let mut memory = Memory::new();
        let fields: Vec<Field> = listed.iter().enumerate().map(|(n, at)| (36 + 4 * n, 4, *at)).collect();
        memory.table(ROOT, "RSDT", 1, 36 + 4 * listed.len(), &fields);
        memory
    }

    pub fn put(&mut self, address: u64, fields: &[Field]) {
        for &(at, width, value) in fields {
            let at = (address - ROOT) as usize + at;
            self.bytes[at..at + width].copy_from_slice(&value.to_le_bytes()[..width]);
        }
    }

    /// A table (section 5.2.6): Signature at 0, Length at 4, Revision at 8, Checksum at 9, OEMID at 10, OEM Table ID at
    /// 16; the others of the header's 36 bytes are zeros.
    pub fn table(&mut self, address: u64, signature: &str, revision: u64, length: usize, fields: &[Field]) {
        self.put(address, &[(4, 4, length as u64), (8, 1, revision)]);
        self.put(address, fields);
        let begin = (address - ROOT) as usize;
        self.bytes[begin..begin + 4].copy_from_slice(signature.as_bytes());
        self.bytes[begin + 10..begin + 24].copy_from_slice(b"OEMID HANDMADE");
        self.sum(address, length, 9);
    }

    /// Sets the byte at an offset so that so many bytes sum to 0 modulo 256.
    pub fn sum(&mut self, address: u64, length: usize, checksum_at: usize) {
        let begin = (address - ROOT) as usize;
        let bytes = &mut self.bytes[begin..begin + length];
        bytes[checksum_at] = 0;
        bytes[checksum_at] = bytes.iter().fold(0u8, |sum, byte| sum.wrapping_sub(*byte));
    }

    /// An RSDP (section 5.2.5.3) of revision 0, or of revision 2 if there is an XSDT: Checksum at 8, Revision at 15,
    /// RsdtAddress at 16, Length at 20, XsdtAddress at 24, Extended Checksum at 32.
    pub fn rsdp(&mut self, address: u64, rsdt: u64, xsdt: Option<u64>) {
        self.put(address, &[(0, 8, u64::from_le_bytes(*b"RSD PTR ")), (16, 4, rsdt)]);
        let Some(xsdt) = xsdt else { return self.sum(address, 20, 8) };
        self.put(address, &[(15, 1, 2), (20, 4, 36), (24, 8, xsdt)]);
        self.sum(address, 20, 8);
        self.sum(address, 36, 32);
    }

    pub fn handler(&self) -> MappedRegion<'_> {
        MappedRegion::new(ROOT, &self.bytes).unwrap()
    }

    /// Asks the tables below the RSDT.
    pub fn ask<T>(&self, ask: impl FnOnce(&Tables<'_>) -> T) -> T {
        ask(&AcpiTables::from_rsdt(&self.handler(), 0, ROOT).unwrap())
    }

    /// Asks the calls that need no heap about the tables below the RSDT.
    pub fn list<T>(&self, ask: impl FnOnce(&Source<'_>) -> T) -> T {
        let regions = [Region { address: ROOT, bytes: &self.bytes }];
        ask(&Source { regions: &regions, address: ROOT, start: 1, accept: 0 })
    }

    /// Asks the bytes of the first table of a type.
    pub fn bytes_of<A: AcpiTable, T>(&self, ask: impl FnOnce(&[u8]) -> T) -> T {
        self.ask(|tables| ask(tables.find_table::<A>().unwrap().bytes()))
    }
}

/// A memory of one table at this address.
pub const TABLE: u64 = ROOT + 0x1000;

pub fn with(signature: &str, revision: u64, length: usize, fields: &[Field]) -> Memory {
    let mut memory = Memory::rsdt(&[TABLE]);
    memory.table(TABLE, signature, revision, length, fields);
    memory
}

/// The items that a call writes into a slice of so many, and how many it says that there are.
pub fn filled<T: Copy + Default>(
    capacity: usize,
    call: impl FnOnce(&mut [T]) -> Result<usize, Refusal>,
) -> Result<(Vec<T>, usize), Refusal> {
    let mut items = vec![T::default(); capacity];
    let count = call(&mut items)?;
    items.truncate(count);
    Ok((items, count))
}

/// All items that a call lists, of at most 64.
pub fn all<T: Copy + Default>(call: impl FnOnce(&mut [T]) -> Result<usize, Refusal>) -> Result<Vec<T>, Refusal> {
    filled(64, call).map(|(items, _)| items)
}

/// A value's name and its fields in the order of their declaration, numbers in hexadecimal, without those that are
/// reserved, which are 0. An error has its text.
pub fn plain(value: impl Debug) -> String {
    let text = without_reserved(format!("{value:#x?}"));
    let mut lines = text.lines().map(|line| line.trim().trim_end_matches(','));
    let name = lines.next().unwrap_or("").trim_end_matches(['{', '(', '[', ' ']);
    let fields = lines.map(|line| line.rsplit(": ").next().unwrap_or(line));
    let values = fields.filter(|field| !field.ends_with(['{', '(', '[', '}', ')', ']']) || field.ends_with("[]"));
    values.fold(name.to_string(), |all, value| all + " " + value.trim_start_matches("0x"))
}

fn without_reserved(text: String) -> String {
    let mut parts = text.split("reserved");
    let first = parts.next().unwrap_or("").to_string();
    parts.fold(first, |all, part| {
        let last = if part.lines().next().unwrap().ends_with('[') { "],\n" } else { ",\n" };
        let (value, rest) = part.split_once(last).unwrap();
        assert!(value.split("0x").skip(1).all(|digits| digits.starts_with('0')), "reserved{value}");
        all + rest
    })
}

/// The same of each.
pub fn plains<T: Debug>(values: impl IntoIterator<Item = T>) -> Vec<String> {
    values.into_iter().map(plain).collect()
}
