//! Tables that tests write and read back.
use super::{IDS, ROOT, TABLE, Tables};
use zacpi::AcpiTables;
use zacpi::handler::MappedRegion;
use zacpi::lists::records::Source;
use zacpi::lists::regions::Region;
use zacpi::lists::writing::{self, Contents};
use zacpi::sdt::Signature;
use zacpi::write::{WriterError, write_xsdt};

/// A table of this size that is written below an XSDT.
pub fn written<E: std::fmt::Debug + PartialEq + From<WriterError>>(
    size: usize,
    write: impl Fn(&mut [u8]) -> Result<usize, E>,
) -> Written {
    let mut memory = vec![0x5a; 0x1000 + size + 1];
    assert_eq!(write_xsdt(&mut memory, &IDS, &[TABLE]), Ok(44));
    assert_eq!(fails(&write, size - 1), E::from(WriterError::NoRoom));
    assert_eq!(write(&mut memory[0x1000..]), Ok(size));
    assert_eq!(memory.last(), Some(&0x5a));
    Written(memory)
}

pub struct Written(Vec<u8>);

impl Written {
    /// Asks the tables, and the calls without a heap.
    pub fn ask(&self, ask: impl FnOnce(&Tables<'_>, &Source<'_>)) {
        let handler = MappedRegion::new(ROOT, &self.0).unwrap();
        let regions = [Region { address: ROOT, bytes: &self.0 }];
        let source = Source { regions: &regions, address: ROOT, start: 2, accept: 0 };
        ask(&AcpiTables::from_rsdt(&handler, 2, ROOT).ok().unwrap(), &source);
    }
}

/// The error of writing to so many bytes, which are as they were then.
pub fn fails<E: std::fmt::Debug>(write: impl Fn(&mut [u8]) -> Result<usize, E>, length: usize) -> E {
    let mut memory = vec![0x5a; length];
    let error = write(&mut memory).unwrap_err();
    assert!(memory.iter().all(|byte| *byte == 0x5a), "{error:?}");
    error
}

/// What is written again of the records that were read is the same table.
pub fn again(tables: &Tables<'_>, signature: Signature, contents: Contents<'_>) {
    let table = tables.find_sdt(signature).ok().unwrap();
    written(table.region_length(), |out| writing::write_contents(out, &IDS, &contents)).ask(|again, _| {
        assert_eq!(again.find_sdt(signature).ok().unwrap().bytes(), table.bytes());
    });
}
