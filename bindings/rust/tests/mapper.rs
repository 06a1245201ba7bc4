//! Memory that is mapped on demand, and mailboxes that are.
mod common;
use common::{Memory, ROOT};
use std::cell::{Cell, RefCell};
use std::ptr::NonNull;
use zacpi::madt::Madt;
use zacpi::platform::wakeup_aps;
use zacpi::{
    AcpiError, AcpiHandler, AcpiTables, AddressRange, MadtError, MappedMailbox, Mapper, PhysicalMapper, fadt::Fadt,
};

const FADT: u64 = ROOT + 0x1000;
const DSDT: u64 = ROOT + 0x2ff0;
const RSDP: u64 = ROOT + 0x8ff8;
/// Where the root table lists a table and no memory is.
const NOWHERE: u64 = 0x4000_0000;

/// Memory that is mapped where it is, and what is mapped of it.
struct Pages<'m> {
    memory: &'m Memory,
    asked: RefCell<Vec<AddressRange>>,
    held: RefCell<Vec<(usize, AddressRange)>>,
}

impl<'m> Pages<'m> {
    fn new(memory: &'m Memory) -> Self {
        Pages { memory, asked: RefCell::default(), held: RefCell::default() }
    }
}

// SAFETY: the memory is borrowed, and nobody writes to it.
unsafe impl PhysicalMapper for &Pages<'_> {
    fn map(&self, range: AddressRange) -> Option<NonNull<u8>> {
        self.asked.borrow_mut().push(range);
        let from = range.address.checked_sub(ROOT)? as usize;
        let bytes = self.memory.bytes.get(from..from + range.length as usize)?;
        self.held.borrow_mut().push((bytes.as_ptr() as usize, range));
        NonNull::new(bytes.as_ptr().cast_mut())
    }

    unsafe fn unmap(&self, at: NonNull<u8>, range: AddressRange) {
        let mut held = self.held.borrow_mut();
        let index = held.iter().position(|item| *item == (at.as_ptr() as usize, range));
        held.remove(index.expect("it is mapped there"));
    }
}

/// The same by bytes.
struct Bytes<'m>(&'m Pages<'m>);

// SAFETY: as above.
unsafe impl PhysicalMapper for Bytes<'_> {
    const PAGE: u64 = 1;
    fn map(&self, range: AddressRange) -> Option<NonNull<u8>> {
        self.0.map(range)
    }
    unsafe fn unmap(&self, at: NonNull<u8>, range: AddressRange) {
        // SAFETY: the caller promised the same.
        unsafe { self.0.unmap(at, range) }
    }
}

/// An RSDP over the end of a page, the RSDT, a FADT, and a DSDT over the end of a page.
fn machine() -> Memory {
    let mut memory = Memory::rsdt(&[0, FADT, NOWHERE]);
    memory.table(FADT, "FACP", 1, 116, &[(40, 4, DSDT)]);
    memory.table(DSDT, "DSDT", 2, 40, &[]);
    memory.put(RSDP, &[(0, 8, u64::from_le_bytes(*b"RSD PTR ")), (16, 4, ROOT)]);
    memory.sum(RSDP, 20, 8);
    memory
}

fn pages(address: u64, count: u64) -> AddressRange {
    AddressRange { address, length: count * 0x1000 }
}

#[test]
fn maps_whole_pages_once() {
    let memory = machine();
    let held = Pages::new(&memory);
    let mut mapper = Mapper::new(&held);
    let tables = AcpiTables::from_rsdp(&mapper, RSDP).unwrap();
    assert_eq!(*held.asked.borrow(), [pages(RSDP & !0xfff, 2), pages(ROOT, 1)]);
    assert_eq!(tables.find_table::<Fadt>().unwrap().physical_start(), FADT);
    let dsdt = tables.dsdt().unwrap();
    assert_eq!((dsdt.address, dsdt.length), (DSDT + 36, 4));
    // A null pointer isn't mapped, and of the DSDT two pages are, since its header is over their border.
    assert_eq!(held.asked.borrow()[2..], [pages(FADT, 1), pages(DSDT & !0xfff, 2)]);
    // No MADT is listed. Where there is no memory nothing is mapped.
    assert_eq!(tables.find_table::<Madt>().err(), Some(AcpiError::TableMissing(zacpi::sdt::Signature::MADT)));
    assert_eq!(held.asked.borrow()[4..], [pages(NOWHERE, 1)]);
    let mut ranges = Vec::new();
    mapper.mapped(|range| ranges.push(range));
    assert_eq!(ranges.len(), 4);
    assert!(format!("{mapper:?}").starts_with("[AddressRange"), "{mapper:?}");
    assert_eq!(held.held.borrow().len(), 4);
    drop(tables);
    mapper.unmap_all();
    assert_eq!(held.held.borrow().len(), 0);
    // It is mapped again as it is needed.
    assert!(AcpiTables::from_rsdt(&mapper, 0, ROOT).is_ok());
    assert_eq!(mapper.mapper().held.borrow().len(), 1);
    drop(mapper);
    assert_eq!(held.held.borrow().len(), 0);
}

#[test]
fn maps_bytes_where_pages_have_one() {
    let memory = machine();
    let held = Pages::new(&memory);
    let mapper = Mapper::new(Bytes(&held));
    assert_eq!(mapper.map_physical_region(FADT, 36).map(<[u8]>::len), Ok(36));
    // 36 bytes of the 40 are mapped: the whole is mapped anew, and then serves both.
    assert_eq!(mapper.map_physical_region(FADT, 40).map(<[u8]>::len), Ok(40));
    assert_eq!(mapper.map_physical_region(FADT + 8, 30).map(<[u8]>::len), Ok(32));
    let asked = held.asked.borrow();
    assert_eq!(asked.iter().map(|range| (range.address, range.length)).collect::<Vec<_>>(), [(FADT, 36), (FADT, 40)]);
}

/// The last page ends at 2^64: no range has its end there.
#[test]
fn refuses_what_no_slice_has() {
    let memory = machine();
    let held = Pages::new(&memory);
    let mapper = Mapper::new(&held);
    let failed = Err(AcpiError::MapFailed);
    for (address, size) in [(u64::MAX - 0x1fff, 0x1001), (u64::MAX, 1), (0, 36), (ROOT, usize::MAX)] {
        assert_eq!(mapper.map_physical_region(address, size).map(<[u8]>::len), failed, "{address:#x} {size:#x}");
    }
    assert!(held.asked.borrow().is_empty());
    assert_eq!(mapper.map_physical_region(u64::MAX - 0x1fff, 1).map(<[u8]>::len), failed);
    assert_eq!(held.asked.borrow().len(), 1);
}

/// With capacity for one mapping, of which two are needed.
#[test]
fn needs_capacity_or_memory() {
    let memory = machine();
    let held = Pages::new(&memory);
    let mapper = Mapper::<_, 1>::with_capacity(&held);
    let opened = AcpiTables::from_rsdp(&mapper, RSDP).map(|tables| tables.revision());
    let (expected, count) = if cfg!(feature = "alloc") { (Ok(0), 2) } else { (Err(AcpiError::AllocError), 1) };
    assert_eq!((opened, held.held.borrow().len()), (expected, count));
    drop(mapper);
    assert_eq!(held.held.borrow().len(), 0);
}

const MADT: u64 = ROOT + 0x1000;
/// MailBoxAddress.
const MAILBOX: u64 = 0x7fe1_3000;
const ID: u32 = 0x0102_0307;
const VECTOR: u64 = 0x0d00_000b_0009_8000;

/// A MADT with a Multiprocessor Wakeup entry (section 5.2.12.19): MailBoxAddress is at 8.
fn mailbox_machine(address: u64) -> Memory {
    let mut memory = Memory::rsdt(&[MADT]);
    memory.table(MADT, "APIC", 5, 60, &[(44, 2, 0x1010), (52, 8, address)]);
    memory
}

#[repr(align(4096))]
struct Page([u8; 4096]);

/// Maps the mailbox to this page, and counts what is mapped.
struct OnePage(NonNull<u8>, Cell<usize>);

impl OnePage {
    fn new(page: &mut Page) -> Self {
        OnePage(NonNull::from(&mut page.0).cast(), Cell::new(0))
    }
}

// SAFETY: the page lives longer, and is no slice's meanwhile.
unsafe impl PhysicalMapper for OnePage {
    fn map(&self, range: AddressRange) -> Option<NonNull<u8>> {
        let is_mapped = range == pages(MAILBOX, 1);
        self.1.set(self.1.get() + usize::from(is_mapped));
        is_mapped.then_some(self.0)
    }
    unsafe fn unmap(&self, at: NonNull<u8>, range: AddressRange) {
        self.1.set(self.1.get() - 1);
        assert_eq!((at, range), (self.0, pages(MAILBOX, 1)));
    }
}

/// Wakes a processor by the mailbox of a machine, whose page is this.
fn wake(memory: &Memory, mapper: &OnePage, loops: u64) -> Result<(), AcpiError> {
    let held = Pages::new(memory);
    let handler = Mapper::new(&held);
    let tables = AcpiTables::from_rsdt(&handler, 0, ROOT).unwrap();
    // SAFETY: the page lives longer, and nobody else uses it but a firmware.
    let mut mailbox = unsafe { MappedMailbox::new(mapper) };
    let result = wakeup_aps(&tables, &mut mailbox, ID, VECTOR, loops);
    assert_eq!(format!("{mailbox:?}").contains("AddressRange"), mapper.1.get() == 1);
    result
}

/// Command 1 and two bytes that stay, ApicId, WakeupVector, the lowest byte first; 0xa5 after it.
fn written(command: u8) -> [u8; 4096] {
    let mut page = [0xa5; 4096];
    page[..2].copy_from_slice(&[command, 0]);
    page[4..16].copy_from_slice(&[0x07, 0x03, 0x02, 0x01, 0x00, 0x80, 0x09, 0, 0x0b, 0, 0, 0x0d]);
    page
}

#[test]
fn gives_up_after_so_many_reads() {
    let timeout = Err(AcpiError::InvalidMadt(MadtError::WakeupApsTimeout));
    for loops in [0, 1, 5] {
        let mut page = Page([0xa5; 4096]);
        let mapper = OnePage::new(&mut page);
        assert_eq!(wake(&mailbox_machine(MAILBOX), &mapper, loops), timeout);
        assert_eq!(mapper.1.get(), 0);
        assert!(page.0 == written(1));
    }
}

#[test]
fn wakes_by_a_firmware() {
    let mut page = Page([0xa5; 4096]);
    let mapper = OnePage::new(&mut page);
    let shared = mapper.0.as_ptr() as usize;
    let firmware = std::thread::spawn(move || {
        let command = shared as *mut u16;
        // SAFETY: the page lives until this has ended.
        unsafe {
            while command.read_volatile() != 1 {}
            let found = (command.add(2).cast::<u32>().read_volatile(), command.add(4).cast::<u64>().read_volatile());
            command.write_volatile(0);
            found
        }
    });
    assert_eq!(wake(&mailbox_machine(MAILBOX), &mapper, u64::MAX), Ok(()));
    assert_eq!(firmware.join().unwrap(), (ID, VECTOR));
    assert!(page.0 == written(0));
}

#[test]
fn needs_a_mailbox_that_can_be_mapped() {
    let mut page = Page([0xa5; 4096]);
    let mapper = OnePage::new(&mut page);
    let mut none = Memory::rsdt(&[MADT]);
    none.table(MADT, "APIC", 5, 44, &[]);
    assert_eq!(wake(&none, &mapper, 1), Err(AcpiError::InvalidMadt(MadtError::UnexpectedEntry)));
    for elsewhere in [MAILBOX + 0x1000, MAILBOX + 4, u64::MAX - 0xfff] {
        assert_eq!(wake(&mailbox_machine(elsewhere), &mapper, 1), Err(AcpiError::MapFailed), "{elsewhere:#x}");
    }
    assert_eq!(mapper.1.get(), 0);
    assert!(page.0 == [0xa5; 4096]);
}
