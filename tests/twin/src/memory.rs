//! Memory that another process may share (child.rs), at addresses below 2^32, and in it regions, of which each ends
//! where the next byte can't be touched.

use crate::child::Child;
use std::sync::atomic::{AtomicUsize, Ordering::Relaxed};

pub const HEADER: usize = 36; // of a table

#[repr(C)]
#[derive(Clone, Copy)]
struct Region {
    address: u64,
    bytes: usize,
    length: usize,
}

const SLOTS: usize = 40;
const SLOT: usize = 0x2_1000; // with a page at its end that can't be touched
const HUGE: usize = (1 << 32) + 0x10_0000;
const PAGE: usize = 0x1000;
/// Where the memory is that is shared, and how much: child.c has it there too.
const SHARED: usize = 0x2000_0000;
const SHARED_LENGTH: usize = 0x100_0000;

unsafe extern "C" {
    fn mmap(at: usize, length: usize, protection: i32, flags: i32, file: i32, offset: i64) -> *mut u8;
    fn mprotect(at: *mut u8, length: usize, protection: i32) -> i32;
    fn memfd_create(name: *const u8, flags: u32) -> i32;
    fn ftruncate(file: i32, length: i64) -> i32;
}

/// The file of the memory, which a process that is started has open, and how much of it is taken.
static FILE: AtomicUsize = AtomicUsize::new(0);
static TAKEN: AtomicUsize = AtomicUsize::new(0);

pub fn file() -> usize {
    if FILE.load(Relaxed) == 0 {
        let file = unsafe { memfd_create(c"twin".as_ptr() as *const u8, 0) };
        assert!(file > 0 && unsafe { ftruncate(file, SHARED_LENGTH as i64) } == 0);
        let at = unsafe { mmap(SHARED, SHARED_LENGTH, 3, 0x10_0001, file, 0) };
        assert!(at as usize == SHARED);
        FILE.store(file as usize, Relaxed);
    }
    FILE.load(Relaxed)
}

/// Whole pages of it, of zeros.
pub fn shared(length: usize) -> *mut u8 {
    file();
    let at = TAKEN.fetch_add(length.next_multiple_of(PAGE), Relaxed);
    assert!(at + length <= SHARED_LENGTH);
    (SHARED + at) as *mut u8
}

pub struct Memory {
    slots: *mut u8,
    list: *mut Region,
    huge: *mut u8, // more than 4 GiB, as a kernel has all memory mapped; the system has pages for what is touched
    huge_top: usize,
    regions: Vec<Region>,
    kept: Vec<Vec<u8>>,
}

impl Memory {
    pub fn new(child: &mut Option<Child>) -> Memory {
        let slots = shared(SLOTS * SLOT);
        for i in 0..SLOTS {
            let last = unsafe { slots.add(i * SLOT + SLOT - PAGE) };
            assert!(unsafe { mprotect(last, PAGE, 0) } == 0);
            child.iter_mut().for_each(|child| child.protect(last as u64, PAGE as u64));
        }
        // anonymous, without a reserve
        let huge = unsafe { mmap(0, HUGE, 3, 0x4022, -1, 0) };
        assert!(huge as usize != usize::MAX);
        let list = shared(SLOTS * size_of::<Region>()) as *mut Region;
        Memory { slots, list, huge, huge_top: 0, regions: Vec::new(), kept: Vec::new() }
    }

    pub fn clear(&mut self) {
        self.regions.clear();
        self.kept.clear();
    }

    /// Where the regions are, and how many.
    pub fn list(&self) -> (u64, u64) {
        let count = self.regions.len();
        unsafe { std::ptr::copy_nonoverlapping(self.regions.as_ptr(), self.list, count) };
        (if count == 0 { 16 } else { self.list as u64 }, count as u64)
    }

    /// One region more, if there is a place for it.
    pub fn map(&mut self, address: u64, bytes: Vec<u8>) {
        let (slot, length) = (self.regions.len(), bytes.len());
        if slot == SLOTS || length > SLOT - PAGE {
            return;
        }
        let to = unsafe { self.slots.add(slot * SLOT + SLOT - PAGE - length) };
        unsafe { std::ptr::copy_nonoverlapping(bytes.as_ptr(), to, length) };
        self.regions.push(Region { address, bytes: to as usize, length });
        self.kept.push(bytes);
    }

    /// A region of more than 4 GiB that begins with these bytes.
    pub fn map_huge(&mut self, address: u64, bytes: Vec<u8>, more: usize) {
        let top = self.huge_top.max(bytes.len());
        unsafe {
            std::ptr::write_bytes(self.huge, 0, top);
            std::ptr::copy_nonoverlapping(bytes.as_ptr(), self.huge, bytes.len());
        }
        self.huge_top = bytes.len();
        self.regions.push(Region { address, bytes: self.huge as usize, length: (1 << 32) + more });
        self.kept.push(bytes);
    }

    /// Whether the bytes aren't what they were.
    pub fn changed(&self) -> bool {
        self.regions.iter().zip(&self.kept).any(|(region, kept)| {
            kept[..] != *unsafe { std::slice::from_raw_parts(region.bytes as *const u8, kept.len()) }
        })
    }
}
