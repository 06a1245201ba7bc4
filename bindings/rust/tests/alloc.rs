//! Memory of an allocator: vectors of a fixed capacity, slices and their items, and what fails where a limit is
//! reached.
#![cfg_attr(feature = "allocator_api", feature(allocator_api))]
mod common;
use common::{Memory, ROOT};
#[cfg(feature = "allocator_api")]
use std::alloc::Layout;
use std::cell::Cell;
#[cfg(feature = "allocator_api")]
use std::ptr::NonNull;
use zacpi::alloc::{AllocError, Allocator, Global, TryClone, Vec};
use zacpi::platform::interrupt::InterruptModel;
use zacpi::{AcpiError, AcpiHandler, AcpiResult, AcpiTables, ManagedSlice, PlatformInfo};

/// So many bytes of the global allocator's memory, and how many of them are taken.
struct Limit(usize, Cell<usize>);

impl Limit {
    fn new(bytes: usize) -> Self {
        Limit(bytes, Cell::new(0))
    }
}

impl Limit {
    fn take_bytes(&self, size: usize) -> Result<(), AllocError> {
        let taken = self.1.get() + size;
        if taken > self.0 {
            return Err(AllocError);
        }
        self.1.set(taken);
        Ok(())
    }

    fn give_bytes(&self, size: usize) {
        self.1.set(self.1.get().checked_sub(size).expect("it was taken"));
    }
}

#[cfg(not(feature = "allocator_api"))]
impl Allocator for Limit {
    fn take(&self, size: usize) -> Result<(), AllocError> {
        self.take_bytes(size)
    }

    fn give(&self, size: usize) {
        self.give_bytes(size);
    }
}

// SAFETY: the blocks are the global allocator's.
#[cfg(feature = "allocator_api")]
unsafe impl Allocator for Limit {
    fn allocate(&self, layout: Layout) -> Result<NonNull<[u8]>, AllocError> {
        self.take_bytes(layout.size())?;
        Global.allocate(layout)
    }

    unsafe fn deallocate(&self, at: NonNull<u8>, layout: Layout) {
        self.give_bytes(layout.size());
        // SAFETY: the caller promised the same.
        unsafe { Global.deallocate(at, layout) }
    }
}

#[test]
fn has_a_fixed_capacity() {
    let limit = Limit::new(16);
    let mut vec = Vec::with_capacity(&limit, 4).unwrap();
    (0..4u32).for_each(|item| vec.push_reserved(item));
    assert_eq!((vec.as_slice(), vec.iter().sum::<u32>(), limit.1.get()), (&[0, 1, 2, 3][..], 6, 16));
    vec.as_mut_slice()[0] = 7;
    vec[1] = 8;
    assert_eq!(format!("{vec:?}"), "[7, 8, 2, 3]");
    // Nothing is left for a copy, also of one item.
    assert_eq!(vec.try_clone().err(), Some(AllocError));
    assert_eq!(Vec::from_clones(&limit, &[1u8]).err(), Some(AllocError));
    assert_eq!((vec.allocator().0, (&vec).into_iter().count()), (16, 4));
    drop(vec);
    assert_eq!(limit.1.get(), 0);
    assert_eq!(Vec::<u32, _>::new(&limit).len(), 0);
    assert_eq!(Vec::<u64, _>::with_capacity(&limit, usize::MAX).err(), Some(AllocError));
    assert_eq!(Vec::from_elem(Global, 3u8, 3).unwrap().as_slice(), [3; 3]);
    assert_eq!((format!("{AllocError}"), limit.1.get()), ("memory allocation failed".into(), 0));
}

#[test]
#[should_panic(expected = "a vector is full")]
fn takes_no_more_than_its_capacity() {
    let mut vec = Vec::with_capacity(Global, 1).unwrap();
    (0..9u8).for_each(|item| vec.push_reserved(item));
}

#[test]
fn is_a_slice() {
    let mut slice = ManagedSlice::new(3, 5u16).unwrap();
    slice[1] = 6;
    for item in &mut slice {
        *item += 1;
    }
    assert_eq!((slice.len(), slice.iter().max(), format!("{slice:?}")), (3, Some(&7), "[6, 7, 6]".into()));
    assert_eq!((&slice).into_iter().count(), 3);
    assert_eq!(slice.try_clone().unwrap().as_slice(), slice.as_slice());
}

/// Sevens, of which one is a nine afterwards: a clone that was made before has sevens.
#[test]
fn a_clone_keeps_what_is_written_over() {
    for (count, place) in [(3, 1), (0, 0), (5000, 4999)] {
        let mut written = vec![7u8; count];
        let mut slice = ManagedSlice::new(count, 7u8).unwrap();
        assert_eq!(slice.as_slice(), written);
        let clone = slice.try_clone().unwrap();
        if count > 0 {
            (slice.as_mut_slice()[place], written[place]) = (9, 9);
        }
        assert_eq!((slice.as_slice(), clone.as_slice()), (&written[..], &vec![7; count][..]));
    }
}

/// An item that counts how many of its kind there are.
struct Counted<'c>(&'c Cell<u32>);

impl<'c> Counted<'c> {
    fn new(alive: &'c Cell<u32>) -> Self {
        alive.set(alive.get() + 1);
        Counted(alive)
    }
}

impl Clone for Counted<'_> {
    fn clone(&self) -> Self {
        Counted::new(self.0)
    }
}

impl Drop for Counted<'_> {
    fn drop(&mut self) {
        self.0.set(self.0.get() - 1);
    }
}

/// How many items there are after a slice is made, after it is cloned, after it is dropped, and after the clone is.
#[test]
fn each_item_is_dropped_once() {
    let alive = Cell::new(0);
    for count in [5, 0, 5000] {
        let slice = ManagedSlice::new(count as usize, Counted::new(&alive)).unwrap();
        let made = alive.get();
        let clone = slice.try_clone().unwrap();
        let cloned = alive.get();
        drop(slice);
        let left = alive.get();
        drop(clone);
        assert_eq!([made, cloned, left, alive.get()], [count, 2 * count, count, 0]);
    }
    // If there is no memory for them, the value goes too.
    let refused = ManagedSlice::new_in(5, Counted::new(&alive), &Limit::new(0)).err();
    assert_eq!((refused, alive.get()), (Some(AcpiError::AllocError), 0));
}

#[test]
fn a_limit_that_is_too_low_refuses_and_stays_unused() {
    let limit = Limit::new(64);
    assert_eq!(ManagedSlice::new_in(64, 7u64, &limit).err(), Some(AcpiError::AllocError));
    assert_eq!(limit.1.get(), 0);
    // There is room for one of 64 bytes, and then none for a clone.
    let whole = ManagedSlice::new_in(8, 7u64, &limit).unwrap();
    assert_eq!((limit.1.get(), whole.try_clone().err(), limit.1.get()), (64, Some(AllocError), 64));
    assert_eq!(whole.as_slice(), [7; 8]);
    drop(whole);
    assert_eq!(limit.1.get(), 0);
}

#[test]
fn no_items_need_no_memory() {
    let limit = Limit::new(16);
    let all = ManagedSlice::new_in(16, 7u8, &limit).unwrap();
    assert_eq!((limit.1.get(), all.len()), (16, 16));
    let none = ManagedSlice::new_in(0, 7u64, &limit).unwrap();
    assert_eq!((none.len(), none.try_clone().map(|clone| clone.len())), (0, Ok(0)));
    assert_eq!(ManagedSlice::new_in(1, 7u64, &limit).err(), Some(AcpiError::AllocError));
}

/// A FADT (section 5.2.9) and a MADT (section 5.2.12) of two Processor Local APICs and an I/O APIC (section 5.2.12.3).
fn machine() -> Memory {
    let (fadt, madt) = (ROOT + 0x1000, ROOT + 0x2000);
    let mut memory = Memory::rsdt(&[fadt, madt]);
    memory.table(fadt, "FACP", 1, 116, &[]);
    let entries = [(44, 2, 0x800), (46, 2, 0x101), (48, 4, 1), (52, 2, 0x800), (54, 2, 0x202), (56, 4, 1)];
    let io_apic = [(60, 2, 0xc01), (62, 1, 9), (64, 4, 0xfec0_0000)];
    memory.table(madt, "APIC", 4, 72, &[&entries[..], &io_apic].concat());
    memory
}

/// The platform is gathered in an allocator's memory, which is free again after it, and needs all that it has.
#[test]
fn gathers_in_an_allocators_memory() {
    machine().ask(|tables| {
        let needed = Limit::new(usize::MAX);
        let platform = tables.platform_info_in(&needed).unwrap();
        let bytes = needed.1.get();
        let InterruptModel::Apic(apic) = &platform.interrupt_model else { panic!("{platform:?}") };
        assert_eq!((apic.io_apics.len(), apic.io_apics[0].id, bytes > 0), (1, 9, true));
        let copy: PlatformInfo<&Limit> = platform.try_clone().unwrap();
        assert_eq!((needed.1.get(), format!("{copy:?}")), (2 * bytes, format!("{platform:?}")));
        drop((platform, copy));
        assert_eq!(needed.1.get(), 0);
        assert!(tables.platform_info_in(&Limit::new(bytes)).is_ok());
        let short = Limit::new(bytes - 1);
        assert_eq!(tables.platform_info_in(&short).err(), Some(AcpiError::AllocError));
        assert_eq!(short.1.get(), 0);
    });
}

/// A handler that returns fewer bytes than are requested.
struct Short<'m>(&'m Memory, usize);

impl AcpiHandler for Short<'_> {
    fn map_physical_region(&self, address: u64, size: usize) -> AcpiResult<&[u8]> {
        let at = (address - ROOT) as usize;
        Ok(&self.0.bytes[at..at + size.min(self.1)])
    }
    fn unmap_physical_region(&self, _: u64, _: usize, _: usize) {}
}

#[test]
fn a_handler_that_maps_too_little_is_an_error() {
    let memory = machine();
    for most in [0, 4, 35, 43] {
        let opened = AcpiTables::from_rsdt(&Short(&memory, most), 0, ROOT).map(|tables| tables.revision());
        assert_eq!(opened, Err(AcpiError::MapFailed), "{most}");
    }
    let handler = Short(&memory, 100);
    let tables = AcpiTables::from_rsdt(&handler, 0, ROOT).unwrap();
    // Of the MADT, of 72 bytes, all are mapped, and of the FADT, of 116, not.
    assert!(tables.find_table::<zacpi::madt::Madt>().is_ok() && tables.find_fadt().is_err());
}
