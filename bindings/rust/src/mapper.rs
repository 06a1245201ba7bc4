//! Memory that is mapped on demand, by a kernel's own way of mapping it. All `unsafe` code of the package is here.
#![allow(unsafe_code)]

use crate::handler::AcpiHandler;
use crate::platform::Mailbox;
use crate::{AcpiError, AcpiResult, AddressRange};
use core::cell::RefCell;
use core::fmt;
use core::ptr::NonNull;

/// How a kernel maps physical memory that it hasn't mapped already.
///
/// ```
/// use core::ptr::NonNull;
/// use zacpi::{AddressRange, PhysicalMapper};
///
/// /// A kernel that has the first 4 GiB mapped from an address on.
/// struct Direct(u64);
///
/// // SAFETY: what is below 4 GiB stays mapped there, and nobody writes to the memory of tables.
/// unsafe impl PhysicalMapper for Direct {
///     fn map(&self, range: AddressRange) -> Option<NonNull<u8>> {
///         // A firmware's address can't be trusted: the kernel's memory map decides.
///         let is_memory = range.address < 1 << 32 && range.length <= (1 << 32) - range.address;
///         is_memory.then(|| self.0 + range.address).and_then(|at| NonNull::new(at as *mut u8))
///     }
///     unsafe fn unmap(&self, _: NonNull<u8>, _: AddressRange) {}
/// }
///
/// // Nothing else is added to the kernel's address: in the upper half the sum would be above 2^64 - 1.
/// let range = AddressRange { address: 0xffff_ffff_ffff_f000, length: 4096 };
/// assert_eq!(Direct(0xffff_8000_0000_0000).map(range), None);
/// ```
///
/// # Safety
///
/// The bytes of a range for which `map` returns a pointer can be read from there on until the pointer is passed to
/// `unmap`, also after the mapper was moved, and nobody writes to them meanwhile: neither the firmware nor another
/// processor.
pub unsafe trait PhysicalMapper {
    /// Ranges begin and end at multiples of it. 1 is enough where `map` makes a copy.
    const PAGE: u64 = 4096;

    /// Returns where the first byte of a range is mapped, or of a copy, or `None` if it isn't memory by the loader's map
    /// or can't be mapped. A range may overlap others that are mapped at the time, so a byte may be mapped twice.
    fn map(&self, range: AddressRange) -> Option<NonNull<u8>>;

    /// Unmaps a range.
    ///
    /// # Safety
    ///
    /// `map` returned the pointer for this range, it wasn't passed to `unmap` since, and nobody reads from there any
    /// more.
    unsafe fn unmap(&self, at: NonNull<u8>, range: AddressRange);
}

/// A range that is mapped, and where.
#[derive(Clone, Copy)]
struct Mapping {
    at: NonNull<u8>,
    range: AddressRange,
}

impl Mapping {
    /// How many of its bytes are before an address, if at least `size` are from there on.
    fn offset_of(&self, address: u64, size: usize) -> Option<usize> {
        let offset = address.checked_sub(self.range.address)?;
        let left = self.range.length.checked_sub(offset)?;
        (size as u64 <= left).then_some(offset as usize)
    }
}

/// What is mapped: as many mappings as there is capacity for, and with the feature `alloc` more of them.
struct Mappings<const CAPACITY: usize> {
    first: [Option<Mapping>; CAPACITY],
    #[cfg(feature = "alloc")]
    more: rust_alloc::vec::Vec<Mapping>,
}

impl<const CAPACITY: usize> Mappings<CAPACITY> {
    const fn new() -> Self {
        Mappings {
            first: [None; CAPACITY],
            #[cfg(feature = "alloc")]
            more: rust_alloc::vec::Vec::new(),
        }
    }

    fn iter(&self) -> impl Iterator<Item = &Mapping> {
        let first = self.first.iter().flatten();
        #[cfg(feature = "alloc")]
        let first = first.chain(&self.more);
        first
    }

    /// Adds one, if there is capacity or memory for it.
    fn add(&mut self, mapping: Mapping) -> Option<()> {
        if let Some(free) = self.first.iter_mut().find(|place| place.is_none()) {
            *free = Some(mapping);
            return Some(());
        }
        #[cfg(feature = "alloc")]
        if self.more.try_reserve(1).is_ok() {
            self.more.push(mapping);
            return Some(());
        }
        None
    }
}

/// A handler that maps memory as it is needed, in whole pages, by a kernel's mapper. What is mapped stays so until
/// `unmap_all`, or until the handler is dropped: nothing that was read from it is left then. What is mapped already isn't
/// mapped again. The address 0 is a null pointer of the firmware's, and never mapped.
///
/// It has capacity for so many mappings, of which a table needs one, or two if it isn't inside of one page. If more are
/// needed they are in the memory of the feature `alloc`; if that can't be had, a request fails with
/// [`AllocError`](AcpiError::AllocError).
pub struct Mapper<M: PhysicalMapper, const CAPACITY: usize = 64> {
    mapper: M,
    mappings: RefCell<Mappings<CAPACITY>>,
}

impl<M: PhysicalMapper> Mapper<M> {
    /// A handler by a mapper, with capacity for 64 mappings.
    pub const fn new(mapper: M) -> Self {
        Mapper::with_capacity(mapper)
    }
}

impl<M: PhysicalMapper, const CAPACITY: usize> Mapper<M, CAPACITY> {
    /// A handler by a mapper.
    pub const fn with_capacity(mapper: M) -> Self {
        Mapper { mapper, mappings: RefCell::new(Mappings::new()) }
    }

    /// The mapper.
    pub fn mapper(&self) -> &M {
        &self.mapper
    }

    /// The ranges that are mapped.
    pub fn mapped(&self, mut see: impl FnMut(AddressRange)) {
        self.mappings.borrow().iter().for_each(|mapping| see(mapping.range));
    }

    /// Unmaps all that is mapped. What is needed later is mapped again.
    pub fn unmap_all(&mut self) {
        // If the mapper panics then the rest isn't unmapped, and so nothing twice.
        for mapping in core::mem::replace(self.mappings.get_mut(), Mappings::new()).iter() {
            // SAFETY: the mapper mapped it there, it is in the list no more, and no reference to it is left, since each is
            // borrowed from this handler.
            unsafe { self.mapper.unmap(mapping.at, mapping.range) };
        }
    }

    /// The bytes from an address to the end of a mapping that has `size` of them.
    fn held(&self, address: u64, size: usize) -> Option<&[u8]> {
        let mappings = self.mappings.borrow();
        let (mapping, offset) =
            mappings.iter().find_map(|mapping| Some((*mapping, mapping.offset_of(address, size)?)))?;
        let length = mapping.range.length as usize - offset;
        // SAFETY: the range is mapped there, as `PhysicalMapper` promises, and `offset` is inside of it. It stays mapped as
        // long as this is borrowed, since nothing is unmapped but by `unmap_all`.
        Some(unsafe { core::slice::from_raw_parts(mapping.at.as_ptr().add(offset), length) })
    }

    /// Maps the pages of a range.
    fn map_pages(&self, address: u64, size: usize) -> AcpiResult<()> {
        let range = pages_of(address, size as u64, M::PAGE).filter(|_| address != 0).ok_or(AcpiError::MapFailed)?;
        let at = self.mapper.map(range).ok_or(AcpiError::MapFailed)?;
        let added = self.mappings.borrow_mut().add(Mapping { at, range });
        if added.is_none() {
            // SAFETY: it was mapped there just now, and nobody read it.
            unsafe { self.mapper.unmap(at, range) };
        }
        added.ok_or(AcpiError::AllocError)
    }
}

/// The pages of a range, if they end below 2^64 and are as many bytes as a slice may have.
fn pages_of(address: u64, length: u64, page: u64) -> Option<AddressRange> {
    let page = page.max(1);
    let low = address - address % page;
    let end = address.checked_add(length.max(1))?.checked_next_multiple_of(page)?;
    isize::try_from(end - low).ok()?;
    Some(AddressRange { address: low, length: end - low })
}

impl<M: PhysicalMapper, const CAPACITY: usize> AcpiHandler for Mapper<M, CAPACITY> {
    fn map_physical_region(&self, address: u64, size: usize) -> AcpiResult<&[u8]> {
        if let Some(bytes) = self.held(address, size) {
            return Ok(bytes);
        }
        self.map_pages(address, size)?;
        self.held(address, size).ok_or(AcpiError::MapFailed)
    }

    /// Does nothing: what is mapped stays so.
    fn unmap_physical_region(&self, _address: u64, _region_length: usize, _mapped_length: usize) {}
}

impl<M: PhysicalMapper, const CAPACITY: usize> Drop for Mapper<M, CAPACITY> {
    fn drop(&mut self) {
        self.unmap_all();
    }
}

impl<M: PhysicalMapper, const CAPACITY: usize> fmt::Debug for Mapper<M, CAPACITY> {
    fn fmt(&self, f: &mut fmt::Formatter<'_>) -> fmt::Result {
        f.debug_list().entries(self.mappings.borrow().iter().map(|mapping| mapping.range)).finish()
    }
}

/// How many bytes a Multiprocessor Wakeup Mailbox has (section 5.2.12.19).
const MAILBOX_LENGTH: u64 = 4096;

/// The Multiprocessor Wakeup Mailbox of a machine (section 5.2.12.19), mapped while this lives, for
/// [`wakeup_aps`](crate::platform::wakeup_aps).
pub struct MappedMailbox<'m, M: PhysicalMapper> {
    mapper: &'m M,
    opened: Option<(Mapping, NonNull<u8>)>,
}

impl<'m, M: PhysicalMapper> MappedMailbox<'m, M> {
    /// A mailbox that is mapped when it is opened. Opening fails with `MapFailed` if it can't be, or not to a multiple of
    /// 8.
    ///
    /// # Safety
    ///
    /// What the mapper returns for the mailbox's pages is that memory itself and no copy, can be written, and contains no
    /// bytes of a slice or another value. Nobody but the firmware writes the mailbox meanwhile.
    pub unsafe fn new(mapper: &'m M) -> Self {
        MappedMailbox { mapper, opened: None }
    }

    /// Unmaps the mailbox that is open.
    fn close(&mut self) {
        if let Some((mapping, _)) = self.opened.take() {
            // SAFETY: the mapper mapped it there, and it is read no more.
            unsafe { self.mapper.unmap(mapping.at, mapping.range) };
        }
    }

    /// Where a field of the open mailbox is.
    fn field<T>(&self, offset: usize) -> NonNull<T> {
        let (_, at) = self.opened.expect("a mailbox is opened first");
        // SAFETY: the mailbox is mapped there, and each field is inside of it.
        unsafe { at.add(offset).cast() }
    }
}

/// `Command` is at 0, `ApicId` at 4 and `WakeupVector` at 8. Writing and reading panic unless it is open.
impl<M: PhysicalMapper> Mailbox for MappedMailbox<'_, M> {
    fn open(&mut self, address: u64) -> AcpiResult<()> {
        let range = pages_of(address, MAILBOX_LENGTH, M::PAGE).ok_or(AcpiError::MapFailed)?;
        let at = self.mapper.map(range).ok_or(AcpiError::MapFailed)?;
        let mapping = Mapping { at, range };
        // SAFETY: the mailbox is in these pages.
        let mailbox = unsafe { at.add((address - range.address) as usize) };
        if !mailbox.cast::<u64>().is_aligned() {
            // SAFETY: it was mapped there just now, and nobody read it.
            unsafe { self.mapper.unmap(at, range) };
            return Err(AcpiError::MapFailed);
        }
        self.close();
        self.opened = Some((mapping, mailbox));
        Ok(())
    }

    fn write_command(&mut self, command: u16) {
        // SAFETY: as the caller of `new` promised, it can be written; it is aligned.
        unsafe { self.field::<u16>(0).write_volatile(command) };
    }

    fn write_apic_id(&mut self, id: u32) {
        // SAFETY: as above.
        unsafe { self.field::<u32>(4).write_volatile(id) };
    }

    fn write_wakeup_vector(&mut self, vector: u64) {
        // SAFETY: as above.
        unsafe { self.field::<u64>(8).write_volatile(vector) };
    }

    fn read_command(&mut self) -> u16 {
        // SAFETY: as above.
        unsafe { self.field::<u16>(0).read_volatile() }
    }
}

impl<M: PhysicalMapper> Drop for MappedMailbox<'_, M> {
    fn drop(&mut self) {
        self.close();
    }
}

impl<M: PhysicalMapper> fmt::Debug for MappedMailbox<'_, M> {
    fn fmt(&self, f: &mut fmt::Formatter<'_>) -> fmt::Result {
        f.debug_tuple("MappedMailbox").field(&self.opened.map(|(mapping, _)| mapping.range)).finish()
    }
}
