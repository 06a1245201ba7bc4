//! The kernels whose changes the README shows.
#![cfg(feature = "alloc")]
#![allow(unsafe_code, dead_code, clippy::unnecessary_cast)] // casts that the crate acpi needs stay

extern crate zacpi as acpi;

/// The start of a kernel, as it is in `kernel/zacpi.rs`.
mod start {
    /// Where the kernel has mapped physical memory: an address of it that isn't memory may have no sum with it.
    const PHYSICAL_MEMORY: u64 = 0xffff_8000_0000_0000;

    /// Whether the loader's memory map has these bytes: this machine has no memory.
    fn is_memory(_: u64, _: usize) -> bool {
        false
    }

    pub struct Kernel;

    impl Kernel {
        fn local_apic(&mut self, _: u64) {}
        fn io_apic(&mut self, _: u8, _: u32, _: u32) {}
        fn route(&mut self, _: u8, _: u32, _: bool, _: bool) {}
        fn start_processor(&mut self, _: u32) {}
        fn hpet(&mut self, _: u64, _: bool) {}
        fn pci(&mut self, _: u64) {}
        fn fixed_hardware(&mut self, _: u32, _: u64) {}
        fn aml(&mut self, _: u64, _: u32) {}
    }

    include!("kernel/zacpi.rs");

    #[test]
    fn a_kernel_without_memory_finds_no_tables() {
        for rsdp in [0xf0000, usize::MAX] {
            assert_eq!(start(&mut Kernel, rsdp), Err(AcpiError::MapFailed));
        }
    }
}

/// Every public item of `acpi` 5.2.
#[rustfmt::skip]
mod every_item {
    include!("kernel/every_item.rs");

    #[test]
    fn the_errors_that_are_new_are_these() {
        let new = [AcpiError::MapFailed, AcpiError::InvalidMadt(MadtError::InvalidEntryLength)];
        assert!(new.into_iter().all(|error| !is_known(error)));
        assert!(signatures().into_iter().all(|it| is_known(AcpiError::TableMissing(it))));
    }
}
