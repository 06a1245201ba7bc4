#![doc = include_str!("../README.md")]
#![no_std]
#![cfg_attr(feature = "allocator_api", feature(allocator_api))]
#![deny(missing_debug_implementations, missing_docs, unnameable_types, unsafe_code, unsafe_op_in_unsafe_fn)]

#[cfg(any(feature = "alloc", feature = "allocator_api"))]
extern crate alloc as rust_alloc;
#[cfg(feature = "std")]
extern crate std;

// The proved crates, each as a module: made by scripts/erase.
mod acpi;
pub mod arm;
pub mod base;
mod bytes;
mod c_devices;
mod c_interrupts;
mod c_lib;
mod c_machine;
#[cfg(feature = "c")]
mod exports;
mod fixed;
pub mod iommu;
pub mod numa;
pub mod riscv;
pub mod sleep;
mod sums;
mod table_writer;
pub mod write;

// What is beside them.
pub mod alloc;
mod errors;
pub mod flags;
pub mod lists;
mod mapper;
mod memory;
mod of_tables;
pub mod tables;
mod upstream;

// A static library for C has no other handler. No panic is reached, as long as callers keep what zacpi.h says.
#[cfg(all(feature = "c", not(feature = "std"), panic = "abort", not(test)))]
#[panic_handler]
fn panic(_: &core::panic::PanicInfo<'_>) -> ! {
    loop {}
}

pub use acpi::*;
pub use alloc::TryClone;
pub use mapper::{MappedMailbox, Mapper, PhysicalMapper};
pub use memory::{SourceMemory, clip_ranges};
pub use of_tables::of_tables;
pub use sums::set_sum;
