// Made by scripts/erase of crates/acpi_c/src/made.rt, where it is proved.
//! Made by scripts/exports: the calls that the functions of the crates below make.

mod devices;
mod gic;
mod interrupts;
mod iommu;
mod memory;
mod numa;
mod pci;
mod power;
mod riscv;
mod tables;
mod timers;
mod writing;
