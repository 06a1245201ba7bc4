// Made by scripts/erase of crates/acpi_table_writer/src/made.rt, where it is proved.
//! Made by scripts/written: what is written field by field, of the lists in specs/.

pub(crate) mod generic;
pub(crate) mod gic_madt;
pub(crate) mod gtdt;
pub(crate) mod hpet;
pub(crate) mod madt_bytes;
pub(crate) mod mcfg;
pub(crate) mod rhct;
pub(crate) mod riscv_madt;
pub(crate) mod srat;
