//! The calls of the library for C, and its records: reading and writing with no heap.
//!
//! Sections are of ACPI 6.4 unless another document is named. Each call can be called with any numbers. One that is
//! passed a source checks the regions, opens the tables anew, and returns what it found, or an error. No call allocates
//! memory or keeps a state. A list writes the items that fit into its capacity, and returns the number of all items.

pub use crate::c_devices::iommu::{
    faults as iommu_faults, lists as iommu_lists, records as iommu_records, regions as iommu_regions,
};
pub use crate::c_devices::numa::{affinities, faults as srat_faults, records as numa_records};
pub use crate::c_devices::{console, devices, fixed::records as fixed_records, pci, power::records as power_records};
pub use crate::c_interrupts::apics::{local_apic, model as processors, platform, records as interrupt_records};
pub use crate::c_interrupts::arm::{gic, records as arm_records, timer_faults as gtdt_faults, timers as arm_timers};
pub use crate::c_interrupts::routes::isa_list;
pub use crate::c_interrupts::{madt_faults, riscv};
pub use crate::c_lib::{answer, clip, copied, entries, facs, faults, members, missing, refusal, rsdp, walks};

/// The lists of what the entries of the first valid MADT contain of APICs, each entry by itself.
pub mod apics {
    pub use crate::c_interrupts::apics::{MadtRecord, entries, mailbox, processors, processors_from};
}

/// The entries of a table at fault.
pub mod entry_faults {
    pub use crate::c_lib::entry_faults::EntryFault;
}

/// The fixed hardware.
pub mod fixed {
    pub use crate::c_devices::fixed::fixed;
}

/// The units that remap devices' accesses to memory (IOMMUs).
pub mod iommu {
    pub use crate::c_devices::iommu::{
        dmar_flags, dmar_hpet, dmar_io_apic, dmar_reserved, dmar_unit, ivrs_memory, ivrs_unit,
    };
}

/// Domains, and the distances between localities.
pub mod numa {
    pub use crate::c_devices::numa::{distance, domain_of_address, domain_of_apic, domain_of_processor, localities};
}

/// The root table.
pub mod opening {
    pub use crate::c_lib::opening::root;
}

/// Sleep types, and what to write to sleep, to enable ACPI and to reset.
pub mod power {
    pub use crate::c_devices::power::{enable_plan, power_off_plan, reset_plan, sleep_plan, sleep_types};
}

/// The records of memory, tables, registers and devices.
pub mod records {
    pub use crate::c_devices::records::*;
    pub use crate::c_lib::records::*;
}

/// Physical memory, as a kernel has it mapped.
pub mod regions {
    pub use crate::c_lib::regions::{Region, locate};
}

/// How interrupts come to the I/O APICs.
pub mod routes {
    pub use crate::c_interrupts::routes::{isa, pin, sci};
}

/// The tables that the root table lists.
pub mod tables {
    pub use crate::c_lib::tables::{dsdt, find, ssdts, table_there, tables};
}

/// Tables that are written from these records.
pub mod writing {
    pub use crate::c_machine::machine::*;
    pub use crate::c_machine::writing::*;
}

/// The records of the tables that are to be written.
pub mod written_records {
    pub use crate::c_devices::written_records::*;
    pub use crate::c_interrupts::written_records::*;
    pub use crate::c_machine::written_records::*;
}
