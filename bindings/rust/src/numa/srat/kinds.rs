// Made by scripts/erase of crates/acpi_numa/src/srat/kinds.rt, where it is proved.
//! The entries of a SRAT by their types, each with its fields (section 5.2.16).
//!
//! The domain of types 0 and 1 has four bytes since revision 2 of the table: in tables of revision
//! 0 and 1 it is its lowest byte alone, and the others are reserved. By bit 0 of the flags an entry
//! counts: `SratEntry::is_enabled`.

mod readings;

use crate::base::bytes::has_bit;
pub(super) use readings::{
    generic_affinity_at, gic_its_affinity_at, gicc_affinity_at, local_apic_affinity_at, local_x2apic_affinity_at,
    memory_affinity_at,
};

/// Processor Local APIC/SAPIC Affinity Structure: the domain of a processor with a local APIC (section
/// 5.2.16.1).
#[derive(Clone, Copy, Debug)]
#[non_exhaustive]
pub struct LocalApicAffinity {
    /// Proximity Domain: the domain of the processor. In tables of revision 0 and 1 it is its lowest byte
    /// alone.
    pub domain: u32,
    /// APIC ID: the id of the local APIC.
    pub apic_id: u8,
    /// Flags: bit 0 Enabled, the entry counts.
    pub flags: u32,
    /// Local SAPIC EID: the extended id of a local SAPIC.
    pub sapic_eid: u8,
    /// Clock Domain: the clock domain of the processor.
    pub clock_domain: u32,
}

/// Memory Affinity Structure: the domain of a range of memory (section 5.2.16.2).
#[derive(Clone, Copy, Debug)]
#[non_exhaustive]
pub struct MemoryAffinity {
    /// Proximity Domain: the domain of the range. In tables of revision 0 and 1 it is its lowest byte alone.
    pub domain: u32,
    /// Base Address: the physical address of the range's first byte.
    pub base: u64,
    /// Length: how many bytes the range has; it can be 0.
    pub length: u64,
    /// Flags: bit 0 Enabled, the entry counts. Bit 1 Hot Pluggable, the memory can be plugged in while the
    /// machine runs. Bit 2 NonVolatile, the memory is non-volatile.
    pub flags: u32,
}

impl MemoryAffinity {
    /// Hot Pluggable (bit 1 of the flags, section 5.2.16.2): whether the memory can be plugged in while the
    /// machine runs.
    pub fn is_hot_pluggable(&self) -> bool {
        has_bit(self.flags as u64, 1) // Hot Pluggable
    }

    /// NonVolatile (bit 2 of the flags, section 5.2.16.2): whether the memory is non-volatile.
    pub fn is_non_volatile(&self) -> bool {
        has_bit(self.flags as u64, 2) // NonVolatile
    }
}

/// Processor Local x2APIC Affinity Structure: the domain of a processor with a local x2APIC (section
/// 5.2.16.3).
#[derive(Clone, Copy, Debug)]
#[non_exhaustive]
pub struct LocalX2ApicAffinity {
    /// Proximity Domain: the domain of the processor.
    pub domain: u32,
    /// X2APIC ID: the id of the local x2APIC.
    pub x2apic_id: u32,
    /// Flags: bit 0 Enabled, the entry counts.
    pub flags: u32,
    /// Clock Domain: the clock domain of the processor.
    pub clock_domain: u32,
}

/// GICC Affinity Structure: the domain of a processor with an interface to the Generic Interrupt Controller
/// (GIC; section 5.2.16.4).
#[derive(Clone, Copy, Debug)]
#[non_exhaustive]
pub struct GiccAffinity {
    /// Proximity Domain: the domain of the processor.
    pub domain: u32,
    /// ACPI Processor UID: the `_UID` of the processor's object in the namespace.
    pub processor_uid: u32,
    /// Flags: bit 0 Enabled, the entry counts.
    pub flags: u32,
    /// Clock Domain: the clock domain of the processor.
    pub clock_domain: u32,
}

/// GIC Interrupt Translation Service (ITS) Affinity Structure: the domain of such a service (section
/// 5.2.16.5). It has no flags.
#[derive(Clone, Copy, Debug)]
#[non_exhaustive]
pub struct GicItsAffinity {
    /// Proximity Domain: the domain of the service.
    pub domain: u32,
    /// ITS ID: the id of the service.
    pub its_id: u32,
}

/// Generic Initiator Affinity Structure: the domain of a device that reads and writes memory by itself
/// (section 5.2.16.6). A Generic Port Affinity Structure has the same fields: it has the domain of a port
/// that devices are attached to.
#[derive(Clone, Copy, Debug)]
#[non_exhaustive]
pub struct GenericAffinity {
    /// Device Handle Type: the form of the handle. 0: it names the device in the namespace. 1: it is the
    /// device's PCI address. Others are reserved, and kept as they are.
    pub handle_type: u8,
    /// Proximity Domain: the domain of the device or the port.
    pub domain: u32,
    /// Device Handle: 16 bytes that name the device, in the form of Device Handle Type.
    pub device_handle: [u8; 16],
    /// Flags: bit 0 Enabled, the entry counts. Bit 1 Architectural Transactions, all transactions of the
    /// device are architectural ones.
    pub flags: u32,
}

impl GenericAffinity {
    /// Architectural Transactions (bit 1 of the flags, section 5.2.16.6): whether all transactions of the
    /// device are architectural ones.
    pub fn has_architectural_transactions(&self) -> bool {
        has_bit(self.flags as u64, 1) // Architectural Transactions
    }
}

/// A domain whose higher bytes came with revision 2 of the table: before, its lowest byte alone.
fn domain_since_2(revision: u8, lowest: u32, whole: u32) -> u32 {
    if revision < 2 { lowest } else { whole }
}
