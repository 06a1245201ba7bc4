// Made by scripts/erase of crates/acpi_c_devices/src/writing/srat/shown.rt, where it is proved.
//! Made by scripts/shown: records for C, and what is written of C's, as definitions in specs/ have them.

use crate::c_devices::numa::records::MemoryAffinity;
use crate::numa::MemoryRange;

/// A flag is set unless it is 0.
pub(crate) fn range_of(r: &MemoryAffinity) -> MemoryRange {
    MemoryRange {
        domain: r.domain,
        base: r.address,
        length: r.length,
        is_hot_pluggable: r.is_hot_pluggable != 0,
        is_non_volatile: r.is_non_volatile != 0,
    }
}
