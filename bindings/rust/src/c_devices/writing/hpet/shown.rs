// Made by scripts/erase of crates/acpi_c_devices/src/writing/hpet/shown.rt, where it is proved.
//! Made by scripts/shown: records for C, and what is written of C's, as definitions in specs/ have them.

use crate::acpi::hpet::PageProtection;
use crate::c_devices::records::HpetInfo;

/// The HPET to be written, which is described as C reads it.
pub fn hpet_info_of(i: &HpetInfo) -> crate::acpi::HpetInfo {
    crate::acpi::HpetInfo {
        base_address: i.base_address,
        event_timer_block_id: i.event_timer_block_id,
        clock_tick_unit: i.clock_tick_unit,
        hpet_number: i.number,
        page_protection: PageProtection::from(i.page_protection),
    }
}
