// Made by scripts/erase of crates/acpi_table_writer/src/made/hpet.rt, where it is proved.
//! Made by scripts/written of specs/Hpet.antt.

use crate::acpi::HpetInfo;
use crate::table_writer::fields::{Field, Record};

/// The fields after the header.
impl Record for HpetInfo {
    type Fields = [Field; 7];

    fn fields(&self) -> [Field; 7] {
        [
            // 36: Event Timer Block ID
            Field::U32(self.event_timer_block_id),
            // 40: BASE_ADDRESS, whose space is memory and whose address is at 44
            Field::U8(0),
            Field::Zeros(3),
            Field::U64(self.base_address),
            // 52: HPET Number
            Field::U8(self.hpet_number),
            // 53: Main Counter Minimum Clock_tick in Periodic Mode
            Field::U16(self.clock_tick_unit),
            // 55: Page Protection And OEM Attribute
            Field::U8(self.page_protection.code()),
        ]
    }
}
