// Made by scripts/erase of crates/acpi_writer/src/made/bgrt.rt, where it is proved.
//! Made by scripts/written of specs/Bgrt.antt.

use crate::table_writer::fields::{Field, Record};
use crate::write::bgrt::{BgrtContents, status_of};

/// The fields after the header.
impl Record for BgrtContents {
    type Fields = [Field; 6];

    fn fields(&self) -> [Field; 6] {
        [
            // 36: Version, 38: Status, 39: Image Type, of which 0 is a bitmap
            Field::U16(1),
            Field::U8(status_of(self)),
            Field::U8(0),
            // 40: Image Address
            Field::U64(self.image_address),
            // 48: Image Offset X, 52: Image Offset Y
            Field::U32(self.image_offset.0),
            Field::U32(self.image_offset.1),
        ]
    }
}
