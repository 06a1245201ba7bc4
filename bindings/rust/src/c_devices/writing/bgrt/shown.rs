// Made by scripts/erase of crates/acpi_c_devices/src/writing/bgrt/shown.rt, where it is proved.
//! Made by scripts/shown: records for C, and what is written of C's, as definitions in specs/ have them.

use crate::c_devices::records::BootGraphic;
use crate::c_devices::writing::bgrt::orientation;
use crate::write::BgrtContents;

pub fn contents(g: &BootGraphic) -> BgrtContents {
    BgrtContents {
        was_displayed: g.displayed != 0,
        orientation_offset: orientation(g.orientation),
        image_address: g.address,
        image_offset: (g.x, g.y),
    }
}
