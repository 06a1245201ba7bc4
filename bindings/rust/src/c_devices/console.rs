// Made by scripts/erase of crates/acpi_c_devices/src/console.rt, where it is proved.
//! The serial console.

mod shown;

use crate::acpi::spcr::Spcr;
use crate::base::bytes::field;
use crate::c_devices::fixed::records::Console;
use crate::c_lib::opening::first;
use crate::c_lib::records::Source;
use crate::c_lib::refusal::Refusal;
use crate::c_lib::regions::Mapped;
use shown::console_record;

/// The serial console that the first valid SPCR describes.
pub fn console(source: &Source<'_>) -> Result<Console, Refusal> {
    let memory = Mapped::new(source.regions);
    let spcr = first::<Spcr>(&memory, source)?;
    let interface_type = field(spcr.bytes(), 36, 1) as u8; // Interface Type
    Ok(console_record(&spcr, interface_type))
}
