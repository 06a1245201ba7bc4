// Made by scripts/erase of crates/acpi_c_devices/src/writing/spcr/shown.rt, where it is proved.
//! Made by scripts/shown: records for C, and what is written of C's, as definitions in specs/ have them.

use crate::base::address::GenericAddress;
use crate::c_devices::fixed::records::Console;
use crate::c_devices::records::Register;
use crate::c_devices::writing::fadt::shown::register;
use crate::write::SpcrPciDevice;

pub(crate) fn base(r: &Register) -> Option<GenericAddress> {
    (r.present != 0).then_some(register(&r.at))
}

pub(crate) fn device(c: &Console) -> SpcrPciDevice {
    SpcrPciDevice {
        device_id: c.pci_device_id,
        vendor_id: c.pci_vendor_id,
        bus: c.pci_bus,
        device: c.pci_device,
        function: c.pci_function,
        flags: c.pci_flags,
        segment: c.pci_segment,
    }
}
