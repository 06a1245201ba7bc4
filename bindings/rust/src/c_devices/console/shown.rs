// Made by scripts/erase of crates/acpi_c_devices/src/console/shown.rt, where it is proved.
//! Made by scripts/shown: records for C, and what is written of C's, as definitions in specs/ have them.

use crate::base::spcr::Spcr;
use crate::c_devices::devices::register_if;
use crate::c_devices::fixed::records::Console;

/// A table's fixed fields, and its Interface Type.
pub(crate) fn console_record(t: &Spcr, interface_type: u8) -> Console {
    Console {
        base: register_if(t.base_address()),
        baud_rate: t.baud_rate().unwrap_or(0),
        global_system_interrupt: t.global_system_interrupt().unwrap_or(0),
        clock_frequency: t.uart_clock_frequency().unwrap_or(0),
        pci_flags: t.pci_flags,
        pci_device_id: t.pci_device_id().unwrap_or(0xffff),
        pci_vendor_id: t.pci_vendor_id().unwrap_or(0xffff),
        interface_type,
        irq: t.irq().unwrap_or(0),
        has_irq: t.irq().is_some() as u8,
        has_global_system_interrupt: t.global_system_interrupt().is_some() as u8,
        has_baud_rate: t.baud_rate().is_some() as u8,
        parity: t.parity,
        stop_bits: t.stop_bits,
        pci_segment: t.pci_segment,
        pci_bus: t.pci_bus_number().unwrap_or(0),
        pci_device: t.pci_device_number().unwrap_or(0),
        pci_function: t.pci_function_number().unwrap_or(0),
        reserved: 0,
    }
}
