// Made by scripts/erase of crates/acpi_c_devices/src/writing/spcr.rt, where it is proved.
//! The SPCR that is written for C, from the record as which C reads it. The layout is Microsoft's.

mod shown;

use crate::base::bytes::has_bit;
use crate::base::spcr::{SpcrFlowControl, SpcrInterfaceType, SpcrInterruptType, SpcrTerminalType};
use crate::c_devices::fixed::records::Console;
use crate::c_devices::writing::fadt::has_codes_at;
use crate::c_devices::written_records::SpcrContents;
use crate::flags::Flags;
use shown::{base, device};

fn is_controllers(bits: u8) -> bool {
    !has_bit(bits as u64, 0) && 0 < bits && bits < 32
}

/// Interrupt Type.
fn interrupt_type(given: &SpcrContents) -> u8 {
    let controllers = if given.console.has_global_system_interrupt == 0 { 0 } else { given.interrupt_controllers };
    if given.console.has_irq == 0 { controllers } else { controllers | 1 }
}

/// Whether registers that there are have no code that is reserved, and a global system interrupt has a controller.
pub fn has_codes(given: &SpcrContents) -> bool {
    given.console.base.present <= 1
        && (given.console.base.present == 0 || has_codes_at(given.console.base.at))
        && (given.console.has_global_system_interrupt == 0 || is_controllers(given.interrupt_controllers))
}

/// The rate, or 0 if it is to stay as it is.
fn baud_rate(console: &Console) -> u32 {
    if console.has_baud_rate == 0 { 0 } else { console.baud_rate }
}

/// What the SPCR is to contain, as the writer has it.
pub fn contents<'a>(given: &SpcrContents) -> crate::write::SpcrContents<'a> {
    let console = &given.console;
    crate::write::SpcrContents {
        interface_type: SpcrInterfaceType::from(console.interface_type),
        base_address: base(&console.base),
        interrupt_type: SpcrInterruptType::from_bits_retain(interrupt_type(given)),
        irq: console.irq,
        global_system_interrupt: console.global_system_interrupt,
        baud_rate: baud_rate(console),
        parity: console.parity,
        stop_bits: console.stop_bits,
        flow_control: SpcrFlowControl::from_bits_retain(given.flow_control),
        terminal_type: SpcrTerminalType::from_bits_retain(given.terminal_type),
        language: 0,
        pci_device: Some(device(console)),
        uart_clock_frequency: console.clock_frequency,
        namespace_string: ".",
    }
}
