// Made by scripts/erase of crates/acpi_base/src/tables/spcr/flags.rt, where it is proved.
//! Sets of flags in the SPCR. Their functions are as in the crate `bitflags`.

use crate::flags::{Flag, Flags};

/// Interrupt Type: the controllers that a serial port's interrupt comes to, as a set of flags of the SPCR.
#[derive(Clone, Copy, Debug)]
pub struct SpcrInterruptType(u8);

impl SpcrInterruptType {
    /// Bit 0: the pair of 8259 controllers.
    pub const DUAL_8259: SpcrInterruptType = SpcrInterruptType(1);

    /// Bit 1: an I/O APIC, by a global system interrupt.
    pub const IO_APIC: SpcrInterruptType = SpcrInterruptType(1 << 1);

    /// Bit 2: an I/O SAPIC, by a global system interrupt.
    pub const IO_SAPIC: SpcrInterruptType = SpcrInterruptType(1 << 2);

    /// Bit 3: Arm's GIC, by a global system interrupt.
    pub const ARMH_GIC: SpcrInterruptType = SpcrInterruptType(1 << 3);

    /// Bit 4: RISC-V's PLIC or APLIC, by a global system interrupt.
    pub const RISCV_PLIC: SpcrInterruptType = SpcrInterruptType(1 << 4);

    #[rustfmt::skip]
    const FLAGS: &'static [Flag<SpcrInterruptType>] = &[
        Flag { name: "DUAL_8259", value: SpcrInterruptType::DUAL_8259 },
        Flag { name: "IO_APIC", value: SpcrInterruptType::IO_APIC },
        Flag { name: "IO_SAPIC", value: SpcrInterruptType::IO_SAPIC },
        Flag { name: "ARMH_GIC", value: SpcrInterruptType::ARMH_GIC },
        Flag { name: "RISCV_PLIC", value: SpcrInterruptType::RISCV_PLIC },
    ];
}

impl Flags for SpcrInterruptType {
    type Bits = u8;

    fn flags<'a>() -> &'a [Flag<SpcrInterruptType>] {
        SpcrInterruptType::FLAGS
    }

    fn bits(&self) -> u8 {
        self.0
    }

    fn from_bits_retain(bits: u8) -> SpcrInterruptType {
        SpcrInterruptType(bits)
    }
}

/// Terminal Type: the terminals that the firmware spoke to, as a set of flags of the SPCR.
#[derive(Clone, Copy, Debug)]
pub struct SpcrTerminalType(u8);

impl SpcrTerminalType {
    /// Bit 0: VT100.
    pub const VT1000: SpcrTerminalType = SpcrTerminalType(1);

    /// Bit 1: extended VT100, or VT100+.
    pub const EXTENDED_VT1000: SpcrTerminalType = SpcrTerminalType(1 << 1);

    /// Bit 2: VT-UTF8.
    pub const VT_UTF8: SpcrTerminalType = SpcrTerminalType(1 << 2);

    /// Bit 3: ANSI.
    pub const ANSI: SpcrTerminalType = SpcrTerminalType(1 << 3);

    #[rustfmt::skip]
    const FLAGS: &'static [Flag<SpcrTerminalType>] = &[
        Flag { name: "VT1000", value: SpcrTerminalType::VT1000 },
        Flag { name: "EXTENDED_VT1000", value: SpcrTerminalType::EXTENDED_VT1000 },
        Flag { name: "VT_UTF8", value: SpcrTerminalType::VT_UTF8 },
        Flag { name: "ANSI", value: SpcrTerminalType::ANSI },
    ];
}

impl Flags for SpcrTerminalType {
    type Bits = u8;

    fn flags<'a>() -> &'a [Flag<SpcrTerminalType>] {
        SpcrTerminalType::FLAGS
    }

    fn bits(&self) -> u8 {
        self.0
    }

    fn from_bits_retain(bits: u8) -> SpcrTerminalType {
        SpcrTerminalType(bits)
    }
}

/// Flow Control: the ways in which the flow of bytes is controlled, as a set of flags of the SPCR.
#[derive(Clone, Copy, Debug)]
pub struct SpcrFlowControl(u8);

impl SpcrFlowControl {
    /// Bit 0, DCD: nothing is sent without the carrier detect signal.
    pub const DCD: SpcrFlowControl = SpcrFlowControl(1);

    /// Bit 1, RTS/CTS: by the request to send and clear to send signals.
    pub const RTS_CTS: SpcrFlowControl = SpcrFlowControl(1 << 1);

    /// Bit 2, XON/XOFF: by the bytes XON and XOFF.
    pub const XON_XOFF: SpcrFlowControl = SpcrFlowControl(1 << 2);

    #[rustfmt::skip]
    const FLAGS: &'static [Flag<SpcrFlowControl>] = &[
        Flag { name: "DCD", value: SpcrFlowControl::DCD },
        Flag { name: "RTS_CTS", value: SpcrFlowControl::RTS_CTS },
        Flag { name: "XON_XOFF", value: SpcrFlowControl::XON_XOFF },
    ];
}

impl Flags for SpcrFlowControl {
    type Bits = u8;

    fn flags<'a>() -> &'a [Flag<SpcrFlowControl>] {
        SpcrFlowControl::FLAGS
    }

    fn bits(&self) -> u8 {
        self.0
    }

    fn from_bits_retain(bits: u8) -> SpcrFlowControl {
        SpcrFlowControl(bits)
    }
}
