// Made by scripts/erase of crates/acpi_base/src/tables/spcr/interface.rt, where it is proved.
//! Interface Type of the SPCR: the interfaces of a serial port's registers.

/// Interface Type: the interface of a serial port's registers, by its code in the SPCR.
#[derive(Clone, Copy, Debug, PartialEq, Eq)]
#[non_exhaustive]
pub enum SpcrInterfaceType {
    /// Code 0x00: a full 16550.
    Full16550,
    /// Code 0x01: a full 16450, which must also take writes to the FIFO control register of the 16550.
    Full16450,
    /// Code 0x02: MAX311xE, over SPI.
    MAX311xE,
    /// Code 0x03: Arm PL011.
    ArmPL011,
    /// Code 0x04: MSM8x60, such as 8960.
    MSM8x60,
    /// Code 0x05: Nvidia's 16550.
    Nvidia16550,
    /// Code 0x06: TI OMAP.
    TiOmap,
    /// Code 0x08: APM88xxxx.
    APM88xxxx,
    /// Code 0x09: MSM8974.
    Msm8974,
    /// Code 0x0a: SAM5250.
    Sam5250,
    /// Code 0x0b: Intel USIF.
    IntelUSIF,
    /// Code 0x0c: i.MX 6.
    Imx6,
    /// Code 0x0d: Arm SBSA 2.x, with accesses of 32 bits alone. Deprecated.
    ArmSBSAGeneric32bit,
    /// Code 0x0e: Arm SBSA.
    ArmSBSAGeneric,
    /// Code 0x0f: Arm's debug communications channel.
    ArmDCC,
    /// Code 0x10: BCM2835.
    Bcm2835,
    /// Code 0x11: SDM845 with a clock of 1.8432 MHz.
    Sdm845_18432,
    /// Code 0x12: like a 16550, with the width and the distance of the registers from the generic address.
    Generic16550,
    /// Code 0x13: SDM845 with a clock of 7.372 MHz.
    Sdm845_7372,
    /// Code 0x14: Intel LPSS.
    IntelLPSS,
    /// Code 0x15: the console of a RISC-V SBI.
    RiscVSbi,
    /// Any other code, which has no meaning here: code 7, and those from 0x16 on.
    Unknown(u8),
}
