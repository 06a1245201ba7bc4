// Made by scripts/erase of crates/acpi/src/hpet.rt, where it is proved.
//! The IA-PC High Precision Event Timer Table (HPET).

mod readings;

use crate::acpi::tables::AcpiTables;
use crate::base::bytes::{bits, has_bit};
use crate::base::sdt::SdtHeader;
use crate::base::{AcpiError, AcpiResult, Lender};

/// The IA-PC High Precision Event Timer Table (HPET). Section 5.2.6 reserves its signature, and its layout
/// is the IA-PC HPET Specification's. `HpetInfo` shows what it contains.
#[derive(Clone, Copy, Debug)]
pub struct HpetTable {
    header: SdtHeader,
    event_timer_block_id: u32,
    address_space: u8,
    address: u64,
    hpet_number: u8,
    clock_tick_unit: u16,
    page_protection_and_oem: u8,
}

/// Page Protection: whether accesses to the page of the timer's registers, after the registers, do no harm
/// (the lowest 4 bits of Page Protection And OEM Attribute).
#[derive(Clone, Copy, Debug, PartialEq, Eq)]
#[non_exhaustive]
pub enum PageProtection {
    /// Nothing is promised.
    None = 0,
    /// The 4 KiB page is protected. An access to the rest of it does no harm.
    Protected4K = 1,
    /// The 64 KiB page is protected. An access to the rest of it does no harm.
    Protected64K = 2,
    /// Codes 3 to 15: reserved.
    Other = 3,
}

impl PageProtection {
    /// Its code: Page Protection, the lowest 4 bits of Page Protection And OEM Attribute. That of `Other` is 3.
    pub fn code(self) -> u8 {
        self as u8
    }
}

impl From<u8> for PageProtection {
    /// The page protection of a code.
    fn from(code: u8) -> PageProtection {
        match code {
            0 => PageProtection::None,
            1 => PageProtection::Protected4K,
            2 => PageProtection::Protected64K,
            _ => PageProtection::Other,
        }
    }
}

/// An event timer block, as an HPET describes it (IA-PC HPET Specification; ACPI 6.4, section 5.2.6,
/// reserves the signature).
#[derive(Clone, Copy, Debug)]
pub struct HpetInfo {
    /// Event Timer Block ID. `hardware_rev`, `num_comparators`, `main_counter_is_64bits`,
    /// `legacy_irq_capable` and `pci_vendor_id` show its parts.
    pub event_timer_block_id: u32,
    /// BASE_ADDRESS: the physical address of the block's registers.
    pub base_address: u64,
    /// HPET Number: the number of the block, counted from 0.
    pub hpet_number: u8,
    /// Main Counter Minimum Clock_tick in Periodic Mode: the least period, in ticks of the main counter,
    /// by which a periodic timer loses no interrupt.
    pub clock_tick_unit: u16,
    /// Page Protection: whether the rest of the page of the registers may be accessed.
    pub page_protection: PageProtection,
}

impl HpetInfo {
    /// The event timer block of the first valid HPET (section 5.2.6 reserves the signature). Of the
    /// generic address in the table only the address space and the address count.
    ///
    /// Fails, in this order, with `TableMissing` if no valid HPET is listed, and with
    /// `InvalidGenericAddress` if the address space of its registers isn't 0, system memory.
    pub fn new<H: Lender>(tables: &AcpiTables<'_, H>) -> AcpiResult<HpetInfo> {
        HpetInfo::of(tables.find_table::<HpetTable>()?.get())
    }

    /// The event timer block that a table describes, or its error.
    fn of(table: &HpetTable) -> AcpiResult<HpetInfo> {
        if table.address_space != 0 {
            return Err(AcpiError::InvalidGenericAddress);
        }
        Ok(HpetInfo {
            event_timer_block_id: table.event_timer_block_id,
            base_address: table.address,
            hpet_number: table.hpet_number,
            clock_tick_unit: table.clock_tick_unit,
            // The other 4 bits are the OEM's.
            page_protection: PageProtection::from(bits(table.page_protection_and_oem as u64, 0, 4) as u8),
        })
    }

    /// Hardware Rev ID: the revision of the hardware (bits 0 to 7 of the Event Timer Block ID).
    pub fn hardware_rev(&self) -> u8 {
        bits(self.event_timer_block_id as u64, 0, 8) as u8 // Hardware Rev ID
    }

    /// Number of Comparators: how many comparators the block has, from 1 to 32 (bits 8 to 12 of the Event
    /// Timer Block ID, which have one less).
    pub fn num_comparators(&self) -> u8 {
        bits(self.event_timer_block_id as u64, 8, 5) as u8 + 1 // Number of Comparators in 1st Timer Block
    }

    /// COUNT_SIZE_CAP: whether the main counter has 64 bits, or else 32 (bit 13 of the Event Timer Block
    /// ID).
    pub fn main_counter_is_64bits(&self) -> bool {
        has_bit(self.event_timer_block_id as u64, 13) // COUNT_SIZE_CAP counter size
    }

    /// LegacyReplacement IRQ Routing Capable: whether the block can replace the interrupts of the older
    /// timers (bit 15 of the Event Timer Block ID).
    pub fn legacy_irq_capable(&self) -> bool {
        has_bit(self.event_timer_block_id as u64, 15) // LegacyReplacement IRQ Routing Capable
    }

    /// PCI Vendor ID: the vendor id of the block's maker (bits 16 to 31 of the Event Timer Block ID).
    pub fn pci_vendor_id(&self) -> u16 {
        bits(self.event_timer_block_id as u64, 16, 16) as u16 // PCI Vendor ID of 1st Timer Block
    }
}
