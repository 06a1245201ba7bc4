// Made by scripts/erase of crates/acpi_c_interrupts/src/apics/madt.rt, where it is proved.
//! The MADT of a machine with APICs, none of whose entries is at fault.

pub(crate) mod shown;

use crate::acpi::madt::Madt;
use crate::acpi::platform::PmTimer;
use crate::acpi::{Accept, AcpiHandler, AcpiResult, AcpiTables, Lender, PhysicalMapping};
use crate::base::model::Counts;
use crate::c_lib::opening::{find_fadt, open};
use crate::c_lib::records::Source;
use crate::c_lib::refusal::Refusal;
use crate::c_lib::regions::Mapped;
pub(crate) use shown::io_apic_record;

/// A MADT that describes APICs, and how much there is of each sort in it.
#[derive(Debug)]
pub(crate) struct ApicMadt<'h, H: Lender> {
    pub(crate) madt: PhysicalMapping<'h, H, Madt>,
    pub(crate) counts: Counts,
}

/// The MADT that describes the machine's APICs, with how much there is of each sort, or `None` if no
/// valid one is listed or it describes none.
///
/// Fails, in this order, with `TableMissing` if no FADT is listed that is accepted, with `InvalidMadt` for the first
/// entry of the MADT at fault, and with the error of the FADT's timer: as `PlatformInfo::new` does, which returns the
/// same if nothing but valid tables is accepted.
pub(crate) fn apic_madt<'h, H: AcpiHandler>(tables: &AcpiTables<'h, H, Accept>) -> AcpiResult<Option<ApicMadt<'h, H>>> {
    let fadt = find_fadt(tables)?;
    let timer = PmTimer::of(&fadt);
    let found = found_madt(tables)?;
    timer?;
    Ok(found)
}

/// The MADT that describes the machine's APICs, with how much there is of each sort, by the tables that a source leads
/// to in the memory of its regions.
///
/// Fails as `Mapped::new` does, then as `open` and `apic_madt` do, and then with `NoApics` if there is none.
pub(crate) fn known_madt<'h, 'k>(
    memory: &'h Result<Mapped<'k>, Refusal>,
    source: &Source<'_>,
) -> Result<ApicMadt<'h, Mapped<'k>>, Refusal> {
    let memory = match memory {
        Ok(memory) => memory,
        Err(refusal) => return Err(*refusal),
    };
    let tables = open(memory, source)?;
    apic_madt(&tables)?.ok_or(Refusal::NoApics)
}

/// The first valid MADT, if it describes APICs, with how much there is of each sort, or `None` if no valid one is
/// listed or it describes none. The FADT isn't looked at.
///
/// Fails with `InvalidMadt` for the first entry that is at fault.
fn found_madt<'h, H: AcpiHandler>(tables: &AcpiTables<'h, H, Accept>) -> AcpiResult<Option<ApicMadt<'h, H>>> {
    match tables.find_table::<Madt>() {
        Ok(madt) => {
            let counts = madt.model_counts()?;
            if !counts.is_of_apic {
                return Ok(None);
            }
            Ok(Some(ApicMadt { madt, counts }))
        }
        Err(_) => Ok(None),
    }
}
