// Made by scripts/erase of crates/acpi/src/tables.rt, where it is proved.
//! The root table (sections 5.2.7 and 5.2.8), and the tables that it leads to.

mod opening;
mod places;

use crate::acpi::faults::TableFaults;
use crate::acpi::headers::SdtHeaderIterator;
use crate::acpi::platform::PlatformInfo;
use crate::acpi::pointers::Pointers;
use crate::acpi::policy::{Policy, Valid};
use crate::acpi::records::{AmlTable, stream_at};
use crate::acpi::root::RootKind;
use crate::acpi::ssdts::SsdtIterator;
use crate::alloc::TryClone;
use crate::alloc::{Allocator, Global};
use crate::base::bytes::skip;
use crate::base::sdt::SdtHeader;
use crate::base::table::{ValidTable, accepted_at};
use crate::base::{AcpiError, AcpiResult, AcpiTable, Lender, PhysicalMapping, Signature};
use crate::fixed::fadt::{Fadt, FadtView};

/// The tables that a root table leads to: an RSDT (section 5.2.7) or an XSDT (section 5.2.8). Its pointers
/// are physical addresses, and what they lead to are its members, in the order of the pointers. The root
/// table stays mapped until this is dropped.
///
/// A table is accepted if it passes all checks but those that the policy `P` leaves out. The default, `Valid`, leaves
/// out none.
#[derive(Debug)]
pub struct AcpiTables<'h, H: Lender, P: Policy = Valid> {
    policy: P,
    revision: u8,
    kind: RootKind,
    root: PhysicalMapping<'h, H, SdtHeader>,
}

impl<'h, H: Lender, P: Policy> AcpiTables<'h, H, P> {
    /// The revision that the tables were opened with: that of the RSDP (section 5.2.5.3), or the one that
    /// `from_rsdt` was passed.
    pub fn revision(&self) -> u8 {
        self.revision
    }

    /// The pointers of the root table, in order.
    fn pointers(&self) -> Pointers<'_> {
        Pointers::new(self.kind.width(), skip(self.root.bytes(), 36))
    }

    /// The bytes of the first member that is accepted for `T`.
    fn first_valid<T: AcpiTable>(&self) -> AcpiResult<ValidTable<'h, H>> {
        for address in self.pointers() {
            if let Ok(found) = accepted_at::<H, T>(self.root.handler(), address, self.policy.bits()) {
                return Ok(found);
            }
        }
        Err(AcpiError::TableMissing(T::SIGNATURE))
    }

    /// The first member of the root table that is accepted for `T` (sections 5.2.7 and 5.2.8): its address
    /// is the mapping's `physical_start`, and its bytes are the mapping's.
    ///
    /// Fails with `TableMissing`, with `T::SIGNATURE`, if no member is accepted for `T`. A member that isn't mapped, or
    /// fails another check, is skipped.
    #[inline(always)]
    pub fn find_table<T: AcpiTable>(&self) -> AcpiResult<PhysicalMapping<'h, H, T>> {
        match self.first_valid::<T>() {
            Ok(found) => Ok(found.mapping()),
            Err(error) => Err(error),
        }
    }

    /// The first member of the root table that is accepted as a FADT (section 5.2.9), as `find_table` finds it: a
    /// field of it is read when it is requested.
    ///
    /// Fails as `find_table` does.
    pub fn find_fadt(&self) -> AcpiResult<FadtView<'h, H>> {
        Ok(FadtView::new(self.first_valid::<Fadt>()?))
    }

    /// The AML of all members that are accepted as SSDTs, in order (section 5.2.11.2), at most
    /// one for each pointer.
    pub fn ssdts(&self) -> SsdtIterator<'_, 'h, H> {
        SsdtIterator::new(self.root.handler(), self.pointers(), self.policy.bits())
    }

    /// The AML of the DSDT (section 5.2.11.1): that of the table at the address in the first accepted FADT
    /// (section 5.2.9).
    ///
    /// Fails, in this order, with `TableMissing` if no accepted FADT is listed, `InvalidDsdtAddress` if that FADT
    /// has no address of a DSDT, and with the error of the table there: `MapFailed`, `SdtInvalidSignature` and so
    /// on, with the DSDT's signature.
    pub fn dsdt(&self) -> AcpiResult<AmlTable> {
        let fadt = self.find_fadt()?;
        let accept = self.policy.bits();
        stream_at(self.root.handler(), Signature::DSDT, fadt.dsdt_address()?, accept)
    }

    /// Why a lookup of `T` skipped members: the address and the error of each member before the first one that is
    /// accepted for `T`, or of all members if none is, in order. A member with another signature
    /// (`SdtInvalidSignature`) is left out. There is at most one for each pointer.
    pub fn faults<T: AcpiTable>(&self) -> TableFaults<'_, 'h, H, T> {
        TableFaults::new(self.root.handler(), self.pointers(), self.policy.bits())
    }
}

impl<'h, H: Lender> AcpiTables<'h, H> {
    /// The headers (section 5.2.6) of all members that are valid under the signatures that they have, in
    /// order, at most one for each pointer.
    pub fn headers(&self) -> SdtHeaderIterator<'_, 'h, H> {
        SdtHeaderIterator::new(self.root.handler(), self.pointers())
    }

    /// The platform that the first valid FADT (section 5.2.9) and the first valid MADT (section 5.2.12)
    /// describe, in memory of the global allocator: `PlatformInfo::new` of these tables.
    ///
    /// Fails as `PlatformInfo::new` does.
    #[cfg(feature = "alloc")]
    pub fn platform_info(&self) -> AcpiResult<PlatformInfo<Global>> {
        PlatformInfo::new(self)
    }

    /// The platform that the first valid FADT (section 5.2.9) and the first valid MADT (section 5.2.12)
    /// describe, in memory of an allocator: `PlatformInfo::new_in` of these tables.
    ///
    /// Fails as `PlatformInfo::new_in` does.
    pub fn platform_info_in<A: Allocator + TryClone>(&self, allocator: A) -> AcpiResult<PlatformInfo<A>> {
        PlatformInfo::new_in(self, allocator)
    }
}
