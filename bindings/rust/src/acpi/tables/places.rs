// Made by scripts/erase of crates/acpi/src/tables/places.rt, where it is proved.
//! The places of the tables, all tables of a type, and a lookup by a signature.

use super::AcpiTables;
use crate::acpi::matches::FoundTables;
use crate::acpi::members::TableMembers;
use crate::acpi::pointers::Pointers;
use crate::acpi::policy::{Policy, map_accepted};
use crate::acpi::ranges::{TableRanges, facs_at};
use crate::acpi::root::RootKind;
use crate::base::sdt::{SdtHeader, map_sdt};
use crate::base::table::{ValidTable, own_valid_by, valid_by};
use crate::base::{AcpiError, AcpiResult, AcpiTable, AddressRange, Lender, PhysicalMapping, PhysicalRecord, Signature};
use crate::fixed::fadt::FadtView;

impl<'h, H: Lender, P: Policy> AcpiTables<'h, H, P> {
    /// The physical address of the root table (sections 5.2.7 and 5.2.8).
    pub fn root_address(&self) -> u64 {
        self.root.physical_start()
    }

    /// How many bytes the root table has, with its header (sections 5.2.7 and 5.2.8).
    pub fn root_length(&self) -> u32 {
        self.root.region_length() as u32
    }

    /// The signature of the root table: `RSDT` (section 5.2.7) or `XSDT` (section 5.2.8).
    pub fn root_signature(&self) -> Signature {
        self.kind.signature()
    }

    /// The kind of the root table: its signature, and the width of its pointers.
    pub fn root_kind(&self) -> RootKind {
        self.kind
    }

    /// The physical addresses that the root table lists, in order. Nothing is looked at there.
    pub fn addresses(&self) -> Pointers<'_> {
        self.pointers()
    }

    /// The first member of the root table that is accepted under a signature that is known only at run time
    /// (section 5.2.6), with at least the 36 bytes of a header, mapped as its header.
    ///
    /// Fails with `TableMissing`, carrying the signature, if no member is accepted so. A member that
    /// isn't lent, or fails another check, is passed over.
    pub fn find_sdt(&self, signature: Signature) -> AcpiResult<PhysicalMapping<'h, H, SdtHeader>> {
        let found = self.find_bytes(signature, SdtHeader::MIN_LENGTH)?;
        Ok(found.mapping())
    }

    /// The bytes of the first member of the root table that is accepted under a signature and a least length, of at
    /// least 36, that are known only at run time (section 5.2.6).
    ///
    /// Fails as `find_sdt` does.
    ///
    /// # Panics
    ///
    /// Doesn't, but if `least` is below 36 it may find a table that is shorter than a header, for which `mapping`
    /// panics.
    #[inline(never)]
    pub fn find_bytes(&self, signature: Signature, least: usize) -> AcpiResult<ValidTable<'h, H>> {
        for address in self.pointers() {
            if let Ok(found) = valid_by(self.root.handler(), address, signature, least, self.policy.bits()) {
                return Ok(found);
            }
        }
        Err(AcpiError::TableMissing(signature))
    }

    /// The table at a physical address, whether it is a member or not, mapped as its header, if it is accepted under a
    /// signature that is known only at run time (section 5.2.6).
    ///
    /// Fails as `sdt::map_sdt` does, but for the checks that are given up.
    pub fn sdt_at(&self, address: u64, signature: Signature) -> AcpiResult<PhysicalMapping<'h, H, SdtHeader>> {
        let accept = self.policy.bits();
        let table = valid_by(self.root.handler(), address, signature, SdtHeader::MIN_LENGTH, accept)?;
        Ok(table.mapping())
    }

    /// The table at a physical address, whether it is a member or not, mapped as its header, if it is accepted under
    /// the signature that it has itself (section 5.2.6).
    ///
    /// Fails as `sdt_at` does for that signature.
    pub fn own_sdt_at(&self, address: u64) -> AcpiResult<PhysicalMapping<'h, H, SdtHeader>> {
        let table = own_valid_by(self.root.handler(), address, self.policy.bits())?;
        Ok(table.mapping())
    }

    /// The table at a physical address, whether it is a member or not, if it is accepted for `T` (section 5.2.6).
    ///
    /// Fails as `sdt::map_table` does, but for the checks that are given up.
    pub fn table_at<T: AcpiTable>(&self, address: u64) -> AcpiResult<PhysicalMapping<'h, H, T>> {
        map_accepted(self.root.handler(), address, self.policy.bits())
    }

    /// All members of the root table that are accepted for `T`, in order. It gives at most one for each
    /// pointer.
    pub fn find_tables<T: AcpiTable>(&self) -> FoundTables<'_, 'h, H, T> {
        FoundTables::new(self.root.handler(), self.pointers(), self.policy.bits())
    }

    /// Where the FACS is, as many bytes as its Length has (section 5.2.10): that of the first accepted FADT (section
    /// 5.2.9).
    ///
    /// Fails, in this order, with `TableMissing` if no accepted FADT is listed, `InvalidFacsAddress` if that FADT has
    /// no address, `MapFailed` if 36 bytes aren't lent there, as `facs_length` does, and with `MapFailed` if as many
    /// bytes as the length has aren't lent.
    pub fn facs(&self) -> AcpiResult<AddressRange> {
        self.facs_place(&self.find_fadt()?)
    }

    /// Where the FACS lies that a FADT leads to.
    fn facs_place(&self, fadt: &FadtView<'_, H>) -> AcpiResult<AddressRange> {
        facs_at(self.root.handler(), fadt.facs_address()?)
    }
}

impl<'h, H: Lender> AcpiTables<'h, H> {
    /// The members of the root table, in order: the address that each pointer gives, and the header
    /// (section 5.2.6) of the table there if that is valid under the signature that it has, or else the
    /// first error. There is exactly one item for each pointer.
    pub fn members(&self) -> TableMembers<'_, 'h, H> {
        TableMembers::new(self.root.handler(), self.pointers())
    }

    /// The ranges of physical memory in which the tables lie (sections 5.2.6, 5.2.9 and 5.2.10): the root
    /// table, then each valid member in order, then, if a valid FADT is listed, the DSDT that the first
    /// FADT leads to if that is valid, and the FACS at that FADT's `facs_address` if 36 bytes are lent
    /// there that begin with `FACS` and give a length of at least 64, and that many bytes lie in one region. It gives
    /// at most three more ranges than there are pointers. The FADT, the DSDT and the FACS are looked at by
    /// this call, and each member when its range is asked for.
    ///
    /// A boot loader that reserves these reserves besides what is no table: the RSDP, the image of
    /// the boot graphic, and the mailbox by which processors are woken. A FACS is written by the
    /// firmware and by the system, so a copy of it is not a FACS.
    pub fn ranges(&self) -> TableRanges<'_, 'h, H> {
        let root = AddressRange { address: self.root_address(), length: self.root_length() as u64 };
        let (dsdt, facs) = self.dsdt_and_facs();
        TableRanges::new(self.root.handler(), root, self.pointers(), dsdt, facs)
    }

    /// Where the DSDT and the FACS lie that the first valid FADT leads to.
    fn dsdt_and_facs(&self) -> (Option<AddressRange>, Option<AddressRange>) {
        match self.find_fadt() {
            Ok(fadt) => (self.dsdt_place(&fadt).ok(), self.facs_place(&fadt).ok()),
            Err(_) => (None, None),
        }
    }

    /// Where the DSDT lies that a FADT leads to, if it is valid.
    fn dsdt_place(&self, fadt: &FadtView<'_, H>) -> AcpiResult<AddressRange> {
        let address = fadt.dsdt_address()?;
        let dsdt = map_sdt(self.root.handler(), address, Signature::DSDT)?;
        Ok(AddressRange { address, length: dsdt.region_length() as u64 })
    }
}
