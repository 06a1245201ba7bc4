// Made by scripts/erase of crates/acpi/src/tables/opening.rt, where it is proved.
//! Opening the root table: by its address, by an RSDP, by the search for one.

use super::AcpiTables;
use crate::acpi::policy::{Policy, Valid};
use crate::acpi::root::{RootKind, RootPointer};
use crate::acpi::rsdp::{Rsdp, map_accepted_rsdp, read_accepted};
use crate::base::sdt::SdtHeader;
use crate::base::table::valid_by;
use crate::base::{AcpiResult, AddressRange, Lender, PhysicalMapping, PhysicalRecord};

impl<'h, H: Lender> AcpiTables<'h, H> {
    /// The tables below the root table that the RSDP at a physical address leads to: the RSDT if the
    /// RSDP's revision or XSDT address is 0, else the XSDT (sections 5.2.5.3, 5.2.7 and 5.2.8).
    ///
    /// Fails first with the error of the RSDP, in this order: `MapFailed` if its 36 bytes don't lie in one region,
    /// `RsdpIncorrectSignature` if it doesn't begin with `RSD PTR `, `RsdpInvalidOemId` if the OEM id is
    /// not valid UTF-8, `RsdpInvalidChecksum` if the first 20 bytes don't sum to 0 modulo 256 or, above
    /// revision 0, the length is under 36, `MapFailed` if that many bytes aren't lent, and
    /// `RsdpInvalidChecksum` if they don't sum to 0 modulo 256. Then it refuses as `from_rsdt` does.
    pub fn from_rsdp(handler: &'h H, address: u64) -> AcpiResult<Self> {
        AcpiTables::from_rsdp_accepting(handler, address, Valid)
    }

    /// The tables below the root table of the RSDP that `Rsdp::search_for_on_bios` finds (section
    /// 5.2.5.1): the RSDT if the RSDP's revision or XSDT address is 0, else the XSDT. No later candidate
    /// is tried if the root table is bad.
    ///
    /// Fails first as that search does, with `MapFailed` or `NoValidRsdp`, and then as `from_rsdt` does.
    pub fn search_for_rsdp_bios(handler: &'h H) -> AcpiResult<Self> {
        AcpiTables::search_for_rsdp_bios_accepting(handler, Valid)
    }

    /// The tables below the root table of the RSDP that `Rsdp::search_in` finds in these areas (section
    /// 5.2.5.1): the RSDT if the RSDP's revision or XSDT address is 0, else the XSDT. No later candidate
    /// is tried if the root table is bad.
    ///
    /// Fails first as that search does, with `NoValidRsdp`, and then as `from_rsdt` does.
    pub fn search_in(handler: &'h H, areas: &[AddressRange]) -> AcpiResult<Self> {
        AcpiTables::search_in_accepting(handler, areas, Valid)
    }

    /// The tables below the root table that a valid RSDP leads to (sections 5.2.5.3, 5.2.7 and 5.2.8). Of
    /// the mapping only the address counts: the fields are read from the handler's memory there, which
    /// passes all checks of the RSDP.
    ///
    /// Fails as `from_rsdt` does.
    pub fn from_validated_rsdp(handler: &'h H, mapping: PhysicalMapping<'h, H, Rsdp>) -> AcpiResult<Self> {
        let address = mapping.physical_start();
        drop(mapping);
        match PhysicalMapping::map(handler, address, Rsdp::MIN_LENGTH) {
            Ok(rsdp) => AcpiTables::open_read(handler, rsdp, Valid),
            Err(error) => Err(error),
        }
    }

    /// The tables below the root table at a physical address: an RSDT, with pointers of four bytes, for
    /// revision 0, else an XSDT, with pointers of eight bytes (sections 5.2.7 and 5.2.8).
    ///
    /// Fails, in this order, with `MapFailed` if 36 bytes aren't lent there, `SdtInvalidSignature` if
    /// the signature isn't `RSDT` or `XSDT` by the kind, `SdtInvalidOemId` and `SdtInvalidTableId` if that
    /// id is not valid UTF-8, `SdtInvalidLength` if the length is under 36, `MapFailed` if that many bytes
    /// aren't lent, and `SdtInvalidChecksum` if they don't sum to 0 modulo 256.
    pub fn from_rsdt(handler: &'h H, revision: u8, address: u64) -> AcpiResult<Self> {
        let root_pointer = RootPointer { revision, kind: RootKind::of_revision(revision), address };
        AcpiTables::open_accepting(handler, root_pointer, Valid)
    }
}

impl<'h, H: Lender, P: Policy> AcpiTables<'h, H, P> {
    /// The tables below a root table (sections 5.2.7 and 5.2.8), which is accepted by a policy, as then its members
    /// are. `Rsdp::root` has the root table that an RSDP leads to.
    ///
    /// Fails as `from_rsdt` does, but for the checks that the policy gives up.
    pub fn open_accepting(handler: &'h H, root_pointer: RootPointer, policy: P) -> AcpiResult<Self> {
        let signature = root_pointer.kind.signature();
        let least = SdtHeader::MIN_LENGTH;
        match valid_by(handler, root_pointer.address, signature, least, policy.bits()) {
            Ok(root) => Ok(AcpiTables {
                policy,
                revision: root_pointer.revision,
                kind: root_pointer.kind,
                root: root.mapping(),
            }),
            Err(error) => Err(error),
        }
    }

    /// The tables below the root table that the RSDP at a physical address leads to, which a policy accepts, as then
    /// the root table and its members are: by `map_accepted_rsdp`, `read_accepted` and `open_accepting`.
    ///
    /// Fails as `from_rsdp` does, but for the checks that the policy gives up.
    pub fn from_rsdp_accepting(handler: &'h H, address: u64, policy: P) -> AcpiResult<Self> {
        let rsdp = map_accepted_rsdp(handler, address, policy.bits())?;
        AcpiTables::open_read(handler, rsdp, policy)
    }

    /// The tables below the root table of the RSDP that `Rsdp::search_for_on_bios_accepting` finds by a policy.
    ///
    /// Fails as `search_for_rsdp_bios` does, but for the checks that the policy gives up.
    pub fn search_for_rsdp_bios_accepting(handler: &'h H, policy: P) -> AcpiResult<Self> {
        let rsdp = Rsdp::search_for_on_bios_accepting(handler, policy.bits())?;
        AcpiTables::open_read(handler, rsdp, policy)
    }

    /// The tables below the root table of the RSDP that `Rsdp::search_in_accepting` finds by a policy.
    ///
    /// Fails as `search_in` does, but for the checks that the policy gives up.
    pub fn search_in_accepting(handler: &'h H, areas: &[AddressRange], policy: P) -> AcpiResult<Self> {
        let rsdp = Rsdp::search_in_accepting(handler, areas, policy.bits())?;
        AcpiTables::open_read(handler, rsdp, policy)
    }

    /// The tables below the root table that an accepted RSDP leads to, which is unmapped first.
    fn open_read(handler: &'h H, rsdp: PhysicalMapping<'h, H, Rsdp>, policy: P) -> AcpiResult<Self> {
        let root_pointer = read_accepted(handler, &rsdp, policy.bits()).root();
        drop(rsdp);
        AcpiTables::open_accepting(handler, root_pointer, policy)
    }
}
