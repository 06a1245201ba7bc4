// Made by scripts/erase of crates/acpi_base/src/table.rt, where it is proved.
//! Types of tables: the signature and the least length of each, and how it is checked (section 5.2.6).

pub mod header;
mod lookup;

use crate::base::bytes::byte_sum;
use crate::base::error::{AcpiError, AcpiResult};
use crate::base::memory::handler::PhysicalRecord;
pub use crate::bytes::signature;
use header::SdtHeader;
pub use lookup::{ValidTable, accepted_at, map_own_sdt, map_sdt, map_table, own_valid_by, valid_at, valid_by};
use signature::Signature;

/// A type of table (section 5.2.6). A kernel may add types of its own. `kind` is what a lookup checks: the signature,
/// the least length, and what `validate` and `check_own` mean, which are functions of the table's bytes alone.
pub trait AcpiTable: PhysicalRecord {
    /// Signature: the four letters that name the table (section 5.2.6).
    const SIGNATURE: Signature;

    /// The header that the table begins with (section 5.2.6): that of any bytes that this value was read
    /// from.
    fn header(&self) -> &SdtHeader;

    /// Checks the table that this value was read from, by its bytes, and returns the error of `kind.check`. Most
    /// types return `self.header().validate(Self::SIGNATURE, bytes)`, and have an `sdt_kind` of that
    /// signature as their kind. Where a caller gives checks up, `SdtInvalidChecksum`, or `SdtInvalidOemId` and
    /// `SdtInvalidTableId`, don't count (`accepted_at`). Whatever is checked here after these isn't checked then, so
    /// what only this type has to pass is in `check_own`.
    fn validate(&self, bytes: &[u8]) -> AcpiResult<()>;

    /// Checks what only tables of this type have to pass, by the table's bytes, after `validate` or what a caller has
    /// left of it: no policy gives this check up. In Rust it passes unless a type writes it.
    fn check_own(_bytes: &[u8]) -> AcpiResult<()> {
        Ok(())
    }

    /// What `validate` returns for the record that these bytes mean, if their header is known to have the
    /// names of a table of this type, and a length that is their number. A lookup calls it for each member
    /// that has such a header. A type whose kind is an `sdt_kind` need only look at the sum: `sum_refusal`
    /// does.
    #[inline(always)]
    fn validate_rest(bytes: &[u8]) -> AcpiResult<()> {
        Self::read(bytes).validate(bytes)
    }
}

/// A type of table of which a lookup checks the header and the sum and no more, as most are. A lookup finds such a
/// table as it does any `AcpiTable`.
pub trait SdtTable: PhysicalRecord {
    /// Signature: the four letters that name the table (section 5.2.6).
    const NAME: Signature;

    /// The header that the table begins with: that of any bytes that this value was read from.
    fn sdt_header(&self) -> &SdtHeader;
}

impl<T: SdtTable> AcpiTable for T {
    const SIGNATURE: Signature = T::NAME;

    fn header(&self) -> &SdtHeader {
        self.sdt_header()
    }

    fn validate(&self, bytes: &[u8]) -> AcpiResult<()> {
        self.sdt_header().validate(T::NAME, bytes)
    }

    #[inline(always)]
    fn check_own(_bytes: &[u8]) -> AcpiResult<()> {
        Ok(())
    }

    fn validate_rest(bytes: &[u8]) -> AcpiResult<()> {
        sum_refusal(T::NAME, bytes)
    }
}

/// Checks what is left to check of a table whose header has the names, and a length that is the number of
/// its bytes: that these sum to 0 modulo 256 (section 5.2.6).
///
/// Fails with `SdtInvalidChecksum`, carrying the signature, if they don't.
#[inline(always)]
pub fn sum_refusal(signature: Signature, bytes: &[u8]) -> AcpiResult<()> {
    if byte_sum(bytes) != 0 {
        return Err(AcpiError::SdtInvalidChecksum(signature));
    }
    Ok(())
}
