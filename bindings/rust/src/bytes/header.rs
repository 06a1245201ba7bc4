// Made by scripts/erase of crates/acpi_bytes/src/header.rt, where it is proved.
//! The header that every table begins with, and its checks (section 5.2.6).

use crate::bytes::bytes::{byte_sum, has_bit, is_text, text_of, u8_in, u32_in};
use crate::bytes::error::{AcpiError, AcpiResult};
use crate::bytes::handler::PhysicalRecord;
use crate::bytes::signature::Signature;

/// DESCRIPTION_HEADER: the header of 36 bytes that every table begins with (section 5.2.6, table 5.4).
#[derive(Clone, Copy, Debug)]
#[repr(C)]
pub struct SdtHeader {
    /// Signature: the four letters that name the table.
    pub signature: Signature,
    /// Length: how many bytes the whole table has, with this header.
    pub length: u32,
    /// Revision: that of the table's layout.
    pub revision: u8,
    /// Checksum: the byte by which the whole of a valid table sums to 0 modulo 256.
    pub checksum: u8,
    /// OEMID: the bytes of the OEM's name. `oem_id()` is their text.
    pub oem_id: [u8; 6],
    /// OEM Table ID: the bytes of the OEM's name for this table. `oem_table_id()` is their text.
    pub oem_table_id: [u8; 8],
    /// OEM Revision: the OEM's revision of this table.
    pub oem_revision: u32,
    /// Creator ID: the program that made the table, as a number of four letters.
    pub creator_id: u32,
    /// Creator Revision: the revision of that program.
    pub creator_revision: u32,
}

impl PhysicalRecord for SdtHeader {
    const MIN_LENGTH: usize = 36;

    #[inline(always)]
    fn read(bytes: &[u8]) -> Self {
        assert!(Self::MIN_LENGTH <= bytes.len());
        SdtHeader {
            signature: Signature::leading(bytes), // Signature
            length: u32_in(bytes, 4),             // Length
            revision: u8_in(bytes, 8),            // Revision
            checksum: u8_in(bytes, 9),            // Checksum
            // OEMID
            oem_id: [bytes[10], bytes[11], bytes[12], bytes[13], bytes[14], bytes[15]],
            // OEM Table ID
            oem_table_id: [bytes[16], bytes[17], bytes[18], bytes[19], bytes[20], bytes[21], bytes[22], bytes[23]],
            oem_revision: u32_in(bytes, 24),     // OEM Revision
            creator_id: u32_in(bytes, 28),       // Creator ID
            creator_revision: u32_in(bytes, 32), // Creator Revision
        }
    }
}

impl SdtHeader {
    /// Checks the table that this header was read from, by its bytes (section 5.2.6): the signature is the
    /// one that is passed, the ids are texts, the length fits, and that many bytes sum to 0 modulo 256.
    /// Bytes after the length don't count.
    ///
    /// Fails, in this order, with `SdtInvalidSignature` if the signature is another or is not valid
    /// UTF-8, `SdtInvalidOemId` and `SdtInvalidTableId` if that id is not valid UTF-8,
    /// `SdtInvalidLength` if the length is under 36 or above the number of bytes, and `SdtInvalidChecksum`
    /// if that many bytes don't sum to 0 modulo 256.
    pub fn validate(&self, signature: Signature, bytes: &[u8]) -> AcpiResult<()> {
        self.validate_names(signature)?;
        let length = self.length as usize;
        if length < 36 || length > bytes.len() {
            return Err(AcpiError::SdtInvalidLength(signature));
        }
        if byte_sum(&bytes[..length]) != 0 {
            return Err(AcpiError::SdtInvalidChecksum(signature));
        }
        Ok(())
    }

    /// OEMID: the OEM's name, or `None` if it is not valid UTF-8 (section 5.2.6).
    pub fn oem_id(&self) -> Option<&str> {
        text_of(&self.oem_id)
    }

    /// OEM Table ID: the OEM's name for this table, or `None` if it is not valid UTF-8 (section 5.2.6).
    pub fn oem_table_id(&self) -> Option<&str> {
        text_of(&self.oem_table_id)
    }

    fn validate_names(&self, signature: Signature) -> AcpiResult<()> {
        if !self.signature.is(signature) || !is_text(&self.signature.0) {
            return Err(AcpiError::SdtInvalidSignature(signature));
        }
        self.validate_ids(signature)
    }

    fn validate_ids(&self, signature: Signature) -> AcpiResult<()> {
        if !is_text(&self.oem_id) {
            return Err(AcpiError::SdtInvalidOemId(signature));
        }
        if !is_text(&self.oem_table_id) {
            return Err(AcpiError::SdtInvalidTableId(signature));
        }
        Ok(())
    }

    /// Checks the names, of which the signature is known to be this one, but for the checks that the bits of `accept`
    /// skip.
    fn validate_own(&self, signature: Signature, accept: u32) -> AcpiResult<()> {
        if !is_text(&self.signature.0) {
            return Err(AcpiError::SdtInvalidSignature(signature));
        }
        if has_bit(accept as u64, 1) {
            return Ok(());
        }
        self.validate_ids(signature)
    }

    /// Length of the table, in bytes, whose header this is, with the signature that is passed (section 5.2.6). Bit 1 of
    /// `accept` skips the checks of the ids.
    ///
    /// Fails, in this order, with `SdtInvalidSignature` if the signature is not valid UTF-8, `SdtInvalidOemId` and
    /// `SdtInvalidTableId` if that id is not valid UTF-8, and `SdtInvalidLength` if the length is under `least`.
    #[inline(never)]
    pub(crate) fn table_length(&self, signature: Signature, least: usize, accept: u32) -> AcpiResult<usize> {
        self.validate_own(signature, accept)?;
        let length = self.length as usize;
        if length < least {
            return Err(AcpiError::SdtInvalidLength(signature));
        }
        Ok(length)
    }
}
