// Made by scripts/erase of crates/acpi_bytes/src/signature.rt, where it is proved.
//! Signatures: the four bytes that name a table (section 5.2.6).

use crate::bytes::bytes::text_of;
use core::fmt;

/// Signature: four bytes that name a table (section 5.2.6, table 5.5 and table 5.6). Signatures are ordered
/// as their four bytes are, the first byte first.
#[derive(Clone, Copy, PartialEq, Eq, PartialOrd, Ord)]
#[repr(align(4))]
pub struct Signature(pub(crate) [u8; 4]);

impl Signature {
    /// Root System Description Table (section 5.2.7).
    pub const RSDT: Signature = Signature(*b"RSDT");

    /// Extended System Description Table (section 5.2.8).
    pub const XSDT: Signature = Signature(*b"XSDT");

    /// Fixed ACPI Description Table, which is named `FACP` (section 5.2.9).
    pub const FADT: Signature = Signature(*b"FACP");

    /// IA-PC High Precision Event Timer Table.
    pub const HPET: Signature = Signature(*b"HPET");

    /// Multiple APIC Description Table, which is named `APIC` (section 5.2.12).
    pub const MADT: Signature = Signature(*b"APIC");

    /// PCI Express memory mapped configuration space base address description table.
    pub const MCFG: Signature = Signature(*b"MCFG");

    /// Secondary System Description Table (section 5.2.11.2).
    pub const SSDT: Signature = Signature(*b"SSDT");

    /// Boot Error Record Table.
    pub const BERT: Signature = Signature(*b"BERT");

    /// Boot Graphics Resource Table (section 5.2.22).
    pub const BGRT: Signature = Signature(*b"BGRT");

    /// Corrected Platform Error Polling Table.
    pub const CPEP: Signature = Signature(*b"CPEP");

    /// Differentiated System Description Table (section 5.2.11.1).
    pub const DSDT: Signature = Signature(*b"DSDT");

    /// Embedded Controller Boot Resources Table.
    pub const ECDT: Signature = Signature(*b"ECDT");

    /// Error Injection Table.
    pub const EINJ: Signature = Signature(*b"EINJ");

    /// Error Record Serialization Table.
    pub const ERST: Signature = Signature(*b"ERST");

    /// Firmware ACPI Control Structure (section 5.2.10).
    pub const FACS: Signature = Signature(*b"FACS");

    /// Firmware Performance Data Table.
    pub const FPDT: Signature = Signature(*b"FPDT");

    /// Generic Timer Description Table (section 5.2.24).
    pub const GTDT: Signature = Signature(*b"GTDT");

    /// Hardware Error Source Table.
    pub const HEST: Signature = Signature(*b"HEST");

    /// Maximum System Characteristics Table.
    pub const MSCT: Signature = Signature(*b"MSCT");

    /// Memory Power State Table.
    pub const MPST: Signature = Signature(*b"MPST");

    /// NVDIMM Firmware Interface Table.
    pub const NFIT: Signature = Signature(*b"NFIT");

    /// Platform Communications Channel Table.
    pub const PCCT: Signature = Signature(*b"PCCT");

    /// Platform Health Assessment Table.
    pub const PHAT: Signature = Signature(*b"PHAT");

    /// Platform Memory Topology Table.
    pub const PMTT: Signature = Signature(*b"PMTT");

    /// Persistent System Description Table.
    pub const PSDT: Signature = Signature(*b"PSDT");

    /// ACPI RAS Feature Table.
    pub const RASF: Signature = Signature(*b"RASF");

    /// Smart Battery Specification Table.
    pub const SBST: Signature = Signature(*b"SBST");

    /// Secure Devices Table.
    pub const SDEV: Signature = Signature(*b"SDEV");

    /// System Locality Distance Information Table (section 5.2.17).
    pub const SLIT: Signature = Signature(*b"SLIT");

    /// System Resource Affinity Table (section 5.2.16).
    pub const SRAT: Signature = Signature(*b"SRAT");

    /// Arm Error Source Table.
    pub const AEST: Signature = Signature(*b"AEST");

    /// BIOS Data ACPI Table.
    pub const BDAT: Signature = Signature(*b"BDAT");

    /// Component Distance Information Table.
    pub const CDIT: Signature = Signature(*b"CDIT");

    /// CXL Early Discovery Table.
    pub const CEDT: Signature = Signature(*b"CEDT");

    /// Component Resource Attribute Table.
    pub const CRAT: Signature = Signature(*b"CRAT");

    /// Core System Resource Table.
    pub const CSRT: Signature = Signature(*b"CSRT");

    /// Debug Port Table.
    pub const DBGP: Signature = Signature(*b"DBGP");

    /// Debug Port Table 2.
    pub const DBG2: Signature = Signature(*b"DBG2");

    /// DMA Remapping Table.
    pub const DMAR: Signature = Signature(*b"DMAR");

    /// Dynamic Root of Trust for Measurement Table.
    pub const DRTM: Signature = Signature(*b"DRTM");

    /// Event Timer Description Table, which the HPET replaced.
    pub const ETDT: Signature = Signature(*b"ETDT");

    /// iSCSI Boot Firmware Table.
    pub const IBFT: Signature = Signature(*b"IBFT");

    /// I/O Remapping Table.
    pub const IORT: Signature = Signature(*b"IORT");

    /// I/O Virtualization Reporting Structure.
    pub const IVRS: Signature = Signature(*b"IVRS");

    /// Low Power Idle Table.
    pub const LPIT: Signature = Signature(*b"LPIT");

    /// Management Controller Host Interface table.
    pub const MCHI: Signature = Signature(*b"MCHI");

    /// Arm Memory Partitioning and Monitoring table.
    pub const MPAM: Signature = Signature(*b"MPAM");

    /// Microsoft Data Management Table.
    pub const MSDM: Signature = Signature(*b"MSDM");

    /// Platform Runtime Mechanism Table.
    pub const PRMT: Signature = Signature(*b"PRMT");

    /// Regulatory Graphics Resource Table.
    pub const RGRT: Signature = Signature(*b"RGRT");

    /// Software Delegated Exceptions Interface table.
    pub const SDEI: Signature = Signature(*b"SDEI");

    /// Microsoft Software Licensing table.
    pub const SLIC: Signature = Signature(*b"SLIC");

    /// Microsoft Serial Port Console Redirection table.
    pub const SPCR: Signature = Signature(*b"SPCR");

    /// Server Platform Management Interface table.
    pub const SPMI: Signature = Signature(*b"SPMI");

    /// _STA Override table.
    pub const STAO: Signature = Signature(*b"STAO");

    /// Storage Volume Key Location table.
    pub const SVKL: Signature = Signature(*b"SVKL");

    /// Trusted Computing Platform Alliance Capabilities Table.
    pub const TCPA: Signature = Signature(*b"TCPA");

    /// Trusted Platform Module 2 Table.
    pub const TPM2: Signature = Signature(*b"TPM2");

    /// Unified Extensible Firmware Interface table.
    pub const UEFI: Signature = Signature(*b"UEFI");

    /// Windows ACPI Emulated Devices Table.
    pub const WAET: Signature = Signature(*b"WAET");

    /// Watchdog Action Table.
    pub const WDAT: Signature = Signature(*b"WDAT");

    /// Watchdog Resource Table.
    pub const WDRT: Signature = Signature(*b"WDRT");

    /// Windows Platform Binary Table.
    pub const WPBT: Signature = Signature(*b"WPBT");

    /// Windows Security Mitigations Table.
    pub const WSMT: Signature = Signature(*b"WSMT");

    /// Xen Project table.
    pub const XENV: Signature = Signature(*b"XENV");

    /// The signature of these four bytes, whatever they are.
    pub const fn from_bytes(bytes: [u8; 4]) -> Signature {
        Signature(bytes)
    }

    /// The signature of the four bytes that bytes begin with, of which there are at least four.
    #[inline(always)]
    pub(crate) fn leading(bytes: &[u8]) -> Signature {
        Signature([bytes[0], bytes[1], bytes[2], bytes[3]])
    }

    /// The four bytes of this signature.
    pub fn to_bytes(self) -> [u8; 4] {
        self.0
    }

    /// The text of the signature's four bytes, or `None` if they are not valid UTF-8.
    pub fn as_str(&self) -> Option<&str> {
        text_of(&self.0)
    }

    /// Whether both have the same four bytes.
    #[inline(always)]
    pub(crate) fn is(&self, other: Signature) -> bool {
        *self == other
    }
}

/// A hexadecimal digit in lower case.
fn hex_char(digit: u8) -> char {
    if digit < 10 { (b'0' + digit) as char } else { (b'a' + (digit - 10)) as char }
}

/// A byte, printed as two digits.
#[derive(Clone, Copy, Debug)]
struct HexByte(u8);

impl fmt::Display for HexByte {
    fn fmt(&self, f: &mut fmt::Formatter<'_>) -> fmt::Result {
        let (high, low) = (hex_char(self.0 / 16), hex_char(self.0 % 16));
        write!(f, "{high}{low}")
    }
}

/// Prints the text of the four bytes, or eight hexadecimal digits in lower case if they are not valid UTF-8.
impl fmt::Display for Signature {
    fn fmt(&self, f: &mut fmt::Formatter<'_>) -> fmt::Result {
        match self.as_str() {
            Some(text) => f.write_str(text),
            None => {
                let [a, b, c, d] = self.0;
                let (a, b, c, d) = (HexByte(a), HexByte(b), HexByte(c), HexByte(d));
                write!(f, "{a}{b}{c}{d}")
            }
        }
    }
}

/// Prints the text that `Display` prints, in quotes.
impl fmt::Debug for Signature {
    fn fmt(&self, f: &mut fmt::Formatter<'_>) -> fmt::Result {
        write!(f, "\"{self}\"")
    }
}
