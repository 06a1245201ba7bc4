//! The rows of rules of one field each, by the tables that they judge.

use super::devices::{BGRT_TYPE, BGRT_VERSION, BGRT_ZERO, HPET_SPACE, HPET_UNALIGNED, HPET_ZERO};
use super::fadt::{
    FADT_CONTROL_LENGTH, FADT_EVENT_LENGTH, FADT_GPE_LENGTH, FADT_PROFILE, FADT_RESERVED_FLAGS, FADT_SCI_INTERRUPT,
    FADT_TIMER_LENGTH,
};
use super::fields::{
    BERT_LENGTH, BERT_REGION, CEDT_BRIDGE_TWICE, CEDT_REGISTERS, CEDT_TARGET_NOWHERE, CEDT_WINDOW_BASE,
    CEDT_WINDOW_EMPTY, CEDT_WINDOW_SIZE, DMAR_BASE, DMAR_BASE_TWICE, DMAR_WIDTH, ECDT_ADDRESS, ECDT_ID, ECDT_SPACE,
    ECDT_WIDTH, EINJ_ACTION, EINJ_INSTRUCTION, EINJ_SPACE, ERST_ACTION, ERST_INSTRUCTION, ERST_SPACE, GTDT_INTERRUPT,
    HEST_ENABLED, HEST_NOTIFICATION, HEST_NOTIFICATION_LENGTH, HEST_RECORDS, HEST_RELATED_NOWHERE, HEST_SOURCE_TWICE,
    HEST_STATUS_ADDRESS, HMAT_BASE_UNIT, HMAT_CACHE_SIZE, HMAT_DATA_TYPE, HMAT_INITIATORS, HMAT_TARGETS, IORT_BASE,
    IORT_IDENTIFIER, IORT_ITS_COUNT, IORT_NODE, IORT_NODES, IORT_RANGE, IORT_RANGE_EMPTY, IORT_REFERENCE,
    NFIT_CONTROL_NOWHERE, NFIT_CONTROL_TWICE, NFIT_HANDLE_NOWHERE, NFIT_INDEX, NFIT_INTERLEAVE_NOWHERE, NFIT_LINE_SIZE,
    NFIT_RANGE_NOWHERE, NFIT_RANGE_TWICE, RHCT_FREQUENCY, RHCT_ISA, RHCT_MMU, RHCT_REFERENCE, RHCT_UID_TWICE,
    SPCR_SPACE, SPCR_ZERO, VIOT_BASE, VIOT_ENDPOINT, VIOT_NODES, VIOT_OUTPUT, WDAT_COUNT, WDAT_HEADER, WDAT_PERIOD,
    WDAT_SPACE,
};
use super::machines::{PCCT_LENGTH, PPTT_OFFSET, TPM2_LOG};
use super::madt::{MADT_LINT, MADT_NMI_UID, MADT_OVERRIDE_BUS, MADT_OVERRIDE_SOURCE, MADT_PROCESSOR_FLAGS};
use super::rows::Test::{In, Named, Of, Once, Without};
use super::rows::{ANY, Row, TABLE, When};

/// The rows of tables, for each the lines `SIGNATURE WHEN;` and then `RULE STRUCTURE FIELD TEST;`, where `@ OFFSET
/// LENGTH` may come before the test if the number isn't all of the field.
macro_rules! rows {
    ($($table:literal $when:expr; $($rule:ident $structure:tt $field:literal $(@ $at:literal $length:literal)? $test:expr;)*)*) => {
        /// The rows of tables of a signature, some of which only count where a number of the table passes a test.
        pub(super) static ROWS: &[(&str, Option<When>, &[Row])] =
            &[$(($table, $when, &[$(Row::of(&$rule, $structure, $field, $test)$(.part($at, $length))?),*])),*];
    };
}

rows! {
    "APIC" None;
    MADT_PROCESSOR_FLAGS "Processor Local APIC" "Flags" Named;
    MADT_PROCESSOR_FLAGS "Processor Local x2APIC" "Flags" Named;
    MADT_OVERRIDE_BUS "Interrupt Source Override" "Bus" In(&[0..=0]);
    MADT_OVERRIDE_SOURCE "Interrupt Source Override" "Source" In(&[0..=15]);
    MADT_LINT "Local APIC NMI" "Local APIC LINT#" In(&[0..=1]);
    MADT_LINT "Local x2APIC NMI" "Local x2APIC LINT#" In(&[0..=1]);
    MADT_NMI_UID "Local APIC NMI" "ACPI Processor UID"
        Of(Some(0xff), &[("Processor Local APIC", "ACPI Processor UID"),
            ("Processor Local x2APIC", "ACPI Processor UID"), ("GIC CPU Interface (GICC)", "ACPI Processor UID")]);
    MADT_NMI_UID "Local x2APIC NMI" "ACPI Processor UID"
        Of(Some(0xffffffff), &[("Processor Local APIC", "ACPI Processor UID"),
            ("Processor Local x2APIC", "ACPI Processor UID"), ("GIC CPU Interface (GICC)", "ACPI Processor UID")]);
    "BERT" None;
    BERT_LENGTH TABLE "Boot Error Region Length" In(&[1..=0xffffffff]);
    BERT_REGION TABLE "Boot Error Region" In(&[1..=0xffffffffffffffff]);
    "BGRT" None;
    BGRT_VERSION TABLE "Version" In(&[1..=1]);
    BGRT_TYPE TABLE "Image Type" In(&[0..=0]);
    BGRT_ZERO TABLE "Image Address" In(&[1..=0xffffffffffffffff]);
    "CEDT" None;
    CEDT_BRIDGE_TWICE "CXL Host Bridge Structure (CHBS)" "UID" Once;
    CEDT_REGISTERS "CXL Host Bridge Structure (CHBS)" "Base" In(&[1..=0xffffffffffffffff]);
    CEDT_TARGET_NOWHERE "CXL Fixed Memory Window Structure (CFMWS)" "Interleave Target List"
        Of(None, &[("CXL Host Bridge Structure (CHBS)", "UID")]);
    CEDT_WINDOW_BASE "CXL Fixed Memory Window Structure (CFMWS)" "Base HPA" Without(0xfffffff);
    CEDT_WINDOW_EMPTY "CXL Fixed Memory Window Structure (CFMWS)" "Window Size" In(&[1..=0xffffffffffffffff]);
    CEDT_WINDOW_SIZE "CXL Fixed Memory Window Structure (CFMWS)" "Window Size" Without(0xfffffff);
    "DMAR" None;
    DMAR_WIDTH TABLE "Host Address Width" In(&[31..=63]);
    DMAR_BASE "DMA Remapping Hardware Unit Definition (DRHD)" "Register Base Address"
        In(&[0x1000..=0xfffffffffffff000]);
    DMAR_BASE "DMA Remapping Hardware Unit Definition (DRHD)" "Register Base Address" Without(0xfff);
    DMAR_BASE_TWICE "DMA Remapping Hardware Unit Definition (DRHD)" "Register Base Address" Once;
    "ECDT" None;
    ECDT_SPACE TABLE "EC_CONTROL" @ 0 1 In(&[0..=1]);
    ECDT_WIDTH TABLE "EC_CONTROL" @ 1 1 In(&[8..=8]);
    ECDT_ADDRESS TABLE "EC_CONTROL" @ 4 8 In(&[1..=0xffffffffffffffff]);
    ECDT_SPACE TABLE "EC_DATA" @ 0 1 In(&[0..=1]);
    ECDT_WIDTH TABLE "EC_DATA" @ 1 1 In(&[8..=8]);
    ECDT_ADDRESS TABLE "EC_DATA" @ 4 8 In(&[1..=0xffffffffffffffff]);
    ECDT_ID TABLE "EC_ID" @ 0 1 In(&[0x5c..=0x5c]);
    "EINJ" None;
    EINJ_ACTION "Injection Instruction Entry" "Injection Action" In(&[0..=0x11]);
    EINJ_INSTRUCTION "Injection Instruction Entry" "Instruction" In(&[0..=4]);
    EINJ_SPACE "Injection Instruction Entry" "Register Region" @ 0 1 In(&[0..=1]);
    "ERST" None;
    ERST_ACTION "Serialization Instruction Entry" "Serialization Action" In(&[0..=0x10]);
    ERST_INSTRUCTION "Serialization Instruction Entry" "Instruction" In(&[0..=0x12]);
    ERST_SPACE "Serialization Instruction Entry" "Register Region" @ 0 1 In(&[0..=1]);
    "FACP" None;
    FADT_PROFILE TABLE "Preferred_PM_Profile" Named;
    FADT_RESERVED_FLAGS TABLE "IAPC_BOOT_ARCH" Named;
    FADT_RESERVED_FLAGS TABLE "Flags" Named;
    FADT_RESERVED_FLAGS TABLE "ARM_BOOT_ARCH" Named;
    "FACP" Some((112, 4, Without(0x100000)));
    FADT_SCI_INTERRUPT TABLE "SCI_INT" In(&[1..=0xffff]);
    FADT_EVENT_LENGTH TABLE "PM1_EVT_LEN" In(&[4..=255]);
    FADT_CONTROL_LENGTH TABLE "PM1_CNT_LEN" In(&[2..=255]);
    FADT_TIMER_LENGTH TABLE "PM_TMR_LEN" In(&[0..=4]);
    FADT_TIMER_LENGTH TABLE "PM_TMR_LEN" Without(3);
    FADT_GPE_LENGTH TABLE "GPE0_BLK_LEN" Without(1);
    FADT_GPE_LENGTH TABLE "GPE1_BLK_LEN" Without(1);
    "GTDT" None;
    GTDT_INTERRUPT TABLE "Secure EL1 Timer GSIV" In(&[0..=0, 16..=31, 1056..=1119]);
    GTDT_INTERRUPT TABLE "Non-Secure EL1 Timer GSIV" In(&[0..=0, 16..=31, 1056..=1119]);
    GTDT_INTERRUPT TABLE "Virtual EL1 Timer GSIV" In(&[0..=0, 16..=31, 1056..=1119]);
    GTDT_INTERRUPT TABLE "EL2 Timer GSIV" In(&[0..=0, 16..=31, 1056..=1119]);
    GTDT_INTERRUPT TABLE "Virtual EL2 Timer GSIV" In(&[0..=0, 16..=31, 1056..=1119]);
    "HEST" None;
    HEST_SOURCE_TWICE ANY "Source Id" Once;
    HEST_RELATED_NOWHERE ANY "Related Source Id" Of(Some(0xffff), &[("*", "Source Id")]);
    HEST_ENABLED ANY "Enabled" In(&[0..=1]);
    HEST_RECORDS ANY "Number of Records To Pre-allocate" In(&[1..=0xffffffff]);
    HEST_STATUS_ADDRESS ANY "Error Status Address" @ 4 8 In(&[1..=0xffffffffffffffff]);
    HEST_NOTIFICATION ANY "Type" In(&[0..=11]);
    HEST_NOTIFICATION_LENGTH ANY "Length" In(&[28..=28]);
    "HMAT" None;
    HMAT_DATA_TYPE "System Locality Latency and Bandwidth Information Structure" "Data Type" In(&[0..=5]);
    HMAT_INITIATORS "System Locality Latency and Bandwidth Information Structure" "Number of Initiator Proximity Domains"
        In(&[1..=0xffffffff]);
    HMAT_TARGETS "System Locality Latency and Bandwidth Information Structure" "Number of Target Proximity Domains"
        In(&[1..=0xffffffff]);
    HMAT_BASE_UNIT "System Locality Latency and Bandwidth Information Structure" "Entry Base Unit"
        In(&[1..=0xffffffffffffffff]);
    HMAT_CACHE_SIZE "Memory Side Cache Information Structure" "Memory Side Cache Size" In(&[1..=0xffffffffffffffff]);
    "HPET" None;
    HPET_SPACE TABLE "BASE_ADDRESS" @ 0 1 In(&[0..=0]);
    HPET_ZERO TABLE "BASE_ADDRESS" @ 4 8 In(&[1..=0xffffffffffffffff]);
    HPET_UNALIGNED TABLE "BASE_ADDRESS" @ 4 8 Without(0x3ff);
    "IORT" None;
    IORT_NODES TABLE "Offset to Array of IORT Nodes" In(&[48..=0xffffffff]);
    IORT_ITS_COUNT "ITS Group" "Number of ITSs" In(&[1..=0xffffffff]);
    IORT_BASE "SMMUv1 or SMMUv2" "Base address" In(&[1..=0xffffffffffffffff]);
    IORT_BASE "SMMUv3" "Base Address" In(&[1..=0xffffffffffffffff]);
    IORT_REFERENCE "ID mapping" "Output Reference"
        Of(None, &[("ITS Group", ""), ("SMMUv1 or SMMUv2", ""), ("SMMUv3", "")]);
    IORT_NODE "PMCG" "Node reference"
        Of(Some(0), &[("Named component", ""), ("Root complex", ""), ("SMMUv1 or SMMUv2", ""), ("SMMUv3", "")]);
    IORT_RANGE "Memory Range Descriptor" "Physical Range offset" Without(0xffff);
    IORT_RANGE_EMPTY "Memory Range Descriptor" "Physical Range length" In(&[1..=0xffffffffffffffff]);
    IORT_RANGE "Memory Range Descriptor" "Physical Range length" Without(0xffff);
    "IORT" Some((8, 1, In(&[3..=255])));
    IORT_IDENTIFIER ANY "Identifier" Once;
    "NFIT" None;
    NFIT_INDEX "System Physical Address (SPA) Range Structure" "SPA Range Structure Index" In(&[1..=0xffff]);
    NFIT_RANGE_TWICE "System Physical Address (SPA) Range Structure" "SPA Range Structure Index" Once;
    NFIT_RANGE_NOWHERE "NVDIMM Region Mapping Structure" "SPA Range Structure Index"
        Of(Some(0), &[("System Physical Address (SPA) Range Structure", "SPA Range Structure Index")]);
    NFIT_CONTROL_NOWHERE "NVDIMM Region Mapping Structure" "NVDIMM Control Region Structure Index"
        Of(Some(0), &[("NVDIMM Control Region Structure", "NVDIMM Control Region Structure Index")]);
    NFIT_CONTROL_NOWHERE "NVDIMM Block Data Window Region Structure" "NVDIMM Control Region Structure Index"
        Of(Some(0), &[("NVDIMM Control Region Structure", "NVDIMM Control Region Structure Index")]);
    NFIT_CONTROL_TWICE "NVDIMM Control Region Structure" "NVDIMM Control Region Structure Index" Once;
    NFIT_INTERLEAVE_NOWHERE "NVDIMM Region Mapping Structure" "Interleave Structure Index"
        Of(Some(0), &[("Interleave Structure", "Interleave Structure Index")]);
    NFIT_LINE_SIZE "Interleave Structure" "Line Size" In(&[1..=0xffffffff]);
    NFIT_HANDLE_NOWHERE "Flush Hint Address Structure" "NFIT Device Handle"
        Of(None, &[("NVDIMM Region Mapping Structure", "NFIT Device Handle")]);
    "PCCT" None;
    PCCT_LENGTH "Generic Communications Subspace" "Length" In(&[1..=0xffffffffffffffff]);
    PCCT_LENGTH "HW-Reduced Communications Subspace" "Length" In(&[1..=0xffffffffffffffff]);
    PCCT_LENGTH "HW-Reduced Communications Subspace Type 2" "Length" In(&[1..=0xffffffffffffffff]);
    PCCT_LENGTH "Extended PCC Subspace, initiator" "Memory Range Length" In(&[1..=0xffffffff]);
    PCCT_LENGTH "Extended PCC Subspace, responder" "Memory Range Length" In(&[1..=0xffffffff]);
    PCCT_LENGTH "HW Registers based Communications Subspace" "Shared Memory Range Length" In(&[1..=0xffffffffffffffff]);
    "PPTT" None;
    PPTT_OFFSET "Processor hierarchy node structure" "Parent"
        Of(Some(0), &[("Processor hierarchy node structure", "")]);
    PPTT_OFFSET "Processor hierarchy node structure" "Private resource"
        Of(None, &[("Cache Type Structure", ""), ("ID structure", "")]);
    PPTT_OFFSET "Cache Type Structure" "Next Level of Cache" Of(Some(0), &[("Cache Type Structure", "")]);
    "RHCT" None;
    RHCT_FREQUENCY TABLE "Time Base Frequency" In(&[1..=0xffffffffffffffff]);
    RHCT_ISA "ISA String Node" "ISA Length" In(&[1..=0xffff]);
    RHCT_MMU "MMU Node" "MMU Type" In(&[0..=2]);
    RHCT_UID_TWICE "Hart Info Node" "ACPI Processor UID" Once;
    RHCT_REFERENCE "Hart Info Node" "Offset"
        Of(None, &[("ISA String Node", ""), ("Cache Management Operation (CMO) Extension Node", ""), ("MMU Node", "")]);
    "SPCR" Some((40, 4, In(&[1..=0xffffffff])));
    SPCR_SPACE TABLE "Base Address" @ 0 1 In(&[0..=1]);
    SPCR_ZERO TABLE "Base Address" @ 4 8 In(&[1..=0xffffffffffffffff]);
    "TPM2" Some((64, 4, In(&[1..=0xffffffff])));
    TPM2_LOG TABLE "Log Area Start Address (LASA)" In(&[1..=0xffffffffffffffff]);
    "VIOT" None;
    VIOT_NODES TABLE "Node offset" In(&[48..=0xffff]);
    VIOT_OUTPUT "PCI Range" "Output node"
        Of(None, &[("virtio-iommu based on virtio-pci", ""), ("virtio-iommu based on virtio-mmio", "")]);
    VIOT_OUTPUT "Single MMIO endpoint" "Output node"
        Of(None, &[("virtio-iommu based on virtio-pci", ""), ("virtio-iommu based on virtio-mmio", "")]);
    VIOT_ENDPOINT "Single MMIO endpoint" "Endpoint ID" Once;
    VIOT_BASE "Single MMIO endpoint" "Base address" In(&[1..=0xffffffffffffffff]);
    VIOT_BASE "virtio-iommu based on virtio-mmio" "Base address" In(&[1..=0xffffffffffffffff]);
    "WDAT" None;
    WDAT_HEADER TABLE "Watchdog Header Length" In(&[32..=32]);
    WDAT_PERIOD TABLE "Timer Period" In(&[1..=0xffffffff]);
    WDAT_COUNT TABLE "Maximum Count" In(&[1..=0xffffffff]);
    WDAT_SPACE "Watchdog Instruction Entry" "Register Region" @ 0 1 In(&[0..=1]);
}
