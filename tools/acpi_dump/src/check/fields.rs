//! The rules of one field each.

use super::rules::rules;

rules! {
    BERT_LENGTH = Error "bert-length", "ACPI 6.5, section 18.3.1",
        "The boot error region has no bytes", "is %",
        "Write the size of the region, which is at least 20, or remove the table if the machine reports no errors of \
         an earlier boot.";
    BERT_REGION = Error "bert-region", "ACPI 6.5, section 18.3.1",
        "The boot error region is at address 0", "is #",
        "Write the address of the region, in memory that the OS leaves alone, or remove the table.";
    CEDT_BRIDGE_TWICE = Error "cedt-bridge-twice", "CXL 3.0, section 9.17.1",
        "Two host bridges have one UID", "UID # is also at #",
        "Write the _UID of the bridge's own device (ACPI0016) to UID. An OS finds the bridge by it.";
    CEDT_REGISTERS = Error "cedt-registers", "CXL 3.0, section 9.17.1",
        "A host bridge's registers are at address 0", "is #",
        "Write the address of the bridge's component registers, or of its RCRB if CXL Version is 0.";
    CEDT_TARGET_NOWHERE = Error "cedt-target-nowhere", "CXL 3.0, section 9.17.1",
        "A window is of a host bridge that the table lacks", "no host bridge has UID #",
        "Write the UIDs of bridges that have a CHBS, or add the missing one. An OS can't use the window otherwise.";
    CEDT_WINDOW_BASE = Error "cedt-window-base", "CXL 3.0, section 9.17.1",
        "A window's base isn't at a multiple of 256 MiB", "# isn't a multiple of 0x10000000",
        "Place the window at a multiple of 256 MiB, as the decoders of host bridges need it.";
    CEDT_WINDOW_EMPTY = Error "cedt-window-empty", "CXL 3.0, section 9.17.1",
        "A window has no bytes", "is %",
        "Write the size of the window, or remove the structure.";
    CEDT_WINDOW_SIZE = Error "cedt-window-size", "CXL 3.0, section 9.17.1",
        "A window's size isn't a multiple of 256 MiB", "# isn't a multiple of 0x10000000",
        "Write a multiple of 256 MiB, and of 256 MiB times the number of bridges among which the window is \
         interleaved.";
    DMAR_BASE = Error "dmar-base", "Intel VT-d 4.0, section 8.3",
        "A unit's registers are at no page", "# is no page of 0x1000",
        "Write the address of the unit's registers, which is a multiple of 4 KiB and not 0. An OS that finds no \
         registers there doesn't use the unit.";
    DMAR_BASE_TWICE = Error "dmar-base-twice", "Intel VT-d 4.0, section 8.3",
        "Two units have one register base", "# is also at #",
        "Write the address of each unit's own registers. If it is one unit, list all of its device scopes in one \
         structure.";
    DMAR_WIDTH = Error "dmar-width", "Intel VT-d 4.0, section 8.1",
        "Host Address Width is under 32 bits, or above 64", "is %, which is 1 less than the width",
        "Write how many bits the addresses of DMA have, minus 1: 38 for 39 bits.";
    ECDT_ADDRESS = Error "ecdt-address", "ACPI 6.5, section 5.2.15",
        "A register of the embedded controller is at address 0", "is #",
        "Write the addresses that _CRS of the embedded controller (PNP0C09) has, on most PCs 0x62 for data and 0x66 \
         for control.";
    ECDT_ID = Warning "ecdt-id", "ACPI 6.5, section 5.2.15",
        "EC_ID is no path from the root on", "begins with #, and not with a backslash",
        "Write the whole path of the controller's device from the root on, such as \\_SB.PCI0.LPC0.EC0, and a zero \
         after it.";
    ECDT_SPACE = Error "ecdt-space", "ACPI 6.5, section 5.2.15",
        "A register of the embedded controller is neither in memory nor a port", "has address space %",
        "Set Address Space ID to 1 (system I/O) or 0 (system memory).";
    ECDT_WIDTH = Warning "ecdt-width", "ACPI 6.5, section 5.2.15",
        "A register of the embedded controller hasn't 8 bits", "has % bits",
        "Set Register Bit Width to 8: the controller's registers are bytes.";
    EINJ_ACTION = Error "einj-action", "ACPI 6.5, section 18.6",
        "An action is a reserved one", "# is reserved",
        "Write an action of section 18.6. An OS can't inject errors by an entry that it doesn't know.";
    EINJ_INSTRUCTION = Error "einj-instruction", "ACPI 6.5, section 18.6",
        "An instruction is a reserved one", "# is reserved",
        "Write 0 to 4: read a register, compare it with a value, write to it, write a value to it, or do nothing.";
    EINJ_SPACE = Error "einj-space", "ACPI 6.5, section 18.6",
        "A register is neither in memory nor a port", "has address space %",
        "Set Address Space ID of Register Region to 0 (system memory) or 1 (system I/O).";
    ERST_ACTION = Error "erst-action", "ACPI 6.5, section 18.5",
        "An action is a reserved one", "# is reserved",
        "Write an action of section 18.5. An OS can't store error records by an entry that it doesn't know.";
    ERST_INSTRUCTION = Error "erst-instruction", "ACPI 6.5, section 18.5",
        "An instruction is a reserved one", "# is reserved",
        "Write an instruction of section 18.5, from 0 to 0x12. An OS can't run the action otherwise.";
    ERST_SPACE = Error "erst-space", "ACPI 6.5, section 18.5",
        "A register is neither in memory nor a port", "has address space %",
        "Set Address Space ID of Register Region to 0 (system memory) or 1 (system I/O).";
    GTDT_INTERRUPT = Warning "gtdt-interrupt", "ACPI 6.5, section 5.2.25",
        "A processor's timer has an interrupt that all processors share", "% is no private peripheral interrupt",
        "Write a private peripheral interrupt, from 16 to 31, or from 1056 to 1119 with GICv3.1, or 0 if the timer \
         isn't there.";
    HEST_ENABLED = Error "hest-enabled", "ACPI 6.5, section 18.3.2",
        "Enabled is neither 0 nor 1", "is %",
        "Write 1 if the OS is to use the error source, else 0.";
    HEST_NOTIFICATION = Error "hest-notification", "ACPI 6.5, section 18.3.2",
        "A way of notification is a reserved one", "% is reserved",
        "Write a type of section 18.3.2.9, from 0 (polled) to 11 (software delegated exception).";
    HEST_NOTIFICATION_LENGTH = Error "hest-notification-length", "ACPI 6.5, section 18.3.2",
        "A notification structure hasn't 28 bytes", "is %, and not 28",
        "Write 28, which is the size of the structure.";
    HEST_RECORDS = Warning "hest-records", "ACPI 6.5, section 18.3.2",
        "An error source has no records", "is %",
        "Write how many error records the OS has to allocate for this source beforehand, at least 1.";
    HEST_RELATED_NOWHERE = Error "hest-related-nowhere", "ACPI 6.5, section 18.3.2",
        "An error source is related to one that the table lacks", "no source has the id %",
        "Write the Source Id of another error source, or 0xFFFF if none is related.";
    HEST_SOURCE_TWICE = Error "hest-source-twice", "ACPI 6.5, section 18.3.2",
        "Two error sources have one id", "id % is also at #",
        "Give each error source an id of its own. Linux uses no error source of a table in which two have one.";
    HEST_STATUS_ADDRESS = Error "hest-status-address", "ACPI 6.5, section 18.3.2",
        "The address of an error's status is at address 0", "is #",
        "Write the address of a register in memory, which the firmware sets to the address of the error status block.";
    HMAT_BASE_UNIT = Error "hmat-base-unit", "ACPI 6.5, section 5.2.29.4",
        "The unit of values is 0", "is %",
        "Write the unit of all values, at least 1: picoseconds of latency (with revision 2), or MB/s of bandwidth. A \
         value is an entry times this unit.";
    HMAT_CACHE_SIZE = Warning "hmat-cache-size", "ACPI 6.5, section 5.2.29",
        "A memory side cache has no bytes", "is %",
        "Write the size of the cache in bytes, or remove the structure.";
    HMAT_DATA_TYPE = Error "hmat-data-type", "ACPI 6.5, section 5.2.29.4",
        "The type of values is a reserved one", "% is reserved",
        "Write 0 to 2 for the latency of access, read or write, or 3 to 5 for their bandwidth.";
    HMAT_INITIATORS = Error "hmat-initiators", "ACPI 6.5, section 5.2.29.4",
        "Values are from no domain", "is %",
        "List the domains from which memory is accessed, at least one, or remove the structure.";
    HMAT_TARGETS = Error "hmat-targets", "ACPI 6.5, section 5.2.29.4",
        "Values are to no domain", "is %",
        "List the domains whose memory is accessed, at least one, or remove the structure.";
    IORT_BASE = Error "iort-base", "Arm DEN0049, IORT",
        "The registers of an SMMU are at address 0", "is #",
        "Write the address of the SMMU's registers, or remove the node. An OS can't translate for its devices \
         otherwise.";
    IORT_IDENTIFIER = Warning "iort-identifier", "Arm DEN0049, IORT",
        "Two nodes have one Identifier", "# is also at #",
        "Give each node an Identifier that no other node of the table has.";
    IORT_ITS_COUNT = Error "iort-its-count", "Arm DEN0049, IORT",
        "An ITS group has no ITS", "is %",
        "List the ITSs of the group by their GIC ITS ID in the MADT, at least one, and how many they are.";
    IORT_NODE = Error "iort-node", "Arm DEN0049, IORT",
        "A PMCG is of a node that the table lacks", "no node begins at #",
        "Write the offset of the node whose events the PMCG counts, from the first byte of the table.";
    IORT_NODES = Error "iort-nodes", "Arm DEN0049, IORT",
        "The nodes begin in the table's own fields", "is %, and these end at 48",
        "Write 48 or more: the table's own fields end there.";
    IORT_RANGE = Error "iort-range", "Arm DEN0049, IORT",
        "Reserved memory isn't in pages of 64 KiB", "# isn't a multiple of 0x10000",
        "Write an offset and a length that are multiples of 64 KiB, the largest granule of an SMMU's or a kernel's \
         pages.";
    IORT_RANGE_EMPTY = Error "iort-range-empty", "Arm DEN0049, IORT",
        "Reserved memory has no bytes", "is %",
        "Write how many bytes the memory has, or remove its descriptor.";
    IORT_REFERENCE = Error "iort-reference", "Arm DEN0049, IORT",
        "IDs are mapped to what is neither an SMMU nor an ITS group", "no SMMU or ITS group begins at #",
        "Write the offset of an SMMU or an ITS group, from the first byte of the table. An OS can neither translate \
         for these devices nor route their MSIs otherwise.";
    NFIT_CONTROL_NOWHERE = Error "nfit-control-nowhere", "ACPI 6.5, section 5.2.26",
        "A control region is one that the table lacks", "no control region has index %",
        "Add the control region of this index, or write the index of one that is there. 0 stands for none.";
    NFIT_CONTROL_TWICE = Error "nfit-control-twice", "ACPI 6.5, section 5.2.26",
        "Two control regions have one index", "index % is also at #",
        "Give each control region an index of its own, from 1 on.";
    NFIT_HANDLE_NOWHERE = Warning "nfit-handle-nowhere", "ACPI 6.5, section 5.2.26",
        "Flush hints are of an NVDIMM without a region", "no region has handle #",
        "Write the NFIT Device Handle of an NVDIMM that has a region. An OS can't flush what is written to that \
         NVDIMM otherwise.";
    NFIT_INDEX = Error "nfit-index", "ACPI 6.5, section 5.2.26",
        "The index of a range is 0", "is %",
        "Number the ranges from 1 on: in a region 0 stands for no range.";
    NFIT_INTERLEAVE_NOWHERE = Error "nfit-interleave-nowhere", "ACPI 6.5, section 5.2.26",
        "An interleave structure is one that the table lacks", "no interleave structure has index %",
        "Add the interleave structure of this index, or write 0 if the region isn't interleaved.";
    NFIT_LINE_SIZE = Error "nfit-line-size", "ACPI 6.5, section 5.2.26",
        "A line of an interleave structure has no bytes", "is %",
        "Write how many bytes a line has: the offsets of the lines count such lines.";
    NFIT_RANGE_NOWHERE = Error "nfit-range-nowhere", "ACPI 6.5, section 5.2.26",
        "A region is in a range that the table lacks", "no range has index %",
        "Add the range of this index, or write 0 if the region is in none. An OS can't map the region otherwise.";
    NFIT_RANGE_TWICE = Error "nfit-range-twice", "ACPI 6.5, section 5.2.26",
        "Two ranges have one index", "index % is also at #",
        "Give each range an index of its own, from 1 on.";
    RHCT_FREQUENCY = Error "rhct-frequency", "ACPI 6.6, RHCT",
        "The time base has no frequency", "is %",
        "Write how many times a second the time CSR counts. An OS has no clock otherwise.";
    RHCT_ISA = Error "rhct-isa", "ACPI 6.6, RHCT",
        "The string of instruction sets has no letters", "is %",
        "Write the string, such as rv64imafdc, with a zero after it, and its length with the zero.";
    RHCT_MMU = Error "rhct-mmu", "ACPI 6.6, RHCT",
        "The type of an MMU is a reserved one", "% is reserved",
        "Write 0 (Sv39), 1 (Sv48) or 2 (Sv57).";
    RHCT_REFERENCE = Error "rhct-reference", "ACPI 6.6, RHCT",
        "A hart has a node that the table lacks", "no node begins at #",
        "Write the offset of a node of instruction sets, of cache management or of an MMU, from the first byte of the \
         table.";
    RHCT_UID_TWICE = Error "rhct-uid-twice", "ACPI 6.6, RHCT",
        "Two harts have one UID", "UID % is also at #",
        "Write the UID that the hart has in the MADT, and one Hart Info Node for each.";
    SPCR_SPACE = Error "spcr-space", "Microsoft: Serial Port Console Redirection Table",
        "The port is neither in memory nor at ports", "has address space %",
        "Set Address Space ID of Base Address to 0 (system memory) or 1 (system I/O).";
    SPCR_ZERO = Warning "spcr-zero", "Microsoft: Serial Port Console Redirection Table",
        "A port with a register is at address 0", "is #",
        "Write the address of the port's registers, or 0 to all 12 bytes of Base Address if there is no console.";
    VIOT_BASE = Error "viot-base", "Virtual I/O Translation Table",
        "Registers are at address 0", "is #",
        "Write the address of the registers of the device or of the virtio-iommu, or remove the node.";
    VIOT_ENDPOINT = Warning "viot-endpoint", "Virtual I/O Translation Table",
        "Two devices in memory have one Endpoint ID", "# is also at #",
        "Give each device an Endpoint ID of its own, by which the virtio-iommu knows it.";
    VIOT_NODES = Error "viot-nodes", "Virtual I/O Translation Table",
        "The nodes begin in the table's own fields", "is %, and these end at 48",
        "Write 48 or more: the table's own fields end there.";
    VIOT_OUTPUT = Error "viot-output", "Virtual I/O Translation Table",
        "An endpoint is translated by what is no virtio-iommu", "no virtio-iommu begins at #",
        "Write the offset of a node of a virtio-iommu, from the first byte of the table.";
    WDAT_COUNT = Error "wdat-count", "Microsoft: Hardware Watchdog Timers",
        "The timer counts to 0", "is %",
        "Write the highest count that the timer can be set to. An OS can set no time otherwise.";
    WDAT_HEADER = Error "wdat-header", "Microsoft: Hardware Watchdog Timers",
        "The Watchdog Header Length isn't 32", "is %, and not 32",
        "Write 32, which is the size of the watchdog's header.";
    WDAT_PERIOD = Error "wdat-period", "Microsoft: Hardware Watchdog Timers",
        "The timer has no period", "is %",
        "Write how many milliseconds one count of the timer takes. An OS can set no time otherwise.";
    WDAT_SPACE = Error "wdat-space", "Microsoft: Hardware Watchdog Timers",
        "A register is neither in memory nor a port", "has address space %",
        "Set Address Space ID of Register Region to 0 (system memory) or 1 (system I/O).";
}
