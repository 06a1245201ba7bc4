// Made by scripts/erase of crates/acpi_table_writer/src/error.rt, where it is proved.
//! Why a table is not written.

/// Why a table is not written.
#[derive(Clone, Copy, Debug, PartialEq, Eq)]
#[non_exhaustive]
pub enum WriterError {
    /// A MADT without any processor.
    NoProcessor,
    /// A processor whose uid or id is 0xffffffff, the number that means all processors.
    IdOfAll,
    /// An NMI line of the processor whose uid is 0xffffffff, the number that means all processors.
    UidOfAll,
    /// A SLIT without a distance for each pair of localities.
    BadMatrix,
    /// An address that means none: of 0 in an RSDP, a FADT or of a serial port, and of all ones as a base address
    /// in a GTDT; or an address at which a machine's tables can't be.
    NoAddress,
    /// A FADT with a `Reserved` profile, whose code is one that has a name.
    BadProfile,
    /// A register at address 0 or in an `OemDefined` space below 0xc0, or a block of fixed hardware without bytes.
    BadRegister,
    /// OEMID, OEM Table ID or Creator ID is not valid UTF-8.
    BadName,
    /// The bytes that were given as a table's AML are a whole table, with its header.
    HasHeader,
    /// The slice ends before the table does.
    NoRoom,
    /// The table has 2^32 bytes or more, which its field Length can't hold.
    TooLong,
    /// A range of memory that has no byte, or ends above 2^64 - 1.
    BadRange,
    /// An interface or an address space with the code of another one, or with a reserved code.
    BadCode,
    /// A name in the namespace of 65535 bytes or more, whose length its field can't hold.
    LongName,
    /// A trigger mode or a polarity of an Arm machine that is `SameAsBus`.
    SameAsBus,
    /// A GT Block with more than 1637 frames, whose bytes its field Length can't hold.
    TooManyFrames,
}
