// Made by scripts/erase of crates/acpi_iommu/src/ivrs/blocks.rt, where it is proved.
//! Which unit remaps a device, and which memory has its own rules for it (section 5.2).

use super::block::{Ivhd, Ivmd, IvrsBlock, IvrsBlockIter};
use crate::iommu::error::{IommuError, IommuResult};

/// A unit, and how it treats a device.
#[derive(Clone, Copy, Debug)]
#[non_exhaustive]
pub struct DeviceUnit {
    /// The unit that remaps the device.
    pub unit: Ivhd,
    /// DTE Setting of the entry that covers the device.
    pub settings: u8,
    /// The id by which the unit knows the device: that of the entry's alias, or its own.
    pub source: u16,
}

/// The blocks of one type, in order.
#[derive(Clone, Copy, Debug)]
pub struct BestBlockIter<'a> {
    blocks: IvrsBlockIter<'a>,
    kind: u8,
}

impl<'a> Iterator for BestBlockIter<'a> {
    type Item = IvrsBlock<'a>;

    fn next(&mut self) -> Option<IvrsBlock<'a>> {
        while let Some(block) = self.blocks.next() {
            if block.kind() == self.kind {
                return Some(block);
            }
        }
        None
    }
}

/// The memory with rules for a device, in order (section 5.2).
#[derive(Clone, Copy, Debug)]
pub struct MemoryIter<'a> {
    blocks: IvrsBlockIter<'a>,
    device_id: u16,
}

impl Iterator for MemoryIter<'_> {
    type Item = Ivmd;

    fn next(&mut self) -> Option<Ivmd> {
        while let Some(block) = self.blocks.next() {
            if let Some(memory) = block.memory_for(self.device_id) {
                return Some(memory);
            }
        }
        None
    }
}

/// The blocks in an IVRS' bytes (section 5.2). It needs no handler.
#[derive(Clone, Copy, Debug)]
pub struct IvrsBlocks<'a> {
    table: &'a [u8],
}

impl<'a> IvrsBlocks<'a> {
    /// The blocks in an IVRS' bytes (section 5.2), from the table's first byte on. In fewer than 52 bytes there is
    /// none.
    pub fn over(table: &'a [u8]) -> Self {
        IvrsBlocks { table }
    }

    /// The blocks of the table, in order (section 5.2).
    pub fn blocks(&self) -> IvrsBlockIter<'a> {
        IvrsBlockIter::over(self.table)
    }

    /// Whether the blocks take all bytes of the table, and the entries of each all that are theirs.
    fn is_whole(&self) -> bool {
        self.blocks().is_whole()
    }

    /// Whether there is a block of a type.
    fn has_kind(&self, kind: u8) -> bool {
        let blocks = self.blocks();
        BestBlockIter { blocks, kind }.next().is_some()
    }

    /// The greatest type of an IVHD that the table has, or 0x10 if it has none.
    fn best_kind(&self) -> u8 {
        if self.has_kind(0x40) {
            0x40
        } else if self.has_kind(0x11) {
            0x11
        } else {
            0x10
        }
    }

    /// The units to believe (section 5.2): the IVHDs of the greatest of the types 0x10, 0x11 and 0x40 that the
    /// table has, in order.
    ///
    /// Fails with `InvalidStructureLength` if a block of the table, or a device entry of one, is malformed.
    pub fn blocks_of_best_type(&self) -> IommuResult<BestBlockIter<'a>> {
        if !self.is_whole() {
            return Err(IommuError::InvalidStructureLength);
        }
        Ok(BestBlockIter { blocks: self.blocks(), kind: self.best_kind() })
    }

    /// The unit that remaps a device (section 5.2), by its segment and its id, which is bus, device and function: of
    /// the blocks of the best type the first of the segment one of whose entries covers the id, with the settings of
    /// its first such entry and the id by which the unit knows the device; entries after it don't count. An entry for
    /// all devices covers every id, a special device its source, an ACPI HID device its DeviceID, padding none. `None`
    /// if there is no such block.
    ///
    /// Fails with `InvalidStructureLength` if a block of the table, or a device entry of one, is malformed.
    pub fn block_for(&self, segment: u16, device_id: u16) -> IommuResult<Option<DeviceUnit>> {
        if !self.is_whole() {
            return Err(IommuError::InvalidStructureLength);
        }
        self.find_block(segment, device_id)
    }

    /// The same unit, also of a table that is malformed elsewhere.
    ///
    /// Fails with `InvalidStructureLength` if a device entry is malformed in a block of that type and segment before
    /// it; if there is none, in any of them, or if the blocks end before the table does.
    pub fn find_block(&self, segment: u16, device_id: u16) -> IommuResult<Option<DeviceUnit>> {
        let kind = self.best_kind();
        let mut blocks = self.blocks();
        while let Some(block) = blocks.next() {
            if let Some(unit) = block.unit(kind, segment, device_id) {
                return Ok(Some(unit));
            }
            if block.is_of(kind, segment) && !block.has_whole_entries() {
                return Err(IommuError::InvalidStructureLength);
            }
        }
        blocks.none_found()
    }

    /// The memory that has its own rules for a device (section 5.2), by its id: each IVMD for all devices, for this
    /// one, or for a range that it is in, in order, whatever the device's segment.
    ///
    /// Fails, in this order, with `InvalidStructureLength` if a block of the table, or a device entry of one, is
    /// malformed, and with `InvalidMemoryRange` if start and length of one of these add up to more than 2^64 - 1.
    pub fn memory_for(&self, device_id: u16) -> IommuResult<MemoryIter<'a>> {
        if !self.is_whole() {
            return Err(IommuError::InvalidStructureLength);
        }
        let memory = self.each_memory(device_id);
        let mut rest = memory;
        while let Some(range) = rest.next() {
            if !range.ends_below() {
                return Err(IommuError::InvalidMemoryRange);
            }
        }
        Ok(memory)
    }

    /// The same memory as it is, also of a table that is malformed: the IVMDs before the place where no block
    /// begins.
    pub fn each_memory(&self, device_id: u16) -> MemoryIter<'a> {
        MemoryIter { blocks: self.blocks(), device_id }
    }
}
