//! A look at the private state of the original's WearLeveling, as a child module of it.

use super::WearLeveling;
use crate::random_access_file::RandomAccessFile;

/// One virtual block as the original holds it.
#[derive(Clone, Copy, Debug, PartialEq, Eq)]
pub struct Block {
    pub physical: u8,
    pub count: u8,
    pub initialized: bool,
    pub dirty: bool,
    /// Zero where the original keeps none, on a large chip.
    pub tickets: [u8; 8],
}

/// All virtual blocks, going up.
pub fn blocks(opened: &WearLeveling) -> Vec<Block> {
    let see = |block: &super::WearLevelingBlock| {
        let mut tickets = [0; 8];
        if let Some(file) = &block.crc_ticket {
            file.read(0, &mut tickets).expect("a block has eight tickets");
        }
        Block {
            physical: block.physical_block,
            count: block.allocate_count,
            initialized: block.initialized,
            dirty: block.dirty,
            tickets,
        }
    };
    opened.blocks.borrow().iter().map(see).collect()
}
