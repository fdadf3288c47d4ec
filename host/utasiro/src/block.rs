//! The record of a block, as it stands in words. How many words a record has and in which order
//! is known here alone.

/// A block record: what is kept of a block, in the words that [`Device::blocks`](crate::Device::blocks)
/// and [`Borrowed::blocks`](crate::Borrowed::blocks) give. A host that goes on after a crash without a
/// [`Store`](crate::Store) needs the fill of each block.
///
/// ```
/// use utasiro::{Block, Device, Refusal, Sizes};
///
/// let mut device = Device::fresh(Sizes { blocks: 4, pages: 16, logical: 32, slots: 16 })?;
/// device.write(1, 0, 5)?;
/// device.write(2, 0, 1)?;
/// let first = Block::at(device.blocks(), 0).expect("a record for each block");
/// assert_eq!((first.fill, first.valid), (6, 5));
/// assert_eq!(Block::at(device.blocks(), 4), None);
/// # Ok::<(), Refusal>(())
/// ```
#[non_exhaustive]
#[derive(Clone, Copy, Debug, Default, PartialEq, Eq)]
pub struct Block {
    /// How many of its pages are programmed, from its first on.
    pub fill: u32,
    /// How many of these a logical page maps to.
    pub valid: u32,
}

impl Block {
    /// The words of a record.
    pub const WORDS: usize = 2;

    /// The record of a block among the words of all; none if these end before it does.
    pub fn at(words: &[u32], block: u32) -> Option<Block> {
        let record = words.chunks_exact(Block::WORDS).nth(block as usize)?;
        Some(Block { fill: record[0], valid: record[1] })
    }

    /// Puts the record in its place among the words of all. False if these end before it does: they
    /// are then as they were.
    pub fn put(self, words: &mut [u32], block: u32) -> bool {
        let place = words.chunks_exact_mut(Block::WORDS).nth(block as usize);
        place.map(|record| record.copy_from_slice(&[self.fill, self.valid])).is_some()
    }
}
