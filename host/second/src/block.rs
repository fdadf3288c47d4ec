//! The record of a block, as it stands in the lent words. How many words a record has
//! and in which order is known here alone.

use crate::Words;

/// 01, numbers: what is kept of a block.
#[derive(Clone, Copy, Debug, PartialEq, Eq)]
pub struct Block {
    pub fill: u32,
    pub valid: u32,
}

impl Block {
    /// The words of a record.
    pub const WORDS: usize = 2;

    /// Where a block's fill stands among the words of all records.
    #[inline]
    pub fn fill_at(block: u32) -> usize {
        Block::WORDS * block as usize
    }

    /// Where a block's valid count stands among the words of all records.
    #[inline]
    pub fn valid_at(block: u32) -> usize {
        Block::WORDS * block as usize + 1
    }

    /// The record of a block. The words must have it.
    #[inline]
    pub fn at(words: &[u32], block: u32) -> Block {
        Block { fill: words[Block::fill_at(block)], valid: words[Block::valid_at(block)] }
    }

    /// Puts the record in its place. The words must have one.
    #[inline]
    pub fn put(self, words: &mut [u32], block: u32) {
        words[Block::fill_at(block)] = self.fill;
        words[Block::valid_at(block)] = self.valid;
    }

    /// The records in order, as many as are whole.
    #[inline]
    pub fn all(words: &[u32]) -> impl Iterator<Item = Block> + '_ {
        words.chunks_exact(Block::WORDS).map(|record| Block::at(record, 0))
    }
}

impl Words {
    /// The record of a block. The words must have it.
    #[inline]
    pub fn block(&self, block: u32) -> Block {
        Block::at(&self.blocks, block)
    }

    /// Puts the record of a block in its place. The words must have one.
    #[inline]
    pub fn put_block(&mut self, block: u32, record: Block) {
        record.put(&mut self.blocks, block);
    }
}

#[cfg(test)]
mod tests {
    use super::Block;

    /// What is put is what is there, and nothing else has changed.
    #[test]
    fn a_record_is_put_in_its_own_words() {
        let words: Vec<u32> = (100..).take(3 * Block::WORDS).collect();
        for block in 0..3 {
            let before: Vec<Block> = Block::all(&words).collect();
            let record = Block { fill: 7, valid: 5 };
            let mut after = words.clone();
            record.put(&mut after, block);
            for other in 0..3 {
                let expected = if other == block { record } else { before[other as usize] };
                assert_eq!(Block::at(&after, other), expected);
            }
            assert_eq!((after[Block::fill_at(block)], after[Block::valid_at(block)]), (7, 5));
            before[block as usize].put(&mut after, block);
            assert_eq!(after, words);
        }
    }
}
