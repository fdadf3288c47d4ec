//! What goes into calls and what they answer, as types.

use crate::{Block, HOLE};

/// The sizes of a device, and how many words of each kind it takes.
///
/// ```
/// use utasiro::{Block, Sizes};
///
/// let sizes = Sizes { blocks: 4, pages: 16, logical: 32, slots: 16 };
/// assert_eq!((sizes.extent_words(), sizes.spare_words()), (48, 64));
/// assert_eq!(sizes.block_words(), 4 * Block::WORDS);
/// ```
#[derive(Clone, Copy, Debug, PartialEq, Eq)]
pub struct Sizes {
    /// B, 3 to 1,024.
    pub blocks: u32,
    /// N, the pages of a block, 1 to 256.
    pub pages: u32,
    /// L, the logical pages, 1 to (B-2) x N.
    pub logical: u32,
    /// M, the extent slots, 1 to 8,192. With M at least L no write is ever refused
    /// [`NoNodes`](crate::Refusal::NoNodes).
    pub slots: u32,
}

/// The largest sizes. Beyond them every call is refused, so no buffer need be longer.
pub(crate) const MOST: Sizes = Sizes { blocks: 1024, pages: 256, logical: 1022 * 256, slots: 8192 };

impl Sizes {
    /// Words of the extents: 3M. Sizes above the largest count as the largest, here and below.
    pub const fn extent_words(self) -> usize {
        3 * least(self.slots, MOST.slots) as usize
    }

    /// Words of the block records: [`Block::WORDS`] a block.
    pub const fn block_words(self) -> usize {
        Block::WORDS * least(self.blocks, MOST.blocks) as usize
    }

    /// Words of the spare labels: B x N.
    pub const fn spare_words(self) -> usize {
        least(self.blocks, MOST.blocks) as usize * least(self.pages, MOST.pages) as usize
    }

    /// Words that suffice for the answer to any write: three for each page of a block.
    pub const fn write_answer_words(self) -> usize {
        3 * least(self.pages, MOST.pages) as usize
    }

    /// Words that suffice for the answer to any read: three for each piece, of which there are no
    /// more than pages, and no more than extents with a hole before, between and after them.
    pub const fn read_answer_words(self) -> usize {
        3 * least(least(self.logical, MOST.logical), 2 * least(self.slots, MOST.slots) + 1) as usize
    }

    /// Words that suffice for the answer to any reclaim: one for each page of a block.
    pub const fn reclaim_answer_words(self) -> usize {
        least(self.pages, MOST.pages) as usize
    }
}

const fn least(a: u32, b: u32) -> u32 {
    if a < b {
        a
    } else {
        b
    }
}

/// So many pages from a logical page on, and where they are.
#[derive(Clone, Copy, Debug, PartialEq, Eq)]
pub struct Piece {
    pub logical: u32,
    /// The first physical page, or [`HOLE`].
    pub physical: u32,
    pub count: u32,
}

impl Piece {
    /// Each logical page of the piece with its physical page; none for a hole. Pages whose
    /// number would not fit in 32 bits, which no answer has, are left out.
    ///
    /// ```
    /// use utasiro::{Piece, HOLE};
    ///
    /// let pages: Vec<_> = Piece { logical: 4, physical: 9, count: 2 }.pages().collect();
    /// assert_eq!(pages, [(4, Some(9)), (5, Some(10))]);
    /// let pages: Vec<_> = Piece { logical: 6, physical: HOLE, count: 1 }.pages().collect();
    /// assert_eq!(pages, [(6, None)]);
    /// let pages: Vec<_> = Piece { logical: u32::MAX, physical: 0, count: 2 }.pages().collect();
    /// assert_eq!(pages, [(u32::MAX, Some(0))]);
    /// ```
    pub fn pages(self) -> impl Iterator<Item = (u32, Option<u32>)> {
        (0..self.count).map_while(move |k| {
            let logical = self.logical.checked_add(k)?;
            if self.physical == HOLE {
                return Some((logical, None));
            }
            Some((logical, Some(self.physical.checked_add(k)?)))
        })
    }
}

/// The pieces of a write's or a read's answer, out of the answer buffer.
#[derive(Clone, Debug)]
pub struct Pieces<'a> {
    triples: core::slice::ChunksExact<'a, u32>,
}

impl<'a> Pieces<'a> {
    /// The first `count` triples of a buffer.
    pub(crate) fn of(answer: &'a [u32], count: u32) -> Pieces<'a> {
        let words = answer.len().min(3 * count as usize);
        Pieces { triples: answer[..words].chunks_exact(3) }
    }
}

impl Iterator for Pieces<'_> {
    type Item = Piece;

    fn next(&mut self) -> Option<Piece> {
        let triple = self.triples.next()?;
        Some(Piece { logical: triple[0], physical: triple[1], count: triple[2] })
    }

    fn size_hint(&self) -> (usize, Option<usize>) {
        self.triples.size_hint()
    }
}

impl ExactSizeIterator for Pieces<'_> {}

/// What the host must do after a reclaim, out of the answer buffer: make the copies, save the
/// state, and only then erase the block.
#[derive(Clone, Copy, Debug, PartialEq, Eq)]
pub struct Moves<'a> {
    /// The pages to be copied, in order.
    pub sources: &'a [u32],
    /// Where the first of them goes: the first page of the block that was in reserve. The others
    /// follow it.
    pub target: u32,
    /// The block to erase.
    pub erase: u32,
}

impl<'a> Moves<'a> {
    /// From which physical page to which, in order.
    pub fn copies(self) -> impl Iterator<Item = (u32, u32)> + 'a {
        let targets = (0..).map_while(move |k| self.target.checked_add(k));
        self.sources.iter().copied().zip(targets)
    }
}

/// The three counts. Together they are (B-1) x N.
#[derive(Clone, Copy, Debug, PartialEq, Eq)]
pub struct Report {
    /// Pages that can be written.
    pub free: u32,
    /// Mapped logical pages.
    pub live: u32,
    /// Programmed pages that no logical page maps to.
    pub stale: u32,
}
