//! A device over buffers that are lent to it. Nothing is allocated: answers stand in a buffer
//! that each call is lent.

use crate::{calls, Head, Moves, Pieces, Refusal, Report, Sizes};

/// A device over borrowed words, for a host that keeps them where it likes: in static memory,
/// in an arena, in what it saves. A refused call leaves it as it was.
///
/// ```
/// use utasiro::{Borrowed, Piece, Refusal, Sizes};
///
/// const SIZES: Sizes = Sizes { blocks: 4, pages: 16, logical: 32, slots: 16 };
/// let mut extents = [0; SIZES.extent_words()];
/// let mut blocks = [0; SIZES.block_words()];
/// let mut spare = [0; SIZES.spare_words()];
/// let mut answer = [0; SIZES.write_answer_words()];
///
/// let mut device = Borrowed::fresh(SIZES, &mut extents, &mut blocks, &mut spare)?;
/// let mut pieces = device.write(1, 10, 2, &mut answer)?;
/// assert_eq!(pieces.next(), Some(Piece { logical: 10, physical: 0, count: 2 }));
/// assert_eq!(device.write(1, 10, 2, &mut answer).err(), Some(Refusal::Applied));
/// # Ok::<(), Refusal>(())
/// ```
#[derive(Debug, PartialEq, Eq)]
pub struct Borrowed<'a> {
    head: Head,
    extents: &'a mut [u32],
    blocks: &'a mut [u32],
    spare: &'a mut [u32],
}

impl<'a> Borrowed<'a> {
    /// A fresh device in these words, of exactly the lengths that the sizes ask for; what they
    /// hold does not matter. The host erases every block with it.
    pub fn fresh(
        sizes: Sizes,
        extents: &'a mut [u32],
        blocks: &'a mut [u32],
        spare: &'a mut [u32],
    ) -> Result<Borrowed<'a>, Refusal> {
        let head = calls::fresh(sizes, extents, blocks, spare)?;
        Ok(Borrowed { head, extents, blocks, spare })
    }

    /// A device of a head and words that were kept, as they come: any may be given, and the calls
    /// refuse what is no device.
    pub fn from_parts(
        head: Head,
        extents: &'a mut [u32],
        blocks: &'a mut [u32],
        spare: &'a mut [u32],
    ) -> Borrowed<'a> {
        Borrowed { head, extents, blocks, spare }
    }

    /// Writes `count` logical pages from `start` on, 1 to N of them. `number` must be above that
    /// of every write and trim accepted before. All pages go into the lowest-numbered block outside
    /// the reserve that has room for them, as one piece; only where no block has are they cut. The
    /// host then programs the pages of each piece, in order, saves the state, and only then
    /// acknowledges the request. An answer buffer of three words a page is long enough.
    pub fn write<'b>(
        &mut self,
        number: u64,
        start: u32,
        count: u32,
        answer: &'b mut [u32],
    ) -> Result<Pieces<'b>, Refusal> {
        let (e, b, s) = (&mut *self.extents, &mut *self.blocks, &mut *self.spare);
        let (head, pieces) = calls::write(self.head, e, b, s, number, start, count, answer)?;
        self.head = head;
        Ok(pieces)
    }

    /// Makes holes of `count` logical pages from `start` on. `number` is as for a write. The host
    /// saves the state and only then acknowledges the request.
    pub fn trim(&mut self, number: u64, start: u32, count: u32) -> Result<(), Refusal> {
        self.head = calls::trim(self.head, self.extents, self.blocks, self.spare, number, start, count)?;
        Ok(())
    }

    /// Where `count` logical pages from `start` on are, in logical order. An answer buffer of
    /// three words a page is long enough, and so is one of six words an extent in use and three.
    pub fn read<'b>(&self, start: u32, count: u32, answer: &'b mut [u32]) -> Result<Pieces<'b>, Refusal> {
        calls::read(self.head, self.extents, self.blocks, self.spare, start, count, answer)
    }

    /// Frees the stale pages of the block that has most of them. The host makes the copies, saves
    /// the state, and only then erases the block. An answer buffer of N words is long enough.
    ///
    /// ```
    /// # use utasiro::{Borrowed, Refusal, Sizes};
    /// # const SIZES: Sizes = Sizes { blocks: 4, pages: 16, logical: 32, slots: 16 };
    /// # let (mut e, mut b, mut s) = ([0; SIZES.extent_words()], [0; SIZES.block_words()], [0; SIZES.spare_words()]);
    /// # let mut answer = [0; SIZES.write_answer_words()];
    /// # let mut device = Borrowed::fresh(SIZES, &mut e, &mut b, &mut s)?;
    /// device.write(1, 0, 2, &mut answer)?;
    /// device.write(2, 0, 1, &mut answer)?;
    /// let moves = device.reclaim(&mut answer)?;
    /// assert_eq!(moves.copies().collect::<Vec<_>>(), [(1, 48), (2, 49)]);
    /// assert_eq!(moves.erase, 0);
    /// # Ok::<(), Refusal>(())
    /// ```
    pub fn reclaim<'b>(&mut self, answer: &'b mut [u32]) -> Result<Moves<'b>, Refusal> {
        let (head, moves) = calls::reclaim(self.head, self.extents, self.blocks, self.spare, answer)?;
        self.head = head;
        Ok(moves)
    }

    /// Counts free, live and stale pages.
    pub fn report(&self) -> Result<Report, Refusal> {
        calls::report(self.head, self.extents, self.blocks, self.spare)
    }

    /// The head, which the host keeps together with the words: neither is of use without the other.
    pub fn head(&self) -> Head {
        self.head
    }

    /// 3M words: logical start, physical start, page count of each slot.
    pub fn extents(&self) -> &[u32] {
        self.extents
    }

    /// The words of the [`Block`](crate::Block) records, one for each block.
    pub fn blocks(&self) -> &[u32] {
        self.blocks
    }

    /// B x N words: the label of each physical page.
    pub fn spare(&self) -> &[u32] {
        self.spare
    }
}
