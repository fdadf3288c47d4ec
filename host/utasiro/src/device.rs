//! A device that owns its words. Answers come back as lists, so no answer buffer
//! is ever short.

use std::vec;
use std::vec::Vec;

use crate::answer::MOST;
use crate::{calls, Extent, Head, Piece, Refusal, Report, Sizes};

/// What the host must do after a reclaim: make the copies, save the state, and only then
/// erase the block.
#[derive(Clone, Debug, PartialEq, Eq)]
pub struct Reclaimed {
    /// From which physical page to which, in order.
    pub copies: Vec<(u32, u32)>,
    /// The block to erase.
    pub erase: u32,
}

/// A device with the words that it lends. A refused call leaves it as it was.
#[derive(Clone, Debug, PartialEq, Eq)]
pub struct Device {
    head: Head,
    extents: Vec<u32>,
    blocks: Vec<u32>,
    spare: Vec<u32>,
}

impl Device {
    /// A fresh device. The host erases every block with it.
    ///
    /// ```
    /// use utasiro::{Device, Refusal, Report, Sizes};
    ///
    /// let sizes = Sizes { blocks: 4, pages: 16, logical: 32, slots: 16 };
    /// let device = Device::fresh(sizes)?;
    /// assert_eq!(device.head().reserve, 3);
    /// assert_eq!(device.report()?, Report { free: 48, live: 0, stale: 0 });
    /// assert_eq!(Device::fresh(Sizes { logical: 33, ..sizes }), Err(Refusal::Shape));
    /// # Ok::<(), Refusal>(())
    /// ```
    pub fn fresh(sizes: Sizes) -> Result<Device, Refusal> {
        let mut extents = vec![0; sizes.extent_words()];
        let mut blocks = vec![0; sizes.block_words()];
        let mut spare = vec![0; sizes.spare_words()];
        let head = calls::fresh(sizes, &mut extents, &mut blocks, &mut spare)?;
        Ok(Device { head, extents, blocks, spare })
    }

    /// Writes `count` logical pages from `start` on, 1 to N of them. `number` must
    /// be above that of every write and trim accepted before. All pages go into the
    /// lowest-numbered block outside the reserve that has room for them, as one piece;
    /// only where no block has are they cut. The host then programs the pages of each
    /// piece, in order, saves the device, and only then acknowledges the request.
    ///
    /// ```
    /// # use utasiro::{Device, Piece, Refusal, Sizes};
    /// # let mut device = Device::fresh(Sizes { blocks: 4, pages: 16, logical: 32, slots: 16 })?;
    /// device.write(1, 0, 10)?;
    /// // Block 0 has no room for all 16 pages, block 1 has.
    /// let pieces = device.write(2, 10, 16)?;
    /// assert_eq!(pieces, [Piece { logical: 10, physical: 16, count: 16 }]);
    /// // No block but the reserve has room for nine: from the lowest-numbered block on.
    /// device.write(3, 0, 11)?;
    /// let first = Piece { logical: 0, physical: 10, count: 6 };
    /// let second = Piece { logical: 6, physical: 43, count: 3 };
    /// assert_eq!(device.write(4, 0, 9)?, [first, second]);
    /// assert_eq!(device.write(5, 16, 17), Err(Refusal::Range));
    /// # Ok::<(), Refusal>(())
    /// ```
    pub fn write(&mut self, number: u64, start: u32, count: u32) -> Result<Vec<Piece>, Refusal> {
        // One piece per block used, and a write has N pages at most.
        let mut answer = vec![0; 3 * count.min(MOST.pages) as usize];
        let (e, b, s) = (&mut self.extents, &mut self.blocks, &mut self.spare);
        let (head, pieces) = calls::write(self.head, e, b, s, number, start, count, &mut answer)?;
        self.head = head;
        Ok(pieces.collect())
    }

    /// Makes holes of `count` logical pages from `start` on. `number` is as for a
    /// write. The host saves the device and only then acknowledges the request.
    ///
    /// ```
    /// # use utasiro::{Device, Refusal, Sizes};
    /// # let mut device = Device::fresh(Sizes { blocks: 4, pages: 16, logical: 32, slots: 16 })?;
    /// device.write(1, 0, 4)?;
    /// device.trim(2, 0, 32)?;
    /// assert_eq!(device.report()?.stale, 4);
    /// assert_eq!(device.trim(2, 0, 32), Err(Refusal::Applied));
    /// # Ok::<(), Refusal>(())
    /// ```
    pub fn trim(&mut self, number: u64, start: u32, count: u32) -> Result<(), Refusal> {
        let (e, b) = (&mut self.extents, &mut self.blocks);
        self.head = calls::trim(self.head, e, b, &self.spare, number, start, count)?;
        Ok(())
    }

    /// Where `count` logical pages from `start` on are, in logical order.
    ///
    /// ```
    /// # use utasiro::{Device, Piece, Refusal, Sizes, HOLE};
    /// # let mut device = Device::fresh(Sizes { blocks: 4, pages: 16, logical: 32, slots: 16 })?;
    /// device.write(1, 4, 2)?;
    /// let page_5 = Piece { logical: 5, physical: 1, count: 1 };
    /// let hole = Piece { logical: 6, physical: HOLE, count: 3 };
    /// assert_eq!(device.read(5, 4)?, [page_5, hole]);
    /// assert_eq!(device.read(32, 1), Err(Refusal::Range));
    /// # Ok::<(), Refusal>(())
    /// ```
    pub fn read(&self, start: u32, count: u32) -> Result<Vec<Piece>, Refusal> {
        let mut answer = vec![0; 3 * most_pieces(self.head, count)];
        let (e, b, s) = (&self.extents, &self.blocks, &self.spare);
        Ok(calls::read(self.head, e, b, s, start, count, &mut answer)?.collect())
    }

    /// Frees the stale pages of the block that has most of them. The host then
    /// makes the copies, saves the device, and only then erases the block.
    ///
    /// ```
    /// # use utasiro::{Device, Reclaimed, Refusal, Sizes};
    /// # let mut device = Device::fresh(Sizes { blocks: 4, pages: 16, logical: 32, slots: 16 })?;
    /// device.write(1, 0, 4)?;
    /// device.write(2, 1, 2)?;
    /// let copies = vec![(0, 48), (3, 49), (4, 50), (5, 51)];
    /// assert_eq!(device.reclaim()?, Reclaimed { copies, erase: 0 });
    /// assert_eq!(device.reclaim(), Err(Refusal::NothingStale));
    /// # Ok::<(), Refusal>(())
    /// ```
    pub fn reclaim(&mut self) -> Result<Reclaimed, Refusal> {
        let mut answer = vec![0; self.head.pages.min(MOST.pages) as usize];
        let (e, b, s) = (&mut self.extents, &mut self.blocks, &mut self.spare);
        let (head, moves) = calls::reclaim(self.head, e, b, s, &mut answer)?;
        self.head = head;
        Ok(Reclaimed { copies: moves.copies().collect(), erase: moves.erase })
    }

    /// Counts free, live and stale pages.
    ///
    /// ```
    /// # use utasiro::{Device, Refusal, Report, Sizes};
    /// # let mut device = Device::fresh(Sizes { blocks: 4, pages: 16, logical: 32, slots: 16 })?;
    /// device.write(1, 0, 4)?;
    /// device.write(2, 1, 2)?;
    /// assert_eq!(device.report()?, Report { free: 42, live: 4, stale: 2 });
    /// # Ok::<(), Refusal>(())
    /// ```
    pub fn report(&self) -> Result<Report, Refusal> {
        calls::report(self.head, &self.extents, &self.blocks, &self.spare)
    }

    /// A device of a head and words that were kept, as they come: any may be
    /// given, and the calls refuse what is no device.
    ///
    /// ```
    /// # use utasiro::{Block, Device, Refusal, Sizes};
    /// # let device = Device::fresh(Sizes { blocks: 4, pages: 16, logical: 32, slots: 16 })?;
    /// let (head, extents, mut blocks, spare) = device.clone().into_parts();
    /// let same = Device::from_parts(head, extents.clone(), blocks.clone(), spare.clone());
    /// assert_eq!(same, device);
    /// let mut first = Block::at(&blocks, 0).expect("a record for each block");
    /// first.valid = 1;
    /// first.put(&mut blocks, 0);
    /// let damaged = Device::from_parts(head, extents, blocks, spare);
    /// assert_eq!(damaged.report(), Err(Refusal::Damaged));
    /// # Ok::<(), Refusal>(())
    /// ```
    pub fn from_parts(head: Head, extents: Vec<u32>, blocks: Vec<u32>, spare: Vec<u32>) -> Device {
        Device { head, extents, blocks, spare }
    }

    /// The head and the words: extents, blocks, spare.
    pub fn into_parts(self) -> (Head, Vec<u32>, Vec<u32>, Vec<u32>) {
        (self.head, self.extents, self.blocks, self.spare)
    }

    pub fn head(&self) -> Head {
        self.head
    }

    /// 3M words: logical start, physical start, page count of each slot.
    pub fn extents(&self) -> &[u32] {
        &self.extents
    }

    /// The extents as records, one for each slot.
    pub fn records(&self) -> Vec<Extent> {
        let slots = self.extents.chunks_exact(3);
        slots.map(|slot| Extent { logical: slot[0], physical: slot[1], count: slot[2] }).collect()
    }

    /// The words of the [`Block`](crate::Block) records, one for each block.
    pub fn blocks(&self) -> &[u32] {
        &self.blocks
    }

    /// B x N words: the label of each physical page.
    pub fn spare(&self) -> &[u32] {
        &self.spare
    }
}

/// Where `count` logical pages from `start` on are, as [`Device::read`] says it, for a
/// host that keeps its extents as records, as [`read_records_into`](crate::read_records_into) does.
///
/// ```
/// # use utasiro::{read_records, Device, Refusal, Sizes};
/// # let mut device = Device::fresh(Sizes { blocks: 4, pages: 16, logical: 32, slots: 16 })?;
/// device.write(1, 4, 2)?;
/// let extents = device.records();
/// let pieces = read_records(device.head(), &extents, device.blocks(), device.spare(), 0, 32)?;
/// assert_eq!(pieces, device.read(0, 32)?);
/// let short = read_records(device.head(), &extents[1..], device.blocks(), device.spare(), 0, 32);
/// assert_eq!(short, Err(Refusal::Shape));
/// # Ok::<(), Refusal>(())
/// ```
pub fn read_records(
    head: Head,
    extents: &[Extent],
    blocks: &[u32],
    spare: &[u32],
    start: u32,
    count: u32,
) -> Result<Vec<Piece>, Refusal> {
    let mut answer = vec![0; 3 * most_pieces(head, count)];
    Ok(calls::read_records_into(head, extents, blocks, spare, start, count, &mut answer)?.collect())
}

/// A read has at most a piece for each page, and at most each extent and a hole
/// before, between and after them.
fn most_pieces(head: Head, count: u32) -> usize {
    let extents = head.used.min(MOST.slots);
    count.min(2 * extents + 1) as usize
}
