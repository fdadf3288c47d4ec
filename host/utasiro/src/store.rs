//! A device on a board, in the order that outlives a crash. A write: its pages are programmed,
//! then the state is saved, then it is acknowledged. A trim: saved, then acknowledged. A reclaim:
//! its pages are copied, then the state is saved, then the block is erased. docs/CRASHES.md of the
//! repository says what each crash leaves, and why this order; an appliance may follow this file.

use std::error::Error;
use std::fmt;
use std::vec::Vec;

use crate::{Block, Board, Device, Reclaimed, Refusal, Report, Saved, SimulatedBoard, Sizes};

/// Why a store did not do what was asked.
#[non_exhaustive]
#[derive(Clone, Copy, Debug, PartialEq, Eq)]
pub enum Failure<F> {
    /// The layer refused it: nothing has changed.
    Refused(Refusal),
    /// A step of the board failed. It is not known how much was done: the board must be opened
    /// again.
    Board(F),
    /// An earlier step failed, and the board was not opened again since.
    Closed,
    /// Nothing is saved on this board: it must be made fresh.
    NothingSaved,
}

impl<F> From<Refusal> for Failure<F> {
    fn from(refusal: Refusal) -> Failure<F> {
        Failure::Refused(refusal)
    }
}

impl<F: fmt::Display> fmt::Display for Failure<F> {
    fn fmt(&self, f: &mut fmt::Formatter<'_>) -> fmt::Result {
        match self {
            Failure::Refused(refusal) => write!(f, "refused {refusal}"),
            Failure::Board(fault) => write!(f, "the board failed: {fault}"),
            Failure::Closed => write!(f, "an earlier step failed, and the board was not opened again since"),
            Failure::NothingSaved => write!(f, "nothing is saved on this board"),
        }
    }
}

impl<F: fmt::Debug + fmt::Display> Error for Failure<F> {}

/// A device on a board. What it acknowledged outlives a crash; what it did not either has
/// happened or has not, as a whole, and may be sent again with its number.
///
/// ```
/// use utasiro::{Failure, Refusal, SimulatedBoard, Sizes, Store};
///
/// let sizes = Sizes { blocks: 4, pages: 16, logical: 32, slots: 16 };
/// let mut board = SimulatedBoard::new(4, 16);
/// let mut store = Store::fresh(&mut board, sizes)?;
/// store.write(1, 8, &[500, 501, 502])?;
/// assert_eq!(store.write(1, 8, &[500, 501, 502]), Err(Failure::Refused(Refusal::Applied)));
/// store.write(2, 9, &[777])?;
/// store.trim(3, 10, 1)?;
/// store.reclaim()?;
/// assert_eq!(store.read(8, 3)?, [Some(500), Some(777), None]);
///
/// // All that outlives a crash is the board.
/// let mut store = Store::open(&mut board)?;
/// assert_eq!(store.read(8, 3)?, [Some(500), Some(777), None]);
/// assert_eq!(store.trim(3, 10, 1), Err(Failure::Refused(Refusal::Applied)));
/// # Ok::<(), Failure<utasiro::Fault>>(())
/// ```
#[derive(Clone, Debug, PartialEq, Eq)]
pub struct Store<B> {
    device: Device,
    board: B,
    /// False from the moment that the device is ahead of what is durable, until it is not.
    is_open: bool,
}

impl Store<SimulatedBoard> {
    /// A fresh device on a simulated board of its own.
    pub fn simulated(sizes: Sizes) -> Result<Store<SimulatedBoard>, Failure<crate::Fault>> {
        Store::fresh(SimulatedBoard::new(sizes.blocks, sizes.pages), sizes)
    }
}

impl<B: Board> Store<B> {
    /// A fresh device: what was saved is forgotten, every block is erased, then the state is saved.
    /// Sizes that are refused leave the board as it was.
    pub fn fresh(mut board: B, sizes: Sizes) -> Result<Store<B>, Failure<B::Fault>> {
        let device = Device::fresh(sizes)?;
        board.forget().map_err(Failure::Board)?;
        for block in 0..sizes.blocks {
            board.erase(block).map_err(Failure::Board)?;
        }
        let mut store = Store { device, board, is_open: false };
        store.save(None)?;
        store.is_open = true;
        Ok(store)
    }

    /// Goes on from what is durable, whether the store before it ended in peace or in a crash. First
    /// the flash is made such that it is erased from each block's fill on: the reserve is erased, and
    /// a block with pages programmed at or past its fill is put back as the state has it. This may be
    /// cut short and begun again, any number of times. What was saved and is no state is refused.
    pub fn open(board: B) -> Result<Store<B>, Failure<B::Fault>> {
        let Saved { device, putting_back } =
            board.saved().map_err(Failure::Board)?.ok_or(Failure::NothingSaved)?;
        device.report()?;
        let (blocks, reserve) = (device.head().blocks, device.head().reserve);
        let mut store = Store { device, board, is_open: false };
        match putting_back {
            None => {}
            Some(block) if block < blocks && block != reserve => store.put_back(block)?,
            Some(_) => return Err(Failure::Refused(Refusal::Damaged)),
        }
        store.erase(reserve)?;
        for block in 0..blocks {
            if store.is_programmed_past_fill(block)? {
                store.clear_past_fill(block)?;
            }
        }
        store.is_open = true;
        Ok(store)
    }

    /// Writes contents to as many logical pages from `start` on, 1 to N of them.
    pub fn write(&mut self, number: u64, start: u32, contents: &[u64]) -> Result<(), Failure<B::Fault>> {
        self.check_open()?;
        // More pages than 32 bits count are out of range, as 4294967295 are.
        let count = u32::try_from(contents.len()).unwrap_or(u32::MAX);
        let pieces = self.device.write(number, start, count)?;
        self.is_open = false;
        let pages = pieces.into_iter().flat_map(|piece| piece.pages());
        for ((_, page), &contents) in pages.zip(contents) {
            // A write lists no hole.
            if let Some(page) = page {
                self.board.program(page, contents).map_err(Failure::Board)?;
            }
        }
        self.save(None)?;
        self.is_open = true;
        Ok(())
    }

    /// Writes as [`write`](Store::write) does and, as long as pages are wanting, reclaims. At most
    /// B-1 reclaims are made, and then pages are not wanting: of a write in range with a new number
    /// what remains is [`NoNodes`](Refusal::NoNodes), and that only where the extents in use, the
    /// pages of the write and one more do not fit in the slots and the slots are fewer than the
    /// logical pages.
    ///
    /// ```
    /// # use utasiro::{Failure, Refusal, Sizes, Store};
    /// # let mut store = Store::simulated(Sizes { blocks: 3, pages: 4, logical: 4, slots: 4 })?;
    /// store.write(1, 0, &[10, 11, 12, 13])?;
    /// store.write(2, 0, &[20, 21, 22, 23])?;
    /// assert_eq!(store.write(3, 1, &[31]), Err(Failure::Refused(Refusal::NoPages)));
    /// store.write_making_room(3, 1, &[31])?;
    /// assert_eq!(store.read(0, 4)?, [Some(20), Some(31), Some(22), Some(23)]);
    /// # Ok::<(), Failure<utasiro::Fault>>(())
    /// ```
    pub fn write_making_room(
        &mut self,
        number: u64,
        start: u32,
        contents: &[u64],
    ) -> Result<(), Failure<B::Fault>> {
        loop {
            match self.write(number, start, contents) {
                Err(Failure::Refused(Refusal::NoPages)) => self.reclaim()?,
                done => return done,
            };
        }
    }

    /// Makes holes of `count` logical pages from `start` on.
    pub fn trim(&mut self, number: u64, start: u32, count: u32) -> Result<(), Failure<B::Fault>> {
        self.check_open()?;
        self.device.trim(number, start, count)?;
        self.is_open = false;
        self.save(None)?;
        self.is_open = true;
        Ok(())
    }

    /// What `count` logical pages from `start` on hold; none for a hole.
    pub fn read(&self, start: u32, count: u32) -> Result<Vec<Option<u64>>, Failure<B::Fault>> {
        self.check_open()?;
        let pieces = self.device.read(start, count)?;
        let pages = pieces.into_iter().flat_map(|piece| piece.pages());
        pages.map(|(_, page)| page.map_or(Ok(None), |page| self.contents(page))).collect()
    }

    /// Frees the stale pages of the block that has most of them: makes the copies, saves the
    /// state, then erases the block.
    ///
    /// ```
    /// # use utasiro::{Failure, Sizes, Store};
    /// # let mut store = Store::simulated(Sizes { blocks: 4, pages: 16, logical: 32, slots: 16 })?;
    /// store.write(1, 0, &[10, 11])?;
    /// store.write(2, 0, &[20])?;
    /// let reclaimed = store.reclaim()?;
    /// assert_eq!((reclaimed.copies, reclaimed.erase), (vec![(1, 48), (2, 49)], 0));
    /// assert_eq!(store.read(0, 2)?, [Some(20), Some(11)]);
    /// # Ok::<(), Failure<utasiro::Fault>>(())
    /// ```
    pub fn reclaim(&mut self) -> Result<Reclaimed, Failure<B::Fault>> {
        self.check_open()?;
        let reclaimed = self.device.reclaim()?;
        self.is_open = false;
        for &(source, target) in &reclaimed.copies {
            self.board.copy(source, target).map_err(Failure::Board)?;
        }
        self.save(None)?;
        self.erase(reclaimed.erase)?;
        self.is_open = true;
        Ok(reclaimed)
    }

    /// Counts free, live and stale pages.
    pub fn report(&self) -> Result<Report, Failure<B::Fault>> {
        self.check_open()?;
        Ok(self.device.report()?)
    }

    pub fn device(&self) -> &Device {
        &self.device
    }

    pub fn board(&self) -> &B {
        &self.board
    }

    /// The board, which holds all that is durable.
    pub fn into_board(self) -> B {
        self.board
    }

    fn check_open(&self) -> Result<(), Failure<B::Fault>> {
        if self.is_open {
            return Ok(());
        }
        Err(Failure::Closed)
    }

    fn save(&mut self, putting_back: Option<u32>) -> Result<(), Failure<B::Fault>> {
        let state = Saved { device: self.device.clone(), putting_back };
        self.board.save(&state).map_err(Failure::Board)
    }

    fn erase(&mut self, block: u32) -> Result<(), Failure<B::Fault>> {
        self.board.erase(block).map_err(Failure::Board)
    }

    fn contents(&self, page: u32) -> Result<Option<u64>, Failure<B::Fault>> {
        self.board.contents(page).map_err(Failure::Board)
    }

    fn fill(&self, block: u32) -> u32 {
        Block::at(self.device.blocks(), block).expect("a sound state has a record for each block").fill
    }

    fn page(&self, block: u32, offset: u32) -> u32 {
        block * self.device.head().pages + offset
    }

    /// Pages of a block are programmed in order, so the page at its fill tells of those past it.
    fn is_programmed_past_fill(&self, block: u32) -> Result<bool, Failure<B::Fault>> {
        let fill = self.fill(block);
        Ok(fill < self.device.head().pages && self.contents(self.page(block, fill))?.is_some())
    }

    /// Makes a block erased from its fill on, by way of the reserve, which is erased: its pages
    /// below the fill are copied there, and once that is saved, the block is put back.
    fn clear_past_fill(&mut self, block: u32) -> Result<(), Failure<B::Fault>> {
        let reserve = self.device.head().reserve;
        self.copy_below_fill(block, block, reserve)?;
        self.save(Some(block))?;
        self.put_back(block)?;
        self.erase(reserve)
    }

    /// Makes a block anew from its copy in the reserve.
    fn put_back(&mut self, block: u32) -> Result<(), Failure<B::Fault>> {
        self.erase(block)?;
        self.copy_below_fill(block, self.device.head().reserve, block)?;
        self.save(None)
    }

    /// Copies as many pages as a block has below its fill.
    fn copy_below_fill(&mut self, block: u32, from: u32, to: u32) -> Result<(), Failure<B::Fault>> {
        for offset in 0..self.fill(block) {
            let (source, target) = (self.page(from, offset), self.page(to, offset));
            self.board.copy(source, target).map_err(Failure::Board)?;
        }
        Ok(())
    }
}
