//! The device as a table, one line per logical page, and what each call
//! does to it. A call takes the device by value: refused, what was given is
//! dropped and nothing is left half done.

use crate::{Extent, Refusal, ERASED, HOLE};

#[derive(Clone, Debug, PartialEq, Eq)]
pub struct Device {
    /// B.
    pub blocks: u32,
    /// N.
    pub pages: u32,
    /// L.
    pub logical: u32,
    /// M.
    pub slots: u32,
    /// The physical page of each logical page, or [`HOLE`].
    pub table: Vec<u32>,
    /// The fill of each block.
    pub fills: Vec<u32>,
    /// The label of each physical page.
    pub spare: Vec<u32>,
    pub reserve: u32,
    pub last: u64,
}

/// The three counts of a report.
#[derive(Clone, Copy, Debug, PartialEq, Eq)]
pub struct Space {
    pub free: u32,
    pub live: u32,
    pub stale: u32,
}

impl Device {
    /// 01, fresh. The sizes must be those of document 01.
    pub fn fresh(blocks: u32, pages: u32, logical: u32, slots: u32) -> Device {
        Device {
            blocks,
            pages,
            logical,
            slots,
            table: vec![HOLE; logical as usize],
            fills: vec![0; blocks as usize],
            spare: vec![ERASED; (blocks * pages) as usize],
            reserve: blocks - 1,
            last: 0,
        }
    }

    /// 01, write: the answer's pieces, one per block used.
    pub fn write(
        mut self,
        number: u64,
        start: u32,
        count: u32,
        room: usize,
    ) -> Result<(Device, Vec<Extent>), Refusal> {
        if !self.in_range(start, count) || count > self.pages {
            return Err(Refusal::Range);
        }
        if number <= self.last {
            return Err(Refusal::Applied);
        }
        if count > self.free() {
            return Err(Refusal::NoPages);
        }
        let pieces = self.place(start, count);
        self.last = number;
        self.slots_suffice()?;
        if room < 3 * pieces.len() {
            return Err(Refusal::OutShort);
        }
        Ok((self, pieces))
    }

    /// 01, trim.
    pub fn trim(mut self, number: u64, start: u32, count: u32) -> Result<Device, Refusal> {
        if !self.in_range(start, count) {
            return Err(Refusal::Range);
        }
        if number <= self.last {
            return Err(Refusal::Applied);
        }
        self.table[start as usize..(start + count) as usize].fill(HOLE);
        self.last = number;
        self.slots_suffice()?;
        Ok(self)
    }

    /// 01, read.
    pub fn read(&self, start: u32, count: u32, room: usize) -> Result<Vec<Extent>, Refusal> {
        if !self.in_range(start, count) {
            return Err(Refusal::Range);
        }
        let pieces = self.pieces(start, start + count);
        if room < 3 * pieces.len() {
            return Err(Refusal::OutShort);
        }
        Ok(pieces)
    }

    /// 01, reclaim: the source pages. The new reserve is the victim, which the
    /// host must erase. 02, T-12: it needs no slot more, and is not tested for 6.
    pub fn reclaim(mut self, room: usize) -> Result<(Device, Vec<u32>), Refusal> {
        let owners = self.owners();
        let victim = self.victim(&owners).ok_or(Refusal::NothingStale)?;
        let sources = self.copy_into_reserve(victim, &owners);
        self.erase(victim);
        self.reserve = victim;
        if room < sources.len() {
            return Err(Refusal::OutShort);
        }
        Ok((self, sources))
    }

    /// 01, report.
    pub fn report(&self) -> Space {
        Space { free: self.free(), live: self.live(), stale: self.stale() }
    }

    /// The map as extents: mapped pages in maximal joinable runs inside blocks.
    pub fn extents(&self) -> Vec<Extent> {
        let mut pieces = self.pieces(0, self.logical);
        pieces.retain(|piece| piece.physical != HOLE);
        pieces
    }

    /// The number of mapped pages in each block.
    pub fn valid(&self) -> Vec<u32> {
        let mut valid = vec![0; self.blocks as usize];
        for &page in self.table.iter().filter(|&&page| page != HOLE) {
            valid[(page / self.pages) as usize] += 1;
        }
        valid
    }

    fn in_range(&self, start: u32, count: u32) -> bool {
        count != 0 && u64::from(start) + u64::from(count) <= u64::from(self.logical)
    }

    fn slots_suffice(&self) -> Result<(), Refusal> {
        if self.extents().len() > self.slots as usize {
            return Err(Refusal::NoNodes);
        }
        Ok(())
    }

    /// The sum of N - fill over all blocks but the reserve.
    fn free(&self) -> u32 {
        (0..self.blocks)
            .filter(|&block| block != self.reserve)
            .map(|block| self.pages - self.fills[block as usize])
            .sum()
    }

    /// The count of mapped logical pages.
    fn live(&self) -> u32 {
        self.table.iter().filter(|&&page| page != HOLE).count() as u32
    }

    /// The count of stale pages.
    fn stale(&self) -> u32 {
        let owners = self.owners();
        (0..self.blocks).map(|block| self.stale_in(block, &owners)).sum()
    }

    /// The logical page that maps to each physical page, or [`HOLE`].
    fn owners(&self) -> Vec<u32> {
        let mut owners = vec![HOLE; self.spare.len()];
        for (l, &page) in (0..).zip(&self.table) {
            if page != HOLE {
                owners[page as usize] = l;
            }
        }
        owners
    }

    /// The programmed pages of a block, those below its fill.
    fn programmed(&self, block: u32) -> std::ops::Range<usize> {
        let first = (block * self.pages) as usize;
        first..first + self.fills[block as usize] as usize
    }

    /// A programmed page is stale when no logical page maps to it.
    fn stale_in(&self, block: u32, owners: &[u32]) -> u32 {
        owners[self.programmed(block)].iter().filter(|&&owner| owner == HOLE).count() as u32
    }

    /// The block with most stale pages, lowest number on a tie; none if no page
    /// is stale.
    fn victim(&self, owners: &[u32]) -> Option<u32> {
        let mut victim = None;
        let mut most = 0;
        for block in 0..self.blocks {
            let stale = self.stale_in(block, owners);
            if stale > most {
                most = stale;
                victim = Some(block);
            }
        }
        victim
    }

    /// Takes pages for a write and programs them; free pages must suffice. Returns one
    /// piece per block used. 02, T-04: all from the lowest-numbered block outside the
    /// reserve that has room for all of them; only if there is none, in 01's order.
    fn place(&mut self, start: u32, count: u32) -> Vec<Extent> {
        match self.roomy_block(0, count) {
            Some(block) => {
                let physical = block * self.pages + self.fills[block as usize];
                (start..start + count).for_each(|l| {
                    self.program(block, l);
                });
                vec![Extent { logical: start, physical, count }]
            }
            None => self.place_in_turn(start, count),
        }
    }

    /// 01: pages are taken one at a time from the lowest-numbered block, not the
    /// reserve, whose fill is below N.
    fn place_in_turn(&mut self, start: u32, count: u32) -> Vec<Extent> {
        let mut pieces: Vec<Extent> = Vec::new();
        let mut last_block = None;
        for l in start..start + count {
            // No block below one that took a page has room.
            let block = self.roomy_block(last_block.unwrap_or(0), 1).expect("a free page");
            let page = self.program(block, l);
            match pieces.last_mut() {
                Some(piece) if last_block == Some(block) => piece.count += 1,
                _ => pieces.push(Extent { logical: l, physical: page, count: 1 }),
            }
            last_block = Some(block);
        }
        pieces
    }

    /// The lowest-numbered block from `from` on, not the reserve, that has room for so
    /// many pages.
    fn roomy_block(&self, from: u32, count: u32) -> Option<u32> {
        let has_room = |block: u32| self.pages - self.fills[block as usize] >= count;
        (from..self.blocks).find(|&block| block != self.reserve && has_room(block))
    }

    /// Maps a logical page to the next page of a block and labels it.
    fn program(&mut self, block: u32, logical: u32) -> u32 {
        let page = block * self.pages + self.fills[block as usize];
        self.fills[block as usize] += 1;
        self.spare[page as usize] = logical;
        self.table[logical as usize] = page;
        page
    }

    /// Copies the victim's mapped pages in physical order into the reserve.
    fn copy_into_reserve(&mut self, victim: u32, owners: &[u32]) -> Vec<u32> {
        let mut sources = Vec::new();
        for page in self.programmed(victim) {
            if owners[page] != HOLE {
                sources.push(page as u32);
                self.program(self.reserve, owners[page]);
            }
        }
        sources
    }

    fn erase(&mut self, block: u32) {
        let first = (block * self.pages) as usize;
        self.spare[first..first + self.pages as usize].fill(ERASED);
        self.fills[block as usize] = 0;
    }

    /// The table from `start` up to `end` in logical order: extents clipped, and
    /// maximal holes.
    fn pieces(&self, start: u32, end: u32) -> Vec<Extent> {
        let mut pieces: Vec<Extent> = Vec::new();
        for l in start..end {
            let page = self.table[l as usize];
            match pieces.last_mut() {
                Some(piece) if self.continues(*piece, page) => piece.count += 1,
                _ => pieces.push(Extent { logical: l, physical: page, count: 1 }),
            }
        }
        pieces
    }

    /// Whether the logical page after a piece, mapped to `page`, belongs to it.
    fn continues(&self, piece: Extent, page: u32) -> bool {
        if piece.physical == HOLE {
            return page == HOLE;
        }
        page == piece.physical + piece.count && page / self.pages == piece.physical / self.pages
    }
}
