//! A simulated flash: a list of B x N entries, each erased or a number that
//! stands for what the host programmed there. It does what accepted answers
//! list, and faults where a real flash would be spoilt.

use std::fmt;

use crate::HOLE;

#[derive(Clone, Debug, PartialEq, Eq)]
pub struct Flash {
    /// N.
    pages: u32,
    contents: Vec<Option<u64>>,
}

/// What a host must never ask of flash.
#[derive(Clone, Copy, Debug, PartialEq, Eq)]
pub enum Fault {
    /// No such page.
    Outside { page: u32 },
    /// The page is programmed and its block was not erased since.
    ProgrammedTwice { page: u32 },
    /// An earlier page of the block is still erased.
    OutOfOrder { page: u32 },
    /// A page to be copied is erased.
    CopyOfErased { page: u32 },
    /// A page that a read names is erased.
    ReadOfErased { page: u32 },
}

impl fmt::Display for Fault {
    fn fmt(&self, f: &mut fmt::Formatter<'_>) -> fmt::Result {
        match self {
            Fault::Outside { page } => write!(f, "page {page} lies outside the flash"),
            Fault::ProgrammedTwice { page } => write!(f, "page {page} is programmed twice"),
            Fault::OutOfOrder { page } => {
                write!(f, "page {page} is programmed before an earlier one")
            }
            Fault::CopyOfErased { page } => write!(f, "page {page} is copied but erased"),
            Fault::ReadOfErased { page } => write!(f, "page {page} is read but erased"),
        }
    }
}

impl std::error::Error for Fault {}

impl Flash {
    /// An erased flash.
    pub fn erased(blocks: u32, pages: u32) -> Flash {
        Flash { pages, contents: vec![None; blocks as usize * pages as usize] }
    }

    /// What a page holds; none if it is erased or outside.
    pub fn contents(&self, page: u32) -> Option<u64> {
        self.contents.get(page as usize).copied().flatten()
    }

    pub fn program(&mut self, page: u32, contents: u64) -> Result<(), Fault> {
        let index = page as usize;
        if index >= self.contents.len() {
            return Err(Fault::Outside { page });
        }
        if self.contents[index].is_some() {
            return Err(Fault::ProgrammedTwice { page });
        }
        let first_of_block = page % self.pages == 0;
        if !first_of_block && self.contents[index - 1].is_none() {
            return Err(Fault::OutOfOrder { page });
        }
        self.contents[index] = Some(contents);
        Ok(())
    }

    pub fn copy(&mut self, source: u32, target: u32) -> Result<(), Fault> {
        let contents = self.contents(source).ok_or(Fault::CopyOfErased { page: source })?;
        self.program(target, contents)
    }

    pub fn erase(&mut self, block: u32) -> Result<(), Fault> {
        let first = block as usize * self.pages as usize;
        let pages = self.contents.get_mut(first..first + self.pages as usize);
        pages.ok_or(Fault::Outside { page: block.saturating_mul(self.pages) })?.fill(None);
        Ok(())
    }

    /// Programs the triples of an accepted write, each logical page with its
    /// own contents.
    pub fn write(&mut self, triples: &[u32], contents: impl Fn(u32) -> u64) -> Result<(), Fault> {
        for triple in triples.chunks_exact(3) {
            for k in 0..triple[2] {
                self.program(triple[1].saturating_add(k), contents(triple[0].wrapping_add(k)))?;
            }
        }
        Ok(())
    }

    /// Copies the source pages of an accepted reclaim into the block that was
    /// the reserve, then erases the victim, which the new head names.
    pub fn reclaim(&mut self, sources: &[u32], old_reserve: u32, victim: u32) -> Result<(), Fault> {
        for (target, &source) in (old_reserve * self.pages..).zip(sources) {
            self.copy(source, target)?;
        }
        self.erase(victim)
    }

    /// What the pieces of an accepted read hold, one entry per logical page: a
    /// hole is none.
    pub fn read(&self, triples: &[u32]) -> Result<Vec<Option<u64>>, Fault> {
        let mut entries = Vec::new();
        for triple in triples.chunks_exact(3) {
            for k in 0..triple[2] {
                entries.push(self.entry(triple[1], k)?);
            }
        }
        Ok(entries)
    }

    fn entry(&self, physical: u32, k: u32) -> Result<Option<u64>, Fault> {
        if physical == HOLE {
            return Ok(None);
        }
        let page = physical.saturating_add(k);
        self.contents(page).map(Some).ok_or(Fault::ReadOfErased { page })
    }
}

#[cfg(test)]
mod tests {
    use super::{Fault, Flash};
    use crate::HOLE;

    #[test]
    fn a_page_is_programmed_once_between_erases_and_in_order() {
        let mut flash = Flash::erased(3, 2);
        assert_eq!(flash.program(1, 5), Err(Fault::OutOfOrder { page: 1 }));
        assert_eq!(flash.program(0, 5), Ok(()));
        assert_eq!(flash.program(0, 5), Err(Fault::ProgrammedTwice { page: 0 }));
        assert_eq!(flash.program(1, 6), Ok(()));
        assert_eq!(flash.program(6, 5), Err(Fault::Outside { page: 6 }));
        assert_eq!(flash.erase(3), Err(Fault::Outside { page: 6 }));
        assert_eq!(flash.erase(0), Ok(()));
        assert_eq!(flash.program(0, 7), Ok(()));
        assert_eq!(flash.contents(1), None);
    }

    #[test]
    fn answers_are_done_as_listed() {
        let mut flash = Flash::erased(3, 2);
        assert_eq!(flash.write(&[4, 0, 2, 6, 2, 1], |l| u64::from(l) * 10), Ok(()));
        assert_eq!(flash.read(&[4, 0, 2, 6, 2, 1]), Ok(vec![Some(40), Some(50), Some(60)]));
        assert_eq!(flash.reclaim(&[1], 2, 0), Ok(()));
        assert_eq!(flash.read(&[4, HOLE, 1, 5, 4, 1]), Ok(vec![None, Some(50)]));
        assert_eq!(flash.read(&[4, 0, 1]), Err(Fault::ReadOfErased { page: 0 }));
        assert_eq!(flash.copy(3, 0), Err(Fault::CopyOfErased { page: 3 }));
    }
}
