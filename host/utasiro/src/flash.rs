//! A simulated flash: B x N pages, each erased or a number that stands for what
//! the host programmed there. It faults where a real flash would be spoilt.

use std::collections::BTreeMap;
use std::error::Error;
use std::fmt;
use std::vec::Vec;

/// What a host must never ask of flash.
#[non_exhaustive]
#[derive(Clone, Copy, Debug, PartialEq, Eq)]
pub enum Fault {
    /// No such page.
    Outside { page: u32 },
    /// No such block.
    NoBlock { block: u32 },
    /// The page is programmed and its block was not erased since.
    ProgrammedTwice { page: u32 },
    /// An earlier page of the block is still erased.
    OutOfOrder { page: u32 },
    /// A page to be copied is erased.
    CopyOfErased { page: u32 },
}

impl fmt::Display for Fault {
    fn fmt(&self, f: &mut fmt::Formatter<'_>) -> fmt::Result {
        match self {
            Fault::Outside { page } => write!(f, "page {page} lies outside the flash"),
            Fault::NoBlock { block } => write!(f, "block {block} lies outside the flash"),
            Fault::ProgrammedTwice { page } => write!(f, "page {page} is programmed twice"),
            Fault::OutOfOrder { page } => write!(f, "page {page} is programmed before an earlier one"),
            Fault::CopyOfErased { page } => write!(f, "page {page} is copied but erased"),
        }
    }
}

impl Error for Fault {}

/// A simulated flash, of any number of blocks and pages.
///
/// ```
/// use utasiro::{Fault, Flash};
///
/// let mut flash = Flash::erased(3, 2);
/// flash.program(0, 7)?;
/// assert_eq!(flash.contents(0), Some(7));
/// assert_eq!(flash.program(0, 8), Err(Fault::ProgrammedTwice { page: 0 }));
/// assert_eq!(flash.program(3, 8), Err(Fault::OutOfOrder { page: 3 }));
/// flash.copy(0, 2)?;
/// flash.erase(0)?;
/// assert_eq!((flash.contents(0), flash.contents(2)), (None, Some(7)));
/// assert_eq!(flash.erase(3), Err(Fault::NoBlock { block: 3 }));
/// # Ok::<(), Fault>(())
/// ```
#[derive(Clone, Debug, PartialEq, Eq)]
pub struct Flash {
    /// B.
    blocks: u32,
    /// N.
    pages: u32,
    /// What each programmed page holds. Wider than a page's number, so that no sum runs over.
    contents: BTreeMap<u64, u64>,
}

impl Flash {
    /// An erased flash.
    pub fn erased(blocks: u32, pages: u32) -> Flash {
        Flash { blocks, pages, contents: BTreeMap::new() }
    }

    /// What a page holds; none if it is erased or outside.
    pub fn contents(&self, page: u32) -> Option<u64> {
        self.contents.get(&u64::from(page)).copied()
    }

    /// Programs an erased page. The pages before it in its block must be programmed.
    pub fn program(&mut self, page: u32, contents: u64) -> Result<(), Fault> {
        let at = u64::from(page);
        let pages = u64::from(self.pages);
        if at >= u64::from(self.blocks) * pages {
            return Err(Fault::Outside { page });
        }
        if self.contents.contains_key(&at) {
            return Err(Fault::ProgrammedTwice { page });
        }
        if at % pages != 0 && !self.contents.contains_key(&(at - 1)) {
            return Err(Fault::OutOfOrder { page });
        }
        self.contents.insert(at, contents);
        Ok(())
    }

    /// Programs a page with what another one holds.
    pub fn copy(&mut self, source: u32, target: u32) -> Result<(), Fault> {
        let contents = self.contents(source).ok_or(Fault::CopyOfErased { page: source })?;
        self.program(target, contents)
    }

    /// Erases a block.
    pub fn erase(&mut self, block: u32) -> Result<(), Fault> {
        if block >= self.blocks {
            return Err(Fault::NoBlock { block });
        }
        let first = u64::from(block) * u64::from(self.pages);
        let programmed: Vec<u64> =
            self.contents.range(first..first + u64::from(self.pages)).map(|(&page, _)| page).collect();
        for page in programmed {
            self.contents.remove(&page);
        }
        Ok(())
    }
}
