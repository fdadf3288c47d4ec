//! What a store needs of a board, and a simulated one.

use crate::{Device, Fault, Flash};

/// Flash, and a place where the state outlives a crash. Each step is durable when it returns;
/// one that fails, or that a crash cuts short, may have been done, or not, or in part.
///
/// What the methods that change something are asked, in which order, is the whole of what an
/// appliance must keep to: [`Store`](crate::Store) does, over any board.
pub trait Board {
    /// Why a step failed.
    type Fault;

    /// Programs an erased page.
    fn program(&mut self, page: u32, contents: u64) -> Result<(), Self::Fault>;

    /// Programs an erased page with what another one holds.
    fn copy(&mut self, source: u32, target: u32) -> Result<(), Self::Fault>;

    /// Erases a block, which may be erased already, or half erased by a crash.
    fn erase(&mut self, block: u32) -> Result<(), Self::Fault>;

    /// Saves a state in the place of the one that was saved before. However it ends, the one or
    /// the other can be loaded, whole: two places that are written in turn, each with a check
    /// sum, will do.
    fn save(&mut self, state: &Saved) -> Result<(), Self::Fault>;

    /// Forgets what was saved, as if nothing ever was.
    fn forget(&mut self) -> Result<(), Self::Fault>;

    /// What was saved last; none where nothing was, or where it was forgotten.
    fn saved(&self) -> Result<Option<Saved>, Self::Fault>;

    /// What a page holds; none only if it is erased. A page whose programming was cut short is
    /// not, whatever can be read of it.
    fn contents(&self, page: u32) -> Result<Option<u64>, Self::Fault>;
}

/// What is saved.
#[derive(Clone, Debug, PartialEq, Eq)]
pub struct Saved {
    /// The head and the words, together: neither is of use without the other.
    pub device: Device,
    /// The block whose pages stand in the reserve while it is put back as the state has it.
    pub putting_back: Option<u32>,
}

impl<B: Board + ?Sized> Board for &mut B {
    type Fault = B::Fault;

    fn program(&mut self, page: u32, contents: u64) -> Result<(), Self::Fault> {
        (**self).program(page, contents)
    }

    fn copy(&mut self, source: u32, target: u32) -> Result<(), Self::Fault> {
        (**self).copy(source, target)
    }

    fn erase(&mut self, block: u32) -> Result<(), Self::Fault> {
        (**self).erase(block)
    }

    fn save(&mut self, state: &Saved) -> Result<(), Self::Fault> {
        (**self).save(state)
    }

    fn forget(&mut self) -> Result<(), Self::Fault> {
        (**self).forget()
    }

    fn saved(&self) -> Result<Option<Saved>, Self::Fault> {
        (**self).saved()
    }

    fn contents(&self, page: u32) -> Result<Option<u64>, Self::Fault> {
        (**self).contents(page)
    }
}

/// A simulated board: a simulated flash, and memory for what is saved. All of it outlives the
/// store over it.
#[derive(Clone, Debug, PartialEq, Eq)]
pub struct SimulatedBoard {
    pub flash: Flash,
    pub saved: Option<Saved>,
}

impl SimulatedBoard {
    /// A board with erased flash and nothing saved.
    pub fn new(blocks: u32, pages: u32) -> SimulatedBoard {
        SimulatedBoard { flash: Flash::erased(blocks, pages), saved: None }
    }
}

impl Board for SimulatedBoard {
    type Fault = Fault;

    fn program(&mut self, page: u32, contents: u64) -> Result<(), Fault> {
        self.flash.program(page, contents)
    }

    fn copy(&mut self, source: u32, target: u32) -> Result<(), Fault> {
        self.flash.copy(source, target)
    }

    fn erase(&mut self, block: u32) -> Result<(), Fault> {
        self.flash.erase(block)
    }

    fn save(&mut self, state: &Saved) -> Result<(), Fault> {
        self.saved = Some(state.clone());
        Ok(())
    }

    fn forget(&mut self) -> Result<(), Fault> {
        self.saved = None;
        Ok(())
    }

    fn saved(&self) -> Result<Option<Saved>, Fault> {
        Ok(self.saved.clone())
    }

    fn contents(&self, page: u32) -> Result<Option<u64>, Fault> {
        Ok(self.flash.contents(page))
    }
}
