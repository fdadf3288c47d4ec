//! The second implementation of document 01, for comparing with the proved one.
//!
//! It is written from the paper alone and shares nothing with the proved
//! definitions. It keeps one line per logical page (`device`), reads that table
//! out of lent words after testing them against rules 1 to 6 (`sound`), and puts
//! it back as lent words (`layer`). `requests` runs any [`Layer`] over a request
//! list; `flash` does to a simulated flash what accepted answers list. `generate`,
//! `host` and `shrink` try a layer: random requests, what must hold of the answers,
//! and the shortest history of a failure.
//!
//! ```
//! use second::{Layer, Second, Words};
//!
//! let mut words = Words::of_sizes(4, 16, 16);
//! let head = Second.fresh(4, 16, 32, 16, &mut words).head;
//! let mut answer = [0; 3];
//! let first = Second.write(head, &mut words, 1, 0, 2, &mut answer);
//! assert_eq!((first.refusal, first.count, answer), (0, 1, [0, 0, 2]));
//! let again = Second.write(first.head, &mut words, 1, 0, 2, &mut answer);
//! assert_eq!(again.refusal, second::Refusal::Applied.number());
//! ```

mod block;
pub mod device;
pub mod flash;
pub mod generate;
pub mod host;
mod layer;
pub mod random;
pub mod requests;
pub mod shrink;
mod sound;

pub use block::Block;
pub use layer::{words_of, Second};

/// The word of an erased spare entry.
pub const ERASED: u32 = 4_294_967_295;

/// The word that stands for a hole in a read.
pub const HOLE: u32 = 4_294_967_295;

/// What goes in and comes back by value with every call.
#[repr(C)]
#[derive(Clone, Copy, Debug, Default, PartialEq, Eq)]
pub struct Head {
    /// B, the blocks of the device.
    pub blocks: u32,
    /// N, the pages of a block.
    pub pages: u32,
    /// L, the logical pages.
    pub logical: u32,
    /// M, the extent slots.
    pub slots: u32,
    /// Extents in use.
    pub used: u32,
    /// The reserve block.
    pub reserve: u32,
    /// The last request number.
    pub last: u64,
}

/// The lent state words. Any lengths may be lent; wrong ones are refused 1.
#[derive(Clone, Debug, Default, PartialEq, Eq)]
pub struct Words {
    /// 3M words: logical start, physical start, page count of each slot.
    pub extents: Vec<u32>,
    /// A [`Block`] record for each block.
    pub blocks: Vec<u32>,
    /// B x N words: the label of each physical page.
    pub spare: Vec<u32>,
}

impl Words {
    /// Words of the lengths that the sizes ask for, all zero. The sizes must fit
    /// in memory; whether they are sizes of document 01 is for `fresh` to say.
    pub fn of_sizes(blocks: u32, pages: u32, slots: u32) -> Words {
        Words {
            extents: vec![0; 3 * slots as usize],
            blocks: vec![0; Block::WORDS * blocks as usize],
            spare: vec![0; blocks as usize * pages as usize],
        }
    }
}

/// Logical start, physical start and page count. As a piece of a read, the
/// physical start may be [`HOLE`].
#[derive(Clone, Copy, Debug, PartialEq, Eq)]
pub struct Extent {
    pub logical: u32,
    pub physical: u32,
    pub count: u32,
}

/// The refusals of document 01, by name and number.
#[derive(Clone, Copy, Debug, PartialEq, Eq)]
pub enum Refusal {
    Shape = 1,
    Damaged = 2,
    Range = 3,
    Applied = 4,
    NoPages = 5,
    NoNodes = 6,
    OutShort = 7,
    NothingStale = 8,
}

impl Refusal {
    const ALL: [Refusal; 8] = [
        Refusal::Shape,
        Refusal::Damaged,
        Refusal::Range,
        Refusal::Applied,
        Refusal::NoPages,
        Refusal::NoNodes,
        Refusal::OutShort,
        Refusal::NothingStale,
    ];

    pub fn number(self) -> u32 {
        self as u32
    }

    pub fn name(self) -> &'static str {
        match self {
            Refusal::Shape => "Shape",
            Refusal::Damaged => "Damaged",
            Refusal::Range => "Range",
            Refusal::Applied => "Applied",
            Refusal::NoPages => "NoPages",
            Refusal::NoNodes => "NoNodes",
            Refusal::OutShort => "OutShort",
            Refusal::NothingStale => "NothingStale",
        }
    }

    /// The refusal of a number, or none: 0 is no refusal.
    pub fn of_number(number: u32) -> Option<Refusal> {
        Refusal::ALL.into_iter().find(|refusal| refusal.number() == number)
    }
}

/// What fresh, write, trim, read and reclaim return. `refusal` 0 is accepted.
/// `count` is pieces for a write or a read, copied pages for a reclaim, and 0
/// for fresh and trim.
#[repr(C)]
#[derive(Clone, Copy, Debug, PartialEq, Eq)]
pub struct Outcome {
    pub refusal: u32,
    pub count: u32,
    pub head: Head,
}

/// What report returns. `refusal` 0 is accepted.
#[repr(C)]
#[derive(Clone, Copy, Debug, PartialEq, Eq)]
pub struct Counts {
    pub refusal: u32,
    pub free: u32,
    pub live: u32,
    pub stale: u32,
    pub head: Head,
}

/// The six calls over lent words. Two layers that both keep document 01 return
/// the same outcomes and leave the same words, whatever is lent.
///
/// `answer` is the answer buffer: triples for a write or a read, source pages
/// for a reclaim. Only the words that the answer needs are overwritten.
pub trait Layer {
    fn fresh(&self, blocks: u32, pages: u32, logical: u32, slots: u32, words: &mut Words) -> Outcome;

    fn write(
        &self,
        head: Head,
        words: &mut Words,
        number: u64,
        start: u32,
        count: u32,
        answer: &mut [u32],
    ) -> Outcome;

    fn trim(&self, head: Head, words: &mut Words, number: u64, start: u32, count: u32) -> Outcome;

    fn read(&self, head: Head, words: &Words, start: u32, count: u32, answer: &mut [u32]) -> Outcome;

    fn reclaim(&self, head: Head, words: &mut Words, answer: &mut [u32]) -> Outcome;

    fn report(&self, head: Head, words: &Words) -> Counts;
}
