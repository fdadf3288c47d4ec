//! What is lent to a call, the calls that are measured on it, and the clock.

use std::time::Instant;

use compare::to_library;
use second::random::Random;
use second::{generate, Block, Head, Layer, Second, Words};
use utasiro::ffi;

/// M of every state, so that few extents and many are in the same words.
pub const SLOTS: u32 = 8192;

/// How the extents of a state lie.
#[derive(Clone, Copy, Debug, PartialEq, Eq)]
pub enum Kind {
    /// Equal runs; the logical pages fall where the physical ones rise.
    Scattered,
    /// The same runs in random logical order.
    Shuffled,
    /// Runs of random lengths in random places and in random logical order.
    Irregular,
    /// As scattered, but with four pages of each block free: a write of 48 has 12 pieces.
    NearlyFull,
}

impl Kind {
    pub fn name(self) -> &'static str {
        match self {
            Kind::Scattered => "scattered",
            Kind::Shuffled => "shuffled",
            Kind::Irregular => "irregular",
            Kind::NearlyFull => "nearly full",
        }
    }
}

/// A state to measure on, and how many times.
#[derive(Clone, Copy)]
pub struct Sample {
    pub blocks: u32,
    pub pages: u32,
    /// Extents in use, if so many fit.
    pub extents: u32,
    pub kind: Kind,
    pub rounds: u32,
}

impl Sample {
    fn state(&self) -> (Head, Words) {
        let Sample { blocks, pages, extents, .. } = *self;
        let logical = (blocks - 2) * pages;
        let random = &mut Random::new(7);
        match self.kind {
            Kind::Scattered => generate::scattered(blocks, pages, logical, SLOTS, extents),
            Kind::Shuffled => generate::shuffled(random, blocks, pages, logical, SLOTS, extents),
            Kind::Irregular => generate::irregular(random, blocks, pages, logical, SLOTS, extents),
            Kind::NearlyFull => generate::nearly_full(blocks, pages, logical, SLOTS, extents, 4),
        }
    }
}

#[derive(Clone, Copy, Debug, PartialEq, Eq)]
pub enum Call {
    Report,
    Read,
    ReadAll,
    ReadRecords,
    Write,
    Trim,
    Reclaim,
    Fresh,
}

/// What is lent to a call. The library's words are lent as they are.
pub struct Lent {
    pub head: Head,
    pub words: Words,
    answer: Vec<u32>,
    /// The first page and the number of pages of a write, a trim and a short read.
    pub range: (u32, u32),
}

impl Lent {
    /// A sample's state, and 48 mapped pages from behind the first one of the extent in the
    /// middle of the map on.
    pub fn of(sample: &Sample) -> Lent {
        let (head, words) = sample.state();
        let answer = vec![0; 3 * (2 * SLOTS as usize + 1)];
        let range = (words.extents[3 * (head.used as usize / 2)] + 1, 48);
        Lent { head, words, answer, range }
    }

    pub fn take(&mut self, from: &Words) {
        self.words.extents.copy_from_slice(&from.extents);
        self.words.blocks.copy_from_slice(&from.blocks);
        self.words.spare.copy_from_slice(&from.spare);
    }

    /// The nanoseconds that something takes on words copied afresh.
    pub fn time(&mut self, from: &Words, run: impl FnOnce(&mut Lent)) -> f64 {
        self.take(from);
        nanoseconds(|| run(self))
    }

    /// Makes the last block's valid count wrong, which is the last thing that a test of the
    /// state comes to: a call is then refused 2 after the whole test and does nothing else.
    pub fn spoil(&mut self) {
        let last = self.head.blocks - 1;
        let record = self.words.block(last);
        self.words.put_block(last, Block { valid: record.valid + 1, ..record });
    }

    /// A call of the second implementation; its refusal.
    pub fn second(&mut self, call: Call) -> u32 {
        let (head, (start, count)) = (self.head, self.range);
        let Lent { words, answer, .. } = self;
        match call {
            Call::Report => Second.report(head, words).refusal,
            Call::Read | Call::ReadRecords => Second.read(head, words, start, count, answer).refusal,
            Call::ReadAll => Second.read(head, words, 0, head.logical, answer).refusal,
            Call::Write => Second.write(head, words, head.last + 1, start, count, answer).refusal,
            Call::Trim => Second.trim(head, words, head.last + 1, start, count).refusal,
            Call::Reclaim => Second.reclaim(head, words, answer).refusal,
            Call::Fresh => Second.fresh(head.blocks, head.pages, head.logical, head.slots, words).refusal,
        }
    }

    /// The same call of the library; its refusal. It is called from the frame of whoever asks
    /// for it, so that no other lies between where stack is measured.
    #[inline(always)]
    pub fn library(&mut self, call: Call) -> u32 {
        let (start, count) = self.range;
        let Head { blocks, pages, logical, slots, last, .. } = self.head;
        let head = to_library(self.head);
        let Words { extents: e, blocks: b, spare: s } = &mut self.words;
        let (el, bl, sl, al) = (e.len(), b.len(), s.len(), self.answer.len());
        let (e, b, s, a) = (e.as_mut_ptr(), b.as_mut_ptr(), s.as_mut_ptr(), self.answer.as_mut_ptr());
        // Safety: the buffers are four vectors with their own lengths; a record is three words.
        unsafe {
            match call {
                Call::Report => ffi::utasiro_report(head, e, el, b, bl, s, sl).refusal,
                Call::Read => ffi::utasiro_read(head, e, el, b, bl, s, sl, start, count, a, al).refusal,
                Call::ReadAll => ffi::utasiro_read(head, e, el, b, bl, s, sl, 0, logical, a, al).refusal,
                Call::ReadRecords => {
                    let records = e.cast::<ffi::Extent>();
                    ffi::utasiro_read_records(head, records, el / 3, b, bl, s, sl, start, count, a, al)
                        .refusal
                }
                Call::Write => {
                    ffi::utasiro_write(head, e, el, b, bl, s, sl, last + 1, start, count, a, al).refusal
                }
                Call::Trim => ffi::utasiro_trim(head, e, el, b, bl, s, sl, last + 1, start, count).refusal,
                Call::Reclaim => ffi::utasiro_reclaim(head, e, el, b, bl, s, sl, a, al).refusal,
                Call::Fresh => ffi::utasiro_fresh(blocks, pages, logical, slots, e, el, b, bl, s, sl).refusal,
            }
        }
    }
}

/// The value itself, where the compiler knows nothing of it: nothing that is measured
/// is worked out before, or left out.
pub fn black_box<T: Copy>(value: T) -> T {
    // Safety: a reference may be read, and what is read is copied.
    unsafe { std::ptr::read_volatile(&value) }
}

fn nanoseconds(run: impl FnOnce()) -> f64 {
    let start = Instant::now();
    run();
    start.elapsed().as_nanos() as f64
}

pub fn median(mut times: Vec<f64>) -> f64 {
    times.sort_by(f64::total_cmp);
    times[times.len() / 2]
}
