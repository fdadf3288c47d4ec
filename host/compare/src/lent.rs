//! The library as a layer. Each buffer is lent between words that no call may
//! change, and what is lent to be read only is compared afterwards.

use second::{Counts, Head, Layer, Outcome, Words};
use utasiro::ffi;

/// The library.
#[derive(Clone, Copy, Debug, Default)]
pub struct Lent;

/// The library with every read made over extent records, wherever the words that are
/// lent are whole records.
#[derive(Clone, Copy, Debug, Default)]
pub struct OverRecords;

/// Stands before, between and after the buffers.
const GUARD: u32 = 0x5EED_F1A5;

/// What stands for the refusal of a call that changed a word which it may not change:
/// one outside the buffers, or of a buffer that is only read.
pub const OUTSIDE_CHANGED: u32 = 1000;
pub const ONLY_READ_CHANGED: u32 = 1001;

/// Copies of buffers, one after the other.
struct Arena {
    words: Vec<u32>,
    /// Where each buffer starts, and its length.
    places: Vec<(usize, usize)>,
}

impl Arena {
    fn new(buffers: &[&[u32]]) -> Arena {
        let mut arena = Arena { words: vec![GUARD], places: Vec::with_capacity(buffers.len()) };
        for buffer in buffers {
            arena.places.push((arena.words.len(), buffer.len()));
            arena.words.extend_from_slice(buffer);
            arena.words.push(GUARD);
        }
        arena
    }

    /// The first word of each buffer.
    fn pointers<const K: usize>(&mut self) -> [*mut u32; K] {
        let first = self.words.as_mut_ptr();
        // Safety: a buffer starts inside the words.
        std::array::from_fn(|k| unsafe { first.add(self.places[k].0) })
    }

    fn buffer(&self, k: usize) -> &[u32] {
        let (start, length) = self.places[k];
        &self.words[start..start + length]
    }

    /// Puts a buffer back where it came from.
    fn put_back(&self, k: usize, to: &mut [u32]) {
        to.copy_from_slice(self.buffer(k));
    }

    /// The refusal of a call, or what stands for one.
    fn refusal(&self, given: u32, only_read: &[(usize, &[u32])]) -> u32 {
        let mut guards = self.places.iter().map(|&(start, length)| start + length).chain([0]);
        if guards.any(|index| self.words[index] != GUARD) {
            return OUTSIDE_CHANGED;
        }
        if only_read.iter().any(|&(k, before)| self.buffer(k) != before) {
            return ONLY_READ_CHANGED;
        }
        given
    }

    fn outcome(&self, done: ffi::Outcome, only_read: &[(usize, &[u32])]) -> Outcome {
        let refusal = self.refusal(done.refusal, only_read);
        Outcome { refusal, count: done.count, head: from_library(done.head) }
    }
}

/// A head as the library takes it.
pub fn to_library(head: Head) -> ffi::Head {
    let mut to = ffi::Head::default();
    (to.blocks, to.pages, to.logical, to.slots) = (head.blocks, head.pages, head.logical, head.slots);
    (to.used, to.reserve, to.last) = (head.used, head.reserve, head.last);
    to
}

fn from_library(head: ffi::Head) -> Head {
    let ffi::Head { blocks, pages, logical, slots, used, reserve, last, .. } = head;
    Head { blocks, pages, logical, slots, used, reserve, last }
}

// Safety of each call: the buffers are parts of an arena that do not overlap, with
// their own lengths.
impl Layer for Lent {
    fn fresh(&self, blocks: u32, pages: u32, logical: u32, slots: u32, words: &mut Words) -> Outcome {
        let Words { extents: e, blocks: b, spare: s } = words;
        let mut arena = Arena::new(&[e, b, s]);
        let [pe, pb, ps] = arena.pointers();
        let done = unsafe {
            ffi::utasiro_fresh(blocks, pages, logical, slots, pe, e.len(), pb, b.len(), ps, s.len())
        };
        arena.put_back(0, e);
        arena.put_back(1, b);
        arena.put_back(2, s);
        arena.outcome(done, &[])
    }

    fn write(
        &self,
        head: Head,
        words: &mut Words,
        number: u64,
        start: u32,
        count: u32,
        answer: &mut [u32],
    ) -> Outcome {
        let Words { extents: e, blocks: b, spare: s } = words;
        let mut arena = Arena::new(&[e, b, s, answer]);
        let [pe, pb, ps, pa] = arena.pointers();
        let head = to_library(head);
        let done = unsafe {
            let (el, bl, sl, al) = (e.len(), b.len(), s.len(), answer.len());
            ffi::utasiro_write(head, pe, el, pb, bl, ps, sl, number, start, count, pa, al)
        };
        arena.put_back(0, e);
        arena.put_back(1, b);
        arena.put_back(2, s);
        arena.put_back(3, answer);
        arena.outcome(done, &[])
    }

    fn trim(&self, head: Head, words: &mut Words, number: u64, start: u32, count: u32) -> Outcome {
        let Words { extents: e, blocks: b, spare: s } = words;
        let mut arena = Arena::new(&[e, b, s]);
        let [pe, pb, ps] = arena.pointers();
        let head = to_library(head);
        let done =
            unsafe { ffi::utasiro_trim(head, pe, e.len(), pb, b.len(), ps, s.len(), number, start, count) };
        let outcome = arena.outcome(done, &[(2, s)]);
        arena.put_back(0, e);
        arena.put_back(1, b);
        outcome
    }

    fn read(&self, head: Head, words: &Words, start: u32, count: u32, answer: &mut [u32]) -> Outcome {
        let Words { extents: e, blocks: b, spare: s } = words;
        let mut arena = Arena::new(&[e, b, s, answer]);
        let [pe, pb, ps, pa] = arena.pointers();
        let (el, bl, sl, al) = (e.len(), b.len(), s.len(), answer.len());
        let done =
            unsafe { ffi::utasiro_read(to_library(head), pe, el, pb, bl, ps, sl, start, count, pa, al) };
        arena.put_back(3, answer);
        arena.outcome(done, &[(0, e), (1, b), (2, s)])
    }

    fn reclaim(&self, head: Head, words: &mut Words, answer: &mut [u32]) -> Outcome {
        let Words { extents: e, blocks: b, spare: s } = words;
        let mut arena = Arena::new(&[e, b, s, answer]);
        let [pe, pb, ps, pa] = arena.pointers();
        let (el, bl, sl, al) = (e.len(), b.len(), s.len(), answer.len());
        let done = unsafe { ffi::utasiro_reclaim(to_library(head), pe, el, pb, bl, ps, sl, pa, al) };
        arena.put_back(0, e);
        arena.put_back(1, b);
        arena.put_back(2, s);
        arena.put_back(3, answer);
        arena.outcome(done, &[])
    }

    fn report(&self, head: Head, words: &Words) -> Counts {
        let Words { extents: e, blocks: b, spare: s } = words;
        let mut arena = Arena::new(&[e, b, s]);
        let [pe, pb, ps] = arena.pointers();
        let head = to_library(head);
        let counts = unsafe { ffi::utasiro_report(head, pe, e.len(), pb, b.len(), ps, s.len()) };
        let ffi::Counts { refusal, free, live, stale, head } = counts;
        let refusal = arena.refusal(refusal, &[(0, e), (1, b), (2, s)]);
        Counts { refusal, free, live, stale, head: from_library(head) }
    }
}

impl Layer for OverRecords {
    fn fresh(&self, blocks: u32, pages: u32, logical: u32, slots: u32, words: &mut Words) -> Outcome {
        Lent.fresh(blocks, pages, logical, slots, words)
    }

    fn write(
        &self,
        head: Head,
        words: &mut Words,
        number: u64,
        start: u32,
        count: u32,
        answer: &mut [u32],
    ) -> Outcome {
        Lent.write(head, words, number, start, count, answer)
    }

    fn trim(&self, head: Head, words: &mut Words, number: u64, start: u32, count: u32) -> Outcome {
        Lent.trim(head, words, number, start, count)
    }

    fn read(&self, head: Head, words: &Words, start: u32, count: u32, answer: &mut [u32]) -> Outcome {
        let Words { extents: e, blocks: b, spare: s } = words;
        if e.len() % 3 != 0 {
            return Lent.read(head, words, start, count, answer);
        }
        let mut arena = Arena::new(&[e, b, s, answer]);
        let [pe, pb, ps, pa] = arena.pointers();
        let (el, bl, sl, al) = (e.len() / 3, b.len(), s.len(), answer.len());
        let (head, pe) = (to_library(head), pe.cast::<ffi::Extent>());
        // Safety: as of the calls above; a record is three words.
        let done = unsafe { ffi::utasiro_read_records(head, pe, el, pb, bl, ps, sl, start, count, pa, al) };
        arena.put_back(3, answer);
        arena.outcome(done, &[(0, e), (1, b), (2, s)])
    }

    fn reclaim(&self, head: Head, words: &mut Words, answer: &mut [u32]) -> Outcome {
        Lent.reclaim(head, words, answer)
    }

    fn report(&self, head: Head, words: &Words) -> Counts {
        Lent.report(head, words)
    }
}

#[cfg(test)]
mod tests {
    use super::{Arena, ONLY_READ_CHANGED, OUTSIDE_CHANGED};

    #[test]
    fn a_word_that_may_not_change_is_seen() {
        let buffers = [&[1, 2, 3][..], &[][..], &[4][..]];
        let only_read = [(0, buffers[0]), (2, buffers[2])];
        assert_eq!(Arena::new(&buffers).refusal(0, &only_read), 0);
        for index in 0..8 {
            let mut arena = Arena::new(&buffers);
            arena.words[index] ^= 1;
            let outside = [0, 4, 5, 7].contains(&index);
            let seen = if outside { OUTSIDE_CHANGED } else { ONLY_READ_CHANGED };
            assert_eq!(arena.refusal(0, &only_read), seen, "word {index}");
        }
    }
}
