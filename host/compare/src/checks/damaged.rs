//! Damaged states: words of sound states changed, each head field changed, each length
//! one off. The answers must be those of the second implementation, and so must the
//! words where what was changed is sound after all.

use second::generate;
use second::random::Random;
use second::requests::{to_reach, Buffer, Field, Request};
use second::shrink::{shown, Checked, Failure, Tried};
use second::{Block, Head, Layer, Words, ERASED};

use crate::pair::{one_off, states};
use crate::{random, times, History, Pair};

/// Room for every answer, on a device whose head may be damaged.
fn room(head: Head) -> Request {
    let pieces = head.logical.clamp(1, 300_000).min(2 * head.used.min(8192) + 1);
    Request::Room { words: (3 * pieces).max(256) }
}

/// Every call, with numbers and ranges that a sound state accepts if it can.
fn calls(head: Head) -> [Request; 5] {
    let last_page = head.logical.clamp(1, 300_000) - 1;
    [
        Request::Report,
        Request::Read { start: 0, count: head.logical },
        Request::Reclaim,
        Request::Trim { number: head.last.saturating_add(1), start: 0, count: 1 },
        Request::Write { number: head.last.saturating_add(2), start: last_page, count: 1 },
    ]
}

/// Damages a copy of a state and compares every call on it. How many were compared.
fn compare<L: Layer + Clone>(state: &History<L>, damage: &[Request]) -> Tried<u64> {
    let head = state.pair.head();
    let requests = [damage, &[room(head)], &calls(head)].concat();
    let mut pair = state.pair.clone();
    pair.replay(&requests).map_err(|failure| state.shown(failure, &requests))?;
    Ok(pair.calls() - state.pair.calls())
}

/// What a word is changed to.
fn values(word: u32, head: Head) -> [u32; 6] {
    [
        0,
        word.wrapping_sub(1),
        word.wrapping_add(1),
        head.logical,
        head.blocks.wrapping_mul(head.pages),
        u32::MAX,
    ]
}

/// Each single word, changed.
fn each_word<L: Layer + Clone>(state: &History<L>) -> Tried<u64> {
    let mut calls = 0;
    for buffer in Buffer::ALL {
        for (index, &word) in (0..).zip(buffer.words_of(state.pair.words())) {
            for value in values(word, state.pair.head()) {
                calls += compare(state, &[Request::Poke { buffer, index, value }])?;
            }
        }
    }
    Ok(calls)
}

/// Each field of the head, changed.
fn each_field<L: Layer + Clone>(state: &History<L>) -> Tried<u64> {
    let mut calls = 0;
    let head = state.pair.head();
    for field in Field::ALL {
        let now = field.of(head);
        let mut changed: Vec<u64> = values(now as u32, head).map(u64::from).to_vec();
        // Three times this is 1 in 32 bits.
        changed.push(u64::from(u32::MAX) / 3 * 2 + 1);
        // The least that runs over 32 bits where it is taken for each word of a block record.
        changed.push(u64::from(u32::MAX) / Block::WORDS as u64 + 1);
        if field == Field::Last {
            changed.extend([now.wrapping_sub(1), u64::MAX - 1, u64::MAX]);
        }
        for value in changed {
            calls += compare(state, &[Request::Head { field, value }])?;
        }
    }
    Ok(calls)
}

/// A word of a buffer that is not empty, and where it is.
fn random_word(words: &Words, random: &mut Random) -> (Place, u32) {
    let buffer = random.pick(&Buffer::ALL);
    let words = buffer.words_of(words);
    let index = random.between(0, words.len() as u32 - 1);
    (Place { buffer, index }, words[index as usize])
}

/// Several words at once: two changed at random, or two of a kind changed for each
/// other.
fn several_words<L: Layer + Clone>(state: &History<L>, random: &mut Random) -> Tried<u64> {
    let mut calls = 0;
    for _ in 0..40 {
        let words = [(); 2].map(|_| random_word(state.pair.words(), random));
        let swap = random.once_in(2);
        let damage = [(0, 1), (1, 0)].map(|(this, other): (usize, usize)| {
            let (place, word) = words[this];
            place.set(if swap { words[other].1 } else { random.pick(&values(word, state.pair.head())) })
        });
        calls += compare(state, &damage)?;
    }
    Ok(calls)
}

/// How many calls were compared.
pub fn every_word_and_field_of_small_states<L: Layer + Clone>(layer: L) -> Tried<u64> {
    let mut random = random(11);
    let mut calls = 0;
    for _ in 0..times(60) {
        for state in states(&layer, &mut random, 5, 5)? {
            calls += each_word(&state)? + each_field(&state)? + several_words(&state, &mut random)?;
        }
    }
    Ok(calls)
}

/// Slots of every length up to a block of 20 pages, side by side and from other pages on
/// each time: as many labels as fit one window, two and three, with and without room behind
/// them. How many calls were compared.
pub fn every_word_of_long_slots<L: Layer + Clone>(layer: L) -> Tried<u64> {
    let fresh = Request::Fresh { blocks: 6, pages: 20, logical: 80, slots: 40 };
    let mut calls = 0;
    for first in 1..=19 {
        let counts = [first, 20 - first, 20, 7, 13];
        let mut requests = vec![fresh];
        let mut start = 80;
        for (number, count) in (1..).zip(counts) {
            start -= count;
            requests.push(Request::Write { number, start, count });
        }
        calls += each_word(&History::of(layer.clone(), &requests)?)?;
    }
    Ok(calls)
}

/// Each buffer a word shorter, and a word longer.
fn each_one_off() -> impl Iterator<Item = (Buffer, bool)> {
    Buffer::ALL.into_iter().flat_map(|buffer| [(buffer, false), (buffer, true)])
}

/// What is lent that no list can say.
fn lent_off(failure: Failure, buffer: Buffer, longer: bool) -> Failure {
    let off = if longer { "one word more" } else { "one word less" };
    let sentence = format!("{}, with {off} of {buffer:?} lent, which no list can say", failure.sentence);
    Failure { sentence, ..failure }
}

/// A refusal that must be 1.
fn refused_1(request: Request, refusal: u32) -> Checked {
    if refusal == 1 {
        return Ok(());
    }
    Err(Failure::new("not refused 1", format!("{request} is not refused 1, but {refusal}")))
}

/// Every call after a history, with a buffer lent that is a word shorter or longer:
/// refused 1, as the second implementation does.
fn calls_one_off<L: Layer + Clone>(mut pair: Pair<L>, buffer: Buffer, longer: bool) -> Checked {
    pair.lend_one_off(buffer, longer);
    let head = pair.head();
    pair.run(room(head))?;
    for request in calls(head) {
        let refused = pair.run(request).and_then(|refusal| refused_1(request, refusal));
        refused.map_err(|failure| lent_off(failure, buffer, longer).after(&[room(head), request]))?;
    }
    Ok(())
}

pub fn every_length_one_off<L: Layer + Clone>(layer: L) -> Tried {
    let mut random = random(12);
    for _ in 0..times(100) {
        for state in states(&layer, &mut random, 6, 5)? {
            for (buffer, longer) in each_one_off() {
                let replayed = |list: &[Request]| {
                    let mut pair = Pair::new(layer.clone());
                    pair.replay(list)?;
                    calls_one_off(pair, buffer, longer)
                };
                let refused = calls_one_off(state.pair.clone(), buffer, longer);
                refused.map_err(|failure| shown(failure, &state.requests, replayed))?;
            }
        }
    }
    Ok(())
}

/// Fresh with each length one off.
pub fn fresh_with_every_length_one_off<L: Layer + Clone>(layer: L) -> Tried {
    for (blocks, pages, slots) in [(3, 1, 1), (5, 4, 7), (1024, 256, 8192)] {
        for (buffer, longer) in each_one_off() {
            let fresh = Request::Fresh { blocks, pages, logical: 1, slots };
            let mut words = Words::of_sizes(blocks, pages, slots);
            one_off(&mut words, buffer, longer);
            let refused = Pair::new(layer.clone()).fresh(fresh, words);
            let refused = refused.and_then(|refusal| refused_1(fresh, refusal));
            refused.map_err(|failure| shown(lent_off(failure, buffer, longer), &[fresh], |_| Ok(())))?;
        }
    }
    Ok(())
}

/// A word of a lent buffer.
#[derive(Clone, Copy)]
struct Place {
    buffer: Buffer,
    index: u32,
}

impl Place {
    fn set(self, value: u32) -> Request {
        Request::Poke { buffer: self.buffer, index: self.index, value }
    }

    fn word(self, words: &Words) -> u32 {
        self.buffer.words_of(words)[self.index as usize]
    }
}

/// A large state, damaged in place and put back.
struct Large<L> {
    sound: Pair<L>,
    history: History<L>,
}

impl<L: Layer + Clone> Large<L> {
    fn of(layer: &L, (head, words): (Head, Words)) -> Tried<Large<L>> {
        let mut history = History::of(layer.clone(), &to_reach(head, &words))?;
        history.run(room(head))?;
        Ok(Large { sound: history.pair.clone(), history })
    }

    fn head(&self) -> Head {
        self.sound.head()
    }

    /// A call with a word changed; its refusal.
    fn call(&mut self, place: Place, value: u32, call: Request) -> Tried<u32> {
        let pair = &mut self.history.pair;
        let damage = place.set(value);
        let refusal = pair.run(damage).and_then(|_| pair.run(call));
        let refusal = refusal.map_err(|failure| self.history.shown(failure, &[damage, call]))?;
        if refusal == 0 {
            self.history.pair = self.sound.clone();
            return Ok(refusal);
        }
        let back = place.set(place.word(self.sound.words()));
        self.history.pair.run(back).map_err(|failure| self.history.shown(failure, &[]))?;
        Ok(refusal)
    }

    /// Every call with a word changed to every value.
    fn calls(&mut self, place: Place) -> Tried {
        let (head, word) = (self.head(), place.word(self.sound.words()));
        for value in values(word, head).into_iter().filter(|&value| value != word) {
            calls(head).into_iter().try_for_each(|call| self.call(place, value, call).map(|_| ()))?;
        }
        Ok(())
    }
}

/// Words at random places of large states, too many to try each.
pub fn words_of_large_states<L: Layer + Clone>(layer: L) -> Tried {
    let mut random = random(13);
    for (blocks, pages, slots) in [(1024, 256, 8192), (64, 64, 1000), (1024, 2, 500)] {
        let logical = (blocks - 2) * pages;
        let mut state = Large::of(&layer, generate::scattered(blocks, pages, logical, slots, slots))?;
        for _ in 0..times(15) {
            let (place, word) = random_word(state.sound.words(), &mut random);
            let value = random.pick(&values(word, state.head()));
            calls(state.head())
                .into_iter()
                .try_for_each(|call| state.call(place, value, call).map(|_| ()))?;
        }
    }
    Ok(())
}

/// The largest sizes of document 01.
const LARGEST: (u32, u32, u32, u32) = (1024, 256, 1022 * 256, 8192);

/// A state of the largest sizes whose reserve is in the middle, with fewer extents in
/// use than slots.
fn largest_uneven() -> (Head, Words) {
    let (blocks, pages, logical, slots) = LARGEST;
    generate::uneven(blocks, pages, logical, slots, 5000)
}

/// The words of some rows of a buffer, of those that it has.
fn places(buffer: Buffer, words: u32, rows: &[u32], below: u32) -> Vec<Place> {
    let mut rows: Vec<u32> = rows.iter().copied().filter(|&row| row < below).collect();
    rows.sort_unstable();
    rows.dedup();
    let indices = rows.into_iter().flat_map(|row| words * row..words * (row + 1));
    indices.map(|index| Place { buffer, index }).collect()
}

/// The first and last words of every buffer and those at a boundary in it: the slots
/// around the last in use, the records and labels around the reserve's.
fn boundaries(head: Head) -> Vec<Place> {
    let Head { blocks, pages, slots, used, reserve, .. } = head;
    let (first, after, labels) = (reserve * pages, (reserve + 1) * pages, blocks * pages);
    let records = [0, reserve - 1, reserve, reserve + 1, blocks - 1];
    let around = [0, first - 1, first, after - 1, after, labels - 1];
    let mut boundaries = places(Buffer::Extents, 3, &[0, used - 1, used, slots - 1], slots);
    boundaries.extend(places(Buffer::Blocks, Block::WORDS as u32, &records, blocks));
    boundaries.extend(places(Buffer::Spare, 1, &around, labels));
    boundaries
}

/// Every call with each boundary word of the largest states changed: with all slots in
/// use and the last block the reserve, and with fewer and a reserve in the middle. How
/// many words were tried.
pub fn boundaries_of_largest_states<L: Layer + Clone>(layer: L) -> Tried<usize> {
    let (blocks, pages, logical, slots) = LARGEST;
    let all_in_use = generate::scattered(blocks, pages, logical, slots, slots);
    let mut tried = 0;
    for state in [all_in_use, largest_uneven()] {
        let mut state = Large::of(&layer, state)?;
        let places = boundaries(state.head());
        tried += places.len();
        places.into_iter().try_for_each(|place| state.calls(place))?;
    }
    Ok(tried)
}

/// Words of a block and what each is changed to, of two values that no sound state has
/// there: its first and last label, the one below its fill and the one at it, its fill
/// and its valid count.
fn words_of_block(head: Head, words: &Words, block: u32) -> Vec<(Place, [u32; 2])> {
    let fill = words.block(block).fill;
    let label = |offset: u32| {
        let place = Place { buffer: Buffer::Spare, index: block * head.pages + offset };
        (place, if offset < fill { [head.logical, ERASED] } else { [0, head.logical - 1] })
    };
    let count = |index: usize| {
        let place = Place { buffer: Buffer::Blocks, index: index as u32 };
        let word = place.word(words);
        (place, [word.wrapping_add(1), word.wrapping_sub(1)])
    };
    let offsets = [0, head.pages - 1, fill.wrapping_sub(1), fill];
    let labels = offsets.into_iter().filter(|&offset| offset < head.pages).map(label);
    labels.chain([Block::fill_at(block), Block::valid_at(block)].map(count)).collect()
}

/// Words of every block of a largest state changed, with the calls and the values in
/// turn. How many were refused 2.
pub fn words_of_every_block<L: Layer + Clone>(layer: L) -> Tried<usize> {
    let (head, words) = largest_uneven();
    let mut state = Large::of(&layer, (head, words.clone()))?;
    let calls = calls(head);
    let mut refused = 0;
    for block in 0..head.blocks {
        for (kind, (place, values)) in words_of_block(head, &words, block).into_iter().enumerate() {
            let turn = block as usize + kind;
            let refusal = state.call(place, values[turn / 5 % 2], calls[turn % 5])?;
            refused += usize::from(refusal == 2);
        }
    }
    Ok(refused)
}
