//! Reading over extent records: the outcome and every word of the answer buffer must
//! be those of the read over the same words, and of the second implementation. On sound
//! states, with words of the records or fields of the head changed, and with too few or
//! too many records.

use second::generate;
use second::host::UNTOUCHED;
use second::requests::{to_reach, Buffer, Field, Request};
use second::shrink::{shown, Checked, Failure, Tried};
use second::{Head, Layer, Outcome, Second, Words};

use crate::pair::{same_buffer, same_outcome, states};
use crate::{add, random, times, Given, History, Pair};

/// The most slots that a state can have.
const MOST_SLOTS: u32 = 8192;

/// A range to read, and the words of the answer buffer.
#[derive(Clone, Copy)]
struct Asked {
    start: u32,
    count: u32,
    room: u32,
}

impl Asked {
    fn requests(self) -> [Request; 2] {
        [Request::Room { words: self.room }, Request::Read { start: self.start, count: self.count }]
    }
}

/// All pages with room enough and without, single pages, and ranges at or beyond every
/// limit. The first three will do where most is refused before the range is looked at.
fn asked(head: Head) -> [Asked; 12] {
    let logical = head.logical.clamp(1, 300_000);
    let all = 3 * logical.min(2 * head.used.min(MOST_SLOTS) + 1);
    let ranges = [
        (0, logical, all),
        (0, logical, all - 1),
        (logical, 1, 3),
        (0, logical, 0),
        (0, 1, 3),
        (0, 1, 2),
        (logical - 1, 1, 4),
        (logical / 2, logical - logical / 2, all),
        (0, 0, all),
        (logical - 1, 2, 6),
        (u32::MAX, 1, 3),
        (1, u32::MAX, 3),
    ];
    ranges.map(|(start, count, room)| Asked { start, count, room })
}

/// The outcome of a read, and the answer buffer.
fn read(layer: &dyn Layer, head: Head, words: &Words, asked: Asked) -> (Outcome, Vec<u32>) {
    let mut answer = vec![UNTOUCHED; asked.room as usize];
    let outcome = layer.read(head, words, asked.start, asked.count, &mut answer);
    (outcome, answer)
}

/// A layer that reads over records, and the same that reads over words.
#[derive(Clone)]
pub struct Readers<L, W> {
    pub over_records: L,
    pub over_words: W,
}

impl<L: Layer + Clone, W: Layer + Clone> Readers<L, W> {
    /// One read over records and over words, compared with the second implementation's.
    fn same(&self, head: Head, words: &Words, asked: Asked) -> Checked<u32> {
        let [_, request] = asked.requests();
        let (expected, expected_answer) = read(&Second, head, words, asked);
        let over = [(&self.over_records as &dyn Layer, "records"), (&self.over_words, "words")];
        for (layer, what) in over {
            let (outcome, answer) = read(layer, head, words, asked);
            let same = same_outcome(request, &outcome, &expected)
                .and_then(|()| same_buffer(request, "answer", &answer, &expected_answer));
            same.map_err(|failure| {
                let slots = words.extents.len() / 3;
                let sentence = format!("over the {what} of {slots} slots, {}", failure.sentence);
                Failure::new(format!("over {what}, {}", failure.kind), sentence)
            })?;
        }
        Ok(expected.refusal)
    }

    /// A read over so many records; M alone is a number that is not refused 1.
    fn read_over(&self, head: Head, words: &Words, asked: Asked) -> Checked<u32> {
        let records = words.extents.len() as u32 / 3;
        let refusal = self.same(head, words, asked)?;
        if refusal != 1 && (records != head.slots || records == 0 || records > MOST_SLOTS) {
            let sentence = format!("{records} records are not refused 1, but {refusal}");
            return Err(Failure::new("another number of records is taken", sentence));
        }
        Ok(refusal)
    }

    /// Lends so many records, or as many as there are, and compares the first reads.
    fn compared(&self, pair: &Pair<L>, lent: Option<u32>, reads: usize) -> Checked<Given> {
        let (head, mut words) = (pair.head(), pair.words().clone());
        if let Some(records) = lent {
            words.extents.resize(3 * records as usize, 0);
        }
        let mut given = [0; 9];
        for asked in asked(head).into_iter().take(reads) {
            let refusal = self.read_over(head, &words, asked).map_err(|mut failure| {
                if lent.is_some() {
                    failure.sentence += ", a number that no list can lend";
                }
                failure.after(&asked.requests())
            })?;
            given[refusal as usize] += 1;
        }
        Ok(given)
    }

    /// The reads on a copy of a state that is damaged, with so many records lent.
    fn compare(&self, state: &History<L>, damage: &[Request], lent: Option<u32>) -> Tried<Given> {
        let reads = if damage.is_empty() { 12 } else { 3 };
        let compared = |mut pair: Pair<L>, requests: &[Request]| {
            pair.replay(requests)?;
            self.compared(&pair, lent, reads)
        };
        compared(state.pair.clone(), damage).map_err(|failure| {
            let from_nothing =
                |list: &[Request]| compared(Pair::new(self.over_records.clone()), list).map(|_| ());
            shown(failure, &[&state.requests, damage].concat(), from_nothing)
        })
    }

    /// Each word of the records, changed.
    fn each_word(&self, state: &History<L>, total: &mut Given) -> Tried {
        let head = state.pair.head();
        for (index, &word) in (0..).zip(&state.pair.words().extents) {
            let pages = head.blocks * head.pages;
            for value in [0, word.wrapping_sub(1), word.wrapping_add(1), head.logical, pages, u32::MAX] {
                let damage = Request::Poke { buffer: Buffer::Extents, index, value };
                add(total, self.compare(state, &[damage], None)?);
            }
        }
        Ok(())
    }

    /// Each field of the head, changed.
    fn each_field(&self, state: &History<L>, total: &mut Given) -> Tried {
        let head = state.pair.head();
        let values = [0, 1, head.used + 1, head.slots + 1, head.blocks, head.logical + 1, 1 << 31, u32::MAX];
        for field in Field::ALL {
            for value in values.map(u64::from) {
                add(total, self.compare(state, &[Request::Head { field, value }], None)?);
            }
        }
        Ok(())
    }

    /// Numbers of records that M is not, by themselves and with M changed to them. How
    /// often each refusal was given.
    fn each_number(&self, state: &History<L>) -> Tried<Given> {
        let mut total = [0; 9];
        let slots = state.pair.head().slots;
        for records in [0, slots - 1, slots + 1, MOST_SLOTS + 1, 20_000] {
            add(&mut total, self.compare(state, &[], Some(records))?);
            let changed = Request::Head { field: Field::Slots, value: u64::from(records) };
            add(&mut total, self.compare(state, &[changed], Some(records))?);
        }
        Ok(total)
    }

    /// Sound states, and every word of their records and field of their head changed.
    pub fn small_states(&self) -> Tried<Given> {
        let mut random = random(41);
        let mut total = [0; 9];
        for _ in 0..times(15) {
            for state in states(&self.over_records, &mut random, 5, 3)? {
                add(&mut total, self.compare(&state, &[], None)?);
                self.each_word(&state, &mut total)?;
                self.each_field(&state, &mut total)?;
            }
        }
        Ok(total)
    }

    /// How often each refusal was given.
    pub fn every_other_number_of_records(&self) -> Tried<Given> {
        let mut random = random(42);
        let mut total = [0; 9];
        for _ in 0..times(25) {
            for state in states(&self.over_records, &mut random, 5, 3)? {
                add(&mut total, self.each_number(&state)?);
            }
        }
        Ok(total)
    }

    /// States with every slot in use, up to the most that there can be. How often each
    /// refusal was given where nothing is damaged.
    pub fn large_states(&self) -> Tried<Given> {
        let mut random = random(43);
        let mut total = [0; 9];
        for (blocks, pages, slots) in [(1024, 256, MOST_SLOTS), (64, 64, 1000), (1024, 2, 500)] {
            let (head, words) = generate::scattered(blocks, pages, (blocks - 2) * pages, slots, slots);
            let state = History::of(self.over_records.clone(), &to_reach(head, &words))?;
            add(&mut total, self.compare(&state, &[], None)?);
            self.each_number(&state)?;
            for _ in 0..times(10) {
                let index = random.between(0, 3 * slots - 1);
                let value = random.pick(&[0, head.logical, u32::MAX, index]);
                self.compare(&state, &[Request::Poke { buffer: Buffer::Extents, index, value }], None)?;
            }
        }
        Ok(total)
    }

    /// Histories whose every read is over records.
    pub fn histories(&self) -> Tried {
        let mut random = random(44);
        for _ in 0..times(200) {
            let fresh = generate::sizes(&mut random, 7, 7);
            History::of(self.over_records.clone(), &[fresh])?.calls(&mut random, 200)?;
        }
        Ok(())
    }
}
