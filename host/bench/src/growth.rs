//! What a call costs beyond the test of a sound state, and how that grows with the
//! extents in use.

use second::random::Random;
use second::Words;

use crate::lent::{black_box, median, Call, Kind, Lent, Sample};
use crate::progress;

/// The same device with few extents and with many, and one of the most blocks.
pub const SAMPLES: [Sample; 5] = [
    Sample { extents: 16, ..FULL },
    Sample { extents: 512, ..FULL },
    Sample { extents: 2048, ..FULL },
    FULL,
    Sample { blocks: 1024, extents: 2044, ..FULL },
];

/// All slots are in use. The extents are of one page each, so a write covers more of them
/// than it adds.
const FULL: Sample = Sample { blocks: 68, pages: 256, extents: 8192, kind: Kind::Scattered, rounds: 2001 };

/// A call that is measured: on how many pages, if it is on few, and whether on a nearly full
/// device.
struct Row {
    name: &'static str,
    call: Call,
    pages: u32,
    nearly_full: bool,
}

const fn row(name: &'static str, call: Call, pages: u32) -> Row {
    Row { name, call, pages, nearly_full: false }
}

const ROWS: [Row; 11] = [
    row("report", Call::Report, 48),
    row("read of 8 pages", Call::Read, 8),
    row("read of 48 pages", Call::Read, 48),
    row("read of 48 pages over records", Call::ReadRecords, 48),
    row("write of 8 pages", Call::Write, 8),
    row("write of 48 pages", Call::Write, 48),
    Row { nearly_full: true, ..row("write of 48 pages in 12 pieces", Call::Write, 48) },
    row("trim of 8 pages", Call::Trim, 8),
    row("trim of 48 pages", Call::Trim, 48),
    row("read of all pages", Call::ReadAll, 48),
    row("reclaim", Call::Reclaim, 48),
];

/// A state, sound and spoilt, and what is lent to calls on it.
struct State {
    sound: Words,
    spoilt: Words,
    lent: Lent,
}

impl State {
    fn of(sample: &Sample) -> State {
        let mut lent = Lent::of(sample);
        let sound = lent.words.clone();
        lent.spoil();
        State { sound, spoilt: lent.words.clone(), lent }
    }

    /// A sample's state, and the same device nearly full.
    fn both(sample: &Sample) -> [State; 2] {
        [State::of(sample), State::of(&Sample { kind: Kind::NearlyFull, ..*sample })]
    }

    /// The pages of a row from an extent in the middle half of the map on, in each round
    /// from another one.
    fn move_on(&mut self, round: u32, row: &Row) {
        let used = self.lent.head.used;
        // Knuth's multiplier: neighbouring rounds lie far apart.
        let slot = used / 4 + round.wrapping_mul(2_654_435_761) % (used / 2);
        self.lent.range = (self.sound.extents[3 * slot as usize] + 1, row.pages);
    }

    /// How long the test takes, after which a spoilt state is refused 2.
    fn test(&mut self) -> f64 {
        self.lent.time(&self.spoilt, |lent| assert_eq!(black_box(lent.library(Call::Report)), 2))
    }

    fn call(&mut self, call: Call) -> f64 {
        self.lent.time(&self.sound, |lent| assert_eq!(black_box(lent.library(call)), 0))
    }
}

/// The median of the test, and for each row the median of what the call took longer than a
/// test just before it, in nanoseconds. The rows come in another order in each round.
fn measure(sample: &Sample) -> (f64, [f64; ROWS.len()]) {
    let mut states = State::both(sample);
    let mut tests = Vec::new();
    let mut beyond: [Vec<f64>; ROWS.len()] = Default::default();
    let mut random = Random::new(72);
    let mut order: Vec<usize> = (0..ROWS.len()).collect();
    for round in 0..sample.rounds {
        random.shuffle(&mut order);
        for &k in &order {
            let state = &mut states[usize::from(ROWS[k].nearly_full)];
            state.move_on(round, &ROWS[k]);
            let test = state.test();
            beyond[k].push(state.call(ROWS[k].call) - test);
            tests.push(test);
        }
    }
    (median(tests), beyond.map(median))
}

/// The table, as lines of Markdown: a row for each call, a column for each sample.
pub fn table(samples: &[Sample]) -> Vec<String> {
    let named = |sample: &Sample| format!("{} in {} blocks", Lent::of(sample).head.used, sample.blocks);
    let used: Vec<String> = samples.iter().map(named).collect();
    let mut columns = Vec::new();
    for (sample, used) in samples.iter().zip(&used) {
        progress::show(&format!("growth: {used} extents"));
        columns.push(measure(sample));
    }
    progress::clear();
    let line = |name: &str, times: Vec<f64>| {
        let cells: Vec<String> = times.iter().map(|time| format!("{:.2}", time / 1000.0)).collect();
        format!("| {name} | {} |", cells.join(" | "))
    };
    let mut lines = vec![
        format!("| microseconds, with extents in use | {} |", used.join(" | ")),
        format!("|---|{}", "---:|".repeat(samples.len())),
        line("the test of a sound state", columns.iter().map(|(test, _)| *test).collect()),
    ];
    for (k, row) in ROWS.iter().enumerate() {
        let more = columns.iter().map(|(_, beyond)| beyond[k]).collect();
        lines.push(line(&format!("{}, beyond it", row.name), more));
    }
    lines
}

#[cfg(test)]
mod tests {
    use super::{measure, Call, Kind, Sample, State, FULL, ROWS, SAMPLES};
    use crate::calls::device;

    /// Every state has the extents it should and accepts every call; spoilt, it is damaged.
    #[test]
    fn samples_accept_every_call() {
        for sample in &SAMPLES {
            let mut states = State::both(sample);
            for (round, row) in (0..100).zip(ROWS.iter().cycle()) {
                let state = &mut states[usize::from(row.nearly_full)];
                assert_eq!(state.lent.head.used, sample.extents);
                state.move_on(round, row);
                state.test();
                state.call(row.call);
            }
        }
    }

    /// A write to a nearly full device has the pieces that its row says.
    #[test]
    fn pieces_are_as_many_as_said() {
        for sample in &SAMPLES {
            let pieces =
                |kind| device(&Sample { kind, ..*sample }).write(1, 100, 48).map(|pieces| pieces.len());
            assert_eq!((pieces(Kind::Scattered), pieces(Kind::NearlyFull)), (Ok(1), Ok(12)));
        }
    }

    /// Where a place is walked to from the first slot, a read of few pages takes more than a
    /// quarter of the test beyond it, a trim and a write half of it and more, and all the
    /// more of a faster test. Found by halving, a read takes next to nothing, and what is
    /// left of the others, a twentieth of the test where it was measured, is moving the slots
    /// behind the range: once, also for a write in many pieces. A reclaim that divides for
    /// each slot, and tests each for joins, takes longer than the test.
    #[test]
    fn places_are_found_and_not_walked_to() {
        let (test, beyond) = measure(&Sample { rounds: 101, ..FULL });
        for (row, more) in ROWS.iter().zip(beyond) {
            let most = match row.call {
                Call::Read => 0.1,
                Call::Trim => 0.2,
                Call::Write => 0.25,
                Call::Reclaim => 0.75,
                _ => continue,
            };
            assert!(more < most * test, "{}: {more:.0} ns beyond a test of {test:.0} ns", row.name);
        }
    }
}
