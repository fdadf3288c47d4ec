//! Each call on states of several sizes and kinds, against one pass over the same words,
//! against a report, against the test of a sound state in plain Rust, and against the
//! same call of the second implementation.

use compare::to_library;
use second::random::Random;
use second::Words;
use utasiro::Device;

use crate::lent::{black_box, median, Call, Kind, Lent, Sample};
use crate::progress;
use crate::sound::{pass, sound};

/// The samples of the table: B x N of 4,096, 65,536 and 262,144, with few extents
/// and with many, these of each kind. At 4,096 there are not pages enough for 8,192: 1,984
/// are of one page each, and of random lengths there are 960.
pub const SAMPLES: [Sample; 12] = [
    Sample { extents: 16, ..SMALL },
    SMALL,
    Sample { kind: Kind::Shuffled, ..SMALL },
    Sample { extents: 960, kind: Kind::Irregular, ..SMALL },
    Sample { extents: 16, ..MIDDLING },
    MIDDLING,
    Sample { kind: Kind::Shuffled, ..MIDDLING },
    Sample { kind: Kind::Irregular, ..MIDDLING },
    Sample { extents: 16, ..LARGE },
    LARGE,
    Sample { kind: Kind::Shuffled, ..LARGE },
    Sample { kind: Kind::Irregular, ..LARGE },
];

const SMALL: Sample = Sample { blocks: 64, pages: 64, extents: 1984, kind: Kind::Scattered, rounds: 801 };
const MIDDLING: Sample =
    Sample { blocks: 256, pages: 256, extents: 8192, kind: Kind::Scattered, rounds: 401 };
const LARGE: Sample = Sample { blocks: 1024, pages: 256, extents: 8192, kind: Kind::Scattered, rounds: 201 };

const CALLS: [(Call, &str); 8] = [
    (Call::Report, "report"),
    (Call::Read, "read of 48 pages"),
    (Call::ReadAll, "read of all pages"),
    (Call::ReadRecords, "read of 48 pages over records"),
    (Call::Write, "write of 48 pages"),
    (Call::Trim, "trim of 48 pages"),
    (Call::Reclaim, "reclaim"),
    (Call::Fresh, "fresh"),
];

/// The times of a round, in nanoseconds: one pass, the test in plain Rust, each call of the
/// library and each of the second implementation.
#[derive(Default)]
struct Round {
    pass: f64,
    test: f64,
    library: [f64; CALLS.len()],
    second: [f64; CALLS.len()],
}

enum Timed {
    Pass,
    Test,
    Library(usize),
}

impl Round {
    /// Measures each once, on words copied afresh. What comes after the second
    /// implementation finds other things in the caches, so another one does each time.
    fn measure(random: &mut Random, lent: &mut Lent, state: &Words) -> Round {
        let mut order: Vec<Timed> = (0..CALLS.len()).map(Timed::Library).collect();
        order.extend([Timed::Pass, Timed::Test]);
        random.shuffle(&mut order);
        let mut round = Round::default();
        for timed in order {
            match timed {
                Timed::Pass => {
                    let pass = |lent: &mut Lent| _ = black_box(pass(black_box(&lent.words)));
                    round.pass = lent.time(state, pass);
                }
                Timed::Test => {
                    let test = |lent: &mut Lent| assert!(black_box(sound(lent.head, black_box(&lent.words))));
                    round.test = lent.time(state, test);
                }
                Timed::Library(k) => {
                    let call = |lent: &mut Lent| assert_eq!(black_box(lent.library(CALLS[k].0)), 0);
                    round.library[k] = lent.time(state, call);
                }
            }
        }
        for (time, (call, _)) in round.second.iter_mut().zip(CALLS) {
            *time = lent.time(state, |lent| assert_eq!(black_box(lent.second(call)), 0));
        }
        round
    }

    fn report(&self) -> f64 {
        self.library[0]
    }
}

/// A row of the table but for its first columns: the medians of a time by others of the
/// same round, and the pass.
fn row(rounds: &[Round], time: impl Fn(&Round) -> f64, second: Option<usize>) -> String {
    let ratio = |to: &dyn Fn(&Round) -> f64| {
        let ratios = rounds.iter().map(|round| time(round) / to(round)).collect();
        format!("{:.2}", median(ratios))
    };
    let to_second = second.map_or(String::new(), |k| format!(" {}", ratio(&|round| round.second[k])));
    let pass = median(rounds.iter().map(|round| round.pass).collect());
    format!(
        "{} | {} | {} |{to_second} | {pass:.0} |",
        ratio(&|round| round.pass),
        ratio(&Round::report),
        ratio(&|round| round.test)
    )
}

/// The table, as lines of Markdown.
pub fn table(samples: &[Sample]) -> Vec<String> {
    let mut lines = vec![
        String::from(
            "| B x N | extents | state | call | to one pass | to a report | to the test in plain Rust \
             | to the second implementation | one pass, ns |",
        ),
        String::from("|---:|---:|---|---|---:|---:|---:|---:|---:|"),
    ];
    for sample in samples {
        let mut lent = Lent::of(sample);
        let state = lent.words.clone();
        let (size, used, kind) = (sample.blocks * sample.pages, lent.head.used, sample.kind.name());
        progress::show(&format!("calls: B x N {size}, {used} extents, {kind}"));
        let mut random = Random::new(71);
        let rounds: Vec<Round> =
            (0..sample.rounds).map(|_| Round::measure(&mut random, &mut lent, &state)).collect();
        let begin = format!("| {size} | {used} | {kind} |");
        lines.push(format!("{begin} the test in plain Rust | {}", row(&rounds, |round| round.test, None)));
        for (k, (_, name)) in CALLS.iter().enumerate() {
            lines.push(format!("{begin} {name} | {}", row(&rounds, |round| round.library[k], Some(k))));
        }
    }
    progress::clear();
    lines
}

/// A device of the library in a sample's state, for whoever wants to look at one.
pub fn device(sample: &Sample) -> Device {
    let Lent { head, words, .. } = Lent::of(sample);
    Device::from_parts(to_library(head), words.extents, words.blocks, words.spare)
}

#[cfg(test)]
mod tests {
    use super::{device, Lent, CALLS, SAMPLES};

    /// Every sample has the extents it should, and accepts every call. What is read is
    /// mapped.
    #[test]
    fn samples_are_sound_and_accept_every_call() {
        for sample in &SAMPLES {
            let (start, count) = Lent::of(sample).range;
            let device = device(sample);
            assert_eq!(device.head().used, sample.extents);
            assert!(device.report().expect("a sound state").stale > 0);
            let pieces = device.read(start, count).expect("a range inside");
            assert!(pieces.iter().all(|piece| piece.physical != utasiro::HOLE));
            for (call, name) in CALLS {
                assert_eq!(Lent::of(sample).library(call), 0, "{name}");
                assert_eq!(Lent::of(sample).second(call), 0, "{name}");
            }
        }
    }
}
