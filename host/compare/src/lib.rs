//! The library compared with the second implementation.
//!
//! [`Lent`] is the library as a layer over lent words, and [`OverRecords`] the same
//! with reads over extent records. [`Pair`] runs one request after the other on a
//! layer and on the second implementation, and compares every answer and every lent
//! word. `checks` tries random histories, every place of a map, damaged states, requests
//! sent again, a simulated flash and reads over records; a failure comes with the
//! shortest list that it can find (docs/REPLAY.md), from nothing on. [`Faulty`] is a
//! layer with a fault that they must find. A store that is cut short is tried by itself
//! (tests/crashes.rs).
//!
//! `UTASIRO_LONG=1` runs twenty times as much. `UTASIRO_SEED=K` runs others.

pub mod checks;
mod faulty;
mod lent;
mod pair;

pub use faulty::{Fault, Faulty};
pub use lent::{to_library, Lent, OverRecords};
pub use pair::{add, Given, History, Pair};

use second::random::Random;

/// So many of something, twenty times as many in a long run.
pub fn times(count: u32) -> u32 {
    if std::env::var("UTASIRO_LONG").as_deref() == Ok("1") {
        return 20 * count;
    }
    count
}

/// A source of numbers for a test, another one for each UTASIRO_SEED.
pub fn random(test: u64) -> Random {
    let seed = std::env::var("UTASIRO_SEED").ok().and_then(|seed| seed.parse::<u64>().ok()).unwrap_or(0);
    Random::new(seed.wrapping_mul(1000).wrapping_add(test))
}
