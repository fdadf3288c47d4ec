//! Every place in a map: a read, a trim and a write from each logical page on, in maps
//! of every number of extents up to some, and in one of many.

use second::generate;
use second::requests::{to_reach, Request};
use second::shrink::Tried;
use second::Layer;

use crate::History;

/// Words for the answers: a range of some pages has few pieces.
const ROOM: Request = Request::Room { words: 48 };

/// From each of some pages on, a few pages read, trimmed and written, each from the
/// state that the history has come to. How many calls were compared.
fn every_place<L: Layer + Clone>(
    history: &History<L>,
    starts: impl Iterator<Item = u32>,
    counts: &[u32],
) -> Tried<u64> {
    let number = history.pair.head().last + 1;
    let mut compared = 0;
    for start in starts {
        for &count in counts {
            let calls = [
                Request::Read { start, count },
                Request::Trim { number, start, count },
                Request::Write { number, start, count },
            ];
            for call in calls {
                let mut pair = history.pair.clone();
                pair.run(call).map_err(|failure| history.shown(failure, &[call]))?;
                compared += 1;
            }
        }
    }
    Ok(compared)
}

/// Maps of no extent, of one, and so on, each of a page with a hole before it, from
/// every page on, past the last one too.
pub fn short_maps<L: Layer + Clone>(layer: L) -> Tried<u64> {
    let mut compared = 0;
    let begun = [Request::Fresh { blocks: 14, pages: 8, logical: 72, slots: 40 }, ROOM];
    let mut history = History::of(layer, &begun)?;
    for extents in 0..=33 {
        compared += every_place(&history, 0..2 * extents + 4, &[1, 2, 3, 8])?;
        let number = u64::from(extents) + 1;
        history.run(Request::Write { number, start: 2 * extents + 1, count: 1 })?;
    }
    Ok(compared)
}

/// A map of 1,792 extents in as many slots, each of a page, from every page on.
pub fn long_map<L: Layer + Clone>(layer: L) -> Tried<u64> {
    let (blocks, pages, slots) = (16, 256, 1792);
    let (head, words) = generate::scattered(blocks, pages, (blocks - 2) * pages, slots, slots);
    let mut history = History::of(layer, &to_reach(head, &words))?;
    history.run(ROOM)?;
    every_place(&history, 0..slots + 2, &[1, 3])
}
