//! Random histories from fresh: every answer and every lent word is compared with that
//! of the second implementation.

use second::generate;
use second::random::Random;
use second::requests::{to_reach, Field, Request};
use second::shrink::Tried;
use second::Layer;

use crate::{add, random, times, Given, History};

/// A history from fresh, of so many calls. At times the last number is a large one
/// from the start.
fn history<L: Layer + Clone>(layer: &L, random: &mut Random, fresh: Request, calls: u32) -> Tried<Given> {
    let mut begun = vec![fresh];
    if random.once_in(10) {
        let large = [u64::from(u32::MAX), 1 << 63, u64::MAX - 40, u64::MAX - 1, u64::MAX];
        begun.push(Request::Head { field: Field::Last, value: random.pick(&large) });
    }
    let mut history = History::of(layer.clone(), &begun)?;
    history.calls(random, calls)?;
    Ok(history.pair.given())
}

/// So many histories of devices up to some blocks and pages, of so many calls each.
fn random_devices<L: Layer + Clone>(
    layer: &L,
    mut random: Random,
    count: u32,
    (blocks, pages): (u32, u32),
    calls: u32,
) -> Tried<Given> {
    let mut total = [0; 9];
    for _ in 0..count {
        let fresh = generate::sizes(&mut random, blocks, pages);
        add(&mut total, history(layer, &mut random, fresh, calls)?);
    }
    Ok(total)
}

pub fn tiny_devices<L: Layer + Clone>(layer: L) -> Tried<Given> {
    random_devices(&layer, random(1), times(1500), (5, 3), 200)
}

pub fn small_devices<L: Layer + Clone>(layer: L) -> Tried<Given> {
    random_devices(&layer, random(2), times(1400), (9, 9), 500)
}

pub fn smallest_device<L: Layer + Clone>(layer: L) -> Tried {
    let mut random = random(3);
    for _ in 0..times(100) {
        let fresh = Request::Fresh { blocks: 3, pages: 1, logical: 1, slots: 1 };
        history(&layer, &mut random, fresh, 200)?;
    }
    Ok(())
}

pub fn middling_devices<L: Layer + Clone>(layer: L) -> Tried {
    let mut random = random(4);
    for slots in [1, 16, 100, 896] {
        for (blocks, pages, logical) in [(16, 64, 896), (64, 16, 992), (1024, 1, 1022), (3, 256, 256)] {
            let fresh = Request::Fresh { blocks, pages, logical, slots };
            history(&layer, &mut random, fresh, times(600))?;
        }
    }
    Ok(())
}

/// Each size at its largest by itself and with the others: from fresh, and from a
/// state with most slots in use.
pub fn largest_devices<L: Layer + Clone>(layer: L) -> Tried {
    let mut random = random(5);
    for (blocks, pages, slots) in [(1024, 256, 8192), (1024, 3, 8192), (3, 256, 8192), (40, 256, 1)] {
        let logical = (blocks - 2) * pages;
        history(&layer, &mut random, Request::Fresh { blocks, pages, logical, slots }, times(60))?;
        let (head, words) = generate::scattered(blocks, pages, logical, slots, slots);
        History::of(layer.clone(), &to_reach(head, &words))?.calls(&mut random, times(60))?;
    }
    Ok(())
}

/// Sizes at every limit, and every call on what is then lent: before the first
/// accepted fresh, nothing.
pub fn sizes_at_every_limit<L: Layer + Clone>(layer: L) -> Tried {
    let calls = [
        Request::Report,
        Request::Read { start: 0, count: 1 },
        Request::Reclaim,
        Request::Trim { number: 1, start: 0, count: 1 },
        Request::Write { number: 2, start: 0, count: 1 },
    ];
    let mut history = History::of(layer, &calls)?;
    for blocks in [0, 1, 2, 3, 4, 1023, 1024, 1025, u32::MAX] {
        for pages in [0, 1, 2, 255, 256, 257, u32::MAX] {
            let most = blocks.saturating_sub(2).wrapping_mul(pages);
            for logical in [0, 1, most.wrapping_sub(1), most, most.wrapping_add(1), u32::MAX] {
                for slots in [0, 1, 8191, 8192, 8193, u32::MAX] {
                    history.run(Request::Fresh { blocks, pages, logical, slots })?;
                }
            }
            calls.into_iter().try_for_each(|request| history.run(request))?;
        }
    }
    Ok(())
}
