//! Random requests for trying a layer: mostly usual ones, at times at a limit or
//! beyond it, repeated, or with a short answer buffer. And sound states for trying and
//! measuring one, which no history has come to.

use crate::device::Device;
use crate::random::Random;
use crate::requests::Request;
use crate::{words_of, Head, Words};

/// Sizes from the smallest up to so many blocks and pages; M at times too small
/// for every map.
pub fn sizes(random: &mut Random, most_blocks: u32, most_pages: u32) -> Request {
    let blocks = random.between(3, most_blocks);
    let pages = random.between(1, most_pages);
    let most = (blocks - 2) * pages;
    let logical = if random.once_in(2) { most } else { random.between(1, most) };
    let slots = random.between(1, (logical + 2).min(8192));
    Request::Fresh { blocks, pages, logical, slots }
}

/// Mostly the next number, at times one further on, old, or large.
pub fn number(random: &mut Random, last: u64) -> u64 {
    match random.between(0, 19) {
        0 => last,
        1 => last.saturating_sub(u64::from(random.between(0, 3))),
        2 => 0,
        3 => last.saturating_add(u64::from(random.between(1, 1000))),
        4 if random.once_in(20) => last.saturating_add(1 << 32),
        5 if random.once_in(500) => u64::MAX - u64::from(random.between(0, 2)),
        _ => last.saturating_add(1),
    }
}

/// A range of at most so many pages, mostly inside the logical pages, at times
/// at a limit or beyond it.
pub fn range(random: &mut Random, head: Head, most: u32) -> (u32, u32) {
    if random.once_in(12) {
        return range_at_limits(random, head);
    }
    let count = if random.once_in(3) { 1 } else { random.between(1, most.min(head.logical)) };
    (random.between(0, head.logical - count), count)
}

/// A range whose start or count is a limit, or whose end is one, reached with or
/// without running over 32 bits.
fn range_at_limits(random: &mut Random, head: Head) -> (u32, u32) {
    let (logical, pages) = (head.logical, head.pages);
    let limits =
        [0, 1, logical - 1, logical, logical + 1, pages - 1, pages, pages + 1, u32::MAX - 1, u32::MAX];
    let start = random.pick(&limits);
    if random.once_in(2) {
        return (start, random.pick(&limits));
    }
    (start, random.pick(&limits).wrapping_sub(start))
}

/// Mostly as much room as any answer needs, at times little.
pub fn room(random: &mut Random, most: u32) -> u32 {
    if random.once_in(8) {
        return random.between(0, most.min(12));
    }
    most
}

/// A call on a device and, before it, the room of its answer buffer: as much as
/// any answer to this call needs, or less.
pub fn call(random: &mut Random, head: Head) -> [Request; 2] {
    let (request, most_room) = match random.between(0, 19) {
        0..=9 => {
            let (start, count) = range(random, head, head.pages);
            (Request::Write { number: number(random, head.last), start, count }, 3 * head.pages)
        }
        10..=12 => {
            let (start, count) = range(random, head, head.logical);
            (Request::Trim { number: number(random, head.last), start, count }, 0)
        }
        13..=15 => {
            let (start, count) = range(random, head, head.logical);
            (Request::Read { start, count }, 3 * head.logical)
        }
        16..=18 => (Request::Reclaim, head.pages),
        _ => (Request::Report, 0),
    };
    [Request::Room { words: room(random, most_room) }, request]
}

/// A history that all but fills a device from fresh: writes of whole blocks' worth
/// of pages at random places.
pub fn filled(random: &mut Random, fresh: Request) -> Vec<Request> {
    let (blocks, pages, logical) = match fresh {
        Request::Fresh { blocks, pages, logical, .. } => (blocks, pages, logical),
        _ => return vec![fresh],
    };
    let count = pages.min(logical);
    let writes = (blocks - 2) * pages / count;
    let mut history = vec![fresh, Request::Room { words: 3 * pages }];
    for number in 1..=u64::from(writes) {
        history.push(Request::Write { number, start: random.between(0, logical - count), count });
    }
    history
}

/// A history that writes every logical page in order, a block's worth at a time: each
/// extent goes on, over a block's edge, where the one before ends.
pub fn in_order(fresh: Request) -> Vec<Request> {
    let (pages, logical) = match fresh {
        Request::Fresh { pages, logical, .. } => (pages, logical),
        _ => return vec![fresh],
    };
    let mut history = vec![fresh, Request::Room { words: 3 }];
    for (number, start) in (1..).zip((0..logical).step_by(pages as usize)) {
        history.push(Request::Write { number, start, count: pages.min(logical - start) });
    }
    history
}

/// A run of live pages and the stale ones behind it, all in one block.
#[derive(Clone, Copy)]
struct Run {
    /// The first physical page.
    first: u32,
    live: u32,
    stale: u32,
}

/// How long so many runs are if, each followed by as many stale pages, they take up all
/// blocks but two up to a fill.
fn run_length(device: &Device, fill: u32, extents: u32) -> u32 {
    ((device.blocks - 2) * fill / (2 * extents)).clamp(1, (fill + 1) / 2)
}

/// So many equal runs, or as many as fit, each followed by as many stale pages. So many
/// pages at the end of each block stay free.
fn equal_runs(device: &Device, extents: u32, free: u32) -> Vec<Run> {
    let fill = device.pages - free;
    let live = run_length(device, fill, extents);
    let mut runs = Vec::new();
    for block in 0..device.blocks - 2 {
        for offset in (0..=fill - live).step_by(2 * live as usize) {
            let stale = live.min(fill - offset - live);
            runs.push(Run { first: block * device.pages + offset, live, stale });
        }
    }
    runs.truncate(extents.min(device.logical / live) as usize);
    runs
}

/// So many runs, or as many as fit: each of 1 page up to twice the length of equal ones
/// less one, and so many stale pages behind it, cut at the block's end. A stale page lies
/// between any two in a block, so no two are joinable.
fn random_runs(random: &mut Random, device: &Device, extents: u32) -> Vec<Run> {
    let pages = device.pages;
    let most = 2 * run_length(device, pages, extents) - 1;
    let mut lines = device.logical;
    let mut runs = Vec::new();
    for block in 0..device.blocks - 2 {
        let mut offset = 0;
        while offset < pages && lines > 0 && runs.len() < extents as usize {
            let live = random.between(1, most).min(pages - offset).min(lines);
            let stale = random.between(1, most).min(pages - offset - live);
            runs.push(Run { first: block * pages + offset, live, stale });
            offset += live + stale;
            lines -= live;
        }
    }
    runs
}

/// Puts runs on a fresh device, in falling logical order down to page 0. The labels of the
/// stale pages go on where those of the run end.
fn put_runs(device: &mut Device, runs: &[Run]) {
    let mut start = runs.iter().map(|run| run.live).sum::<u32>();
    for run in runs {
        start -= run.live;
        (0..run.live).for_each(|k| device.table[(start + k) as usize] = run.first + k);
        let programmed = run.live + run.stale;
        let labels = &mut device.spare[run.first as usize..(run.first + programmed) as usize];
        labels.iter_mut().zip(start..).for_each(|(label, l)| *label = l.min(device.logical - 1));
        let fill = &mut device.fills[(run.first / device.pages) as usize];
        *fill = (run.first % device.pages + programmed).max(*fill);
    }
}

/// A sound state of so many extents, or as many as fit: in each block used, runs of
/// live pages, each followed by as many stale ones. The logical pages fall where the
/// physical ones rise. The last two blocks are empty, one of them the reserve. The sizes
/// must be those of document 01.
pub fn scattered(blocks: u32, pages: u32, logical: u32, slots: u32, extents: u32) -> (Head, Words) {
    let mut device = Device::fresh(blocks, pages, logical, slots);
    let runs = equal_runs(&device, extents, 0);
    put_runs(&mut device, &runs);
    words_of(&device)
}

/// As [`scattered`], but so many pages of each block, fewer than it has, are free, and the
/// reserve alone is empty: a write of more falls into pieces.
pub fn nearly_full(
    blocks: u32,
    pages: u32,
    logical: u32,
    slots: u32,
    extents: u32,
    free: u32,
) -> (Head, Words) {
    let mut device = Device::fresh(blocks, pages, logical, slots);
    let runs = equal_runs(&device, extents, free);
    put_runs(&mut device, &runs);
    for block in (0..blocks).filter(|&block| block != device.reserve) {
        let fill = &mut device.fills[block as usize];
        let stale = block * pages + *fill..(block + 1) * pages - free;
        stale.for_each(|page| device.spare[page as usize] = 0);
        *fill = pages - free;
    }
    words_of(&device)
}

/// As [`scattered`], but which run is which in logical order is left to chance.
pub fn shuffled(
    random: &mut Random,
    blocks: u32,
    pages: u32,
    logical: u32,
    slots: u32,
    extents: u32,
) -> (Head, Words) {
    let mut device = Device::fresh(blocks, pages, logical, slots);
    let mut runs = equal_runs(&device, extents, 0);
    random.shuffle(&mut runs);
    put_runs(&mut device, &runs);
    words_of(&device)
}

/// As [`scattered`], but the lengths and places of the runs, their logical order and the
/// labels of stale pages are left to chance.
pub fn irregular(
    random: &mut Random,
    blocks: u32,
    pages: u32,
    logical: u32,
    slots: u32,
    extents: u32,
) -> (Head, Words) {
    let mut device = Device::fresh(blocks, pages, logical, slots);
    let mut runs = random_runs(random, &device, extents);
    random.shuffle(&mut runs);
    put_runs(&mut device, &runs);
    for run in &runs {
        let stale = run.first + run.live..run.first + run.live + run.stale;
        stale.for_each(|page| device.spare[page as usize] = random.between(0, logical - 1));
    }
    words_of(&device)
}

/// A sound state whose blocks are filled to every height, the first and the last to the
/// top, with the reserve in the middle. So many extents, if so many pages are
/// programmed, are single pages spread over these; all others are stale. The sizes must
/// be those of document 01.
pub fn uneven(blocks: u32, pages: u32, logical: u32, slots: u32, extents: u32) -> (Head, Words) {
    let mut device = Device::fresh(blocks, pages, logical, slots);
    device.reserve = blocks / 2;
    let mut programmed = Vec::new();
    for block in (0..blocks).filter(|&block| block != blocks / 2) {
        let full = block == 0 || block == blocks - 1;
        let fill = if full { pages } else { block % (pages + 1) };
        device.fills[block as usize] = fill;
        programmed.extend(block * pages..block * pages + fill);
    }
    programmed.iter().for_each(|&page| device.spare[page as usize] = 0);
    // The logical pages fall where the physical ones rise: no two extents are joinable.
    let live = programmed.iter().step_by((programmed.len() / extents as usize).max(1));
    for (l, &page) in (0..logical).rev().zip(live).take(extents as usize) {
        device.table[l as usize] = page;
        device.spare[page as usize] = l;
    }
    words_of(&device)
}
