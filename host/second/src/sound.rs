//! Which lent words have a shape, and which of those are a sound state: rules 1
//! to 6 of document 01, each by itself. All sums are taken as whole numbers.

use crate::device::Device;
use crate::{Block, Extent, Head, Words, ERASED};

/// 01, numbers: the bounds of B, N, L and M. Each is tested before it is used
/// in a product.
pub fn sizes_fit(blocks: u32, pages: u32, logical: u32, slots: u32) -> bool {
    (3..=1024).contains(&blocks)
        && (1..=256).contains(&pages)
        && (1..=(blocks - 2) * pages).contains(&logical)
        && (1..=8192).contains(&slots)
}

/// 01, numbers: the lengths of extents, blocks and spare, each exact. The sizes must
/// fit.
pub fn lengths_fit(blocks: u32, pages: u32, slots: u32, words: &Words) -> bool {
    words.extents.len() == 3 * slots as usize
        && words.blocks.len() == Block::WORDS * blocks as usize
        && words.spare.len() == (blocks * pages) as usize
}

/// The table that a sound state stands for; none if the state isn't sound. The
/// shape must fit. A later rule may look only where an earlier one allows.
pub fn device_of(head: Head, words: &Words) -> Option<Device> {
    if head.used > head.slots {
        return None;
    }
    let extents = extents_in_use(head, words);
    let sound = rule_1(head, &extents, words)
        && rule_2(head, &extents)
        && rule_3(head, words)
        && rule_4(head, &extents, words)
        && rule_5(head, &extents, words)
        && rule_6(head, words);
    sound.then(|| table_of(head, &extents, words))
}

fn extents_in_use(head: Head, words: &Words) -> Vec<Extent> {
    words.extents[..3 * head.used as usize]
        .chunks_exact(3)
        .map(|slot| Extent { logical: slot[0], physical: slot[1], count: slot[2] })
        .collect()
}

/// The first number after the run that starts at `start`, as a whole number.
fn end(start: u32, count: u32) -> u64 {
    u64::from(start) + u64::from(count)
}

/// 01, a sound state, rule 1, but for the number of extents in use: rising
/// logical order, 1 or more pages each, disjoint, ending at or below L, and
/// unused slots all zero.
fn rule_1(head: Head, extents: &[Extent], words: &Words) -> bool {
    let each = extents.iter().all(|e| e.count >= 1 && end(e.logical, e.count) <= u64::from(head.logical));
    let rising_and_disjoint =
        extents.windows(2).all(|pair| end(pair[0].logical, pair[0].count) <= u64::from(pair[1].logical));
    let unused = &words.extents[3 * extents.len()..];
    each && rising_and_disjoint && unused.iter().all(|&word| word == 0)
}

/// 01, a sound state, rule 2: no extent crosses a block, no two neighbours are
/// joinable. Each extent has 1 or more pages.
fn rule_2(head: Head, extents: &[Extent]) -> bool {
    let pages = u64::from(head.pages);
    let inside =
        extents.iter().all(|e| u64::from(e.physical) / pages == (end(e.physical, e.count) - 1) / pages);
    inside && !extents.windows(2).any(|pair| joinable(head, pair[0], pair[1]))
}

fn joinable(head: Head, first: Extent, next: Extent) -> bool {
    first.physical / head.pages == next.physical / head.pages
        && u64::from(next.logical) == end(first.logical, first.count)
        && u64::from(next.physical) == end(first.physical, first.count)
}

/// 01, a sound state, rule 3: fill at most N, labels less than L below the fill,
/// erased from the fill on.
fn rule_3(head: Head, words: &Words) -> bool {
    let in_block = |(block, labels): (usize, &[u32])| {
        let fill = words.block(block as u32).fill;
        if fill > head.pages {
            return false;
        }
        let (below, from) = labels.split_at(fill as usize);
        below.iter().all(|&label| label < head.logical) && from.iter().all(|&label| label == ERASED)
    };
    words.spare.chunks_exact(head.pages as usize).enumerate().all(in_block)
}

/// 01, a sound state, rule 4: each mapped page lies below B x N and below its
/// block's fill, and its spare entry is its logical page. Rules 1 and 2 hold.
fn rule_4(head: Head, extents: &[Extent], words: &Words) -> bool {
    let below = |e: &Extent| end(e.physical, e.count) <= u64::from(head.blocks * head.pages);
    let mapped = |e: &Extent| {
        (0..e.count).all(|k| {
            let page = e.physical + k;
            let fill = words.block(page / head.pages).fill;
            page % head.pages < fill && words.spare[page as usize] == e.logical + k
        })
    };
    extents.iter().all(|e| below(e) && mapped(e))
}

/// 01, a sound state, rule 5: a block's valid count is the number of mapped pages
/// in it. Rules 1 to 4 hold.
fn rule_5(head: Head, extents: &[Extent], words: &Words) -> bool {
    let mut mapped = vec![0; head.blocks as usize];
    for e in extents {
        mapped[(e.physical / head.pages) as usize] += e.count;
    }
    (0..head.blocks).all(|block| words.block(block).valid == mapped[block as usize])
}

/// 01, a sound state, rule 6: the reserve is below B and has fill 0.
fn rule_6(head: Head, words: &Words) -> bool {
    head.reserve < head.blocks && words.block(head.reserve).fill == 0
}

fn table_of(head: Head, extents: &[Extent], words: &Words) -> Device {
    let mut device = Device::fresh(head.blocks, head.pages, head.logical, head.slots);
    for e in extents {
        let lines = &mut device.table[e.logical as usize..(e.logical + e.count) as usize];
        lines.iter_mut().zip(e.physical..).for_each(|(line, page)| *line = page);
    }
    device.fills = (0..head.blocks).map(|block| words.block(block).fill).collect();
    device.spare.copy_from_slice(&words.spare);
    device.reserve = head.reserve;
    device.last = head.last;
    device
}
