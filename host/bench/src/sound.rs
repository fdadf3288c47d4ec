//! The test of a sound state in plain Rust, rules 1 to 6 directly over the words, as fast
//! as we know how to make it without `unsafe` and without intrinsics; and one pass over
//! the same words.

use second::{Block, Head, Words, ERASED};

/// One vectorised pass over all that is lent: the least that any call must do.
pub fn pass(words: &Words) -> u32 {
    let sum = |buffer: &[u32]| buffer.iter().fold(0_u32, |sum, &word| sum.wrapping_add(word));
    sum(&words.extents) ^ sum(&words.blocks) ^ sum(&words.spare)
}

/// Whether a state of the right shape is sound.
pub fn sound(head: Head, words: &Words) -> bool {
    if head.used > head.slots || head.reserve >= head.blocks || words.block(head.reserve).fill != 0 {
        return false;
    }
    let (in_use, unused) = words.extents.split_at(3 * head.used as usize);
    if unused.iter().fold(0, |bits, word| bits | word) != 0 || !labels_fit(head, words) {
        return false;
    }
    let mut mapped = [0; 1024];
    if !extents_fit(in_use, head.pages, &words.spare, &mut mapped[..head.blocks as usize]) {
        return false;
    }
    Block::all(&words.blocks).zip(&mapped).fold(0, |bits, (block, pages)| bits | (block.valid ^ pages)) == 0
}

/// Rule 3: labels below L below the fill, erased from it on. No loop over the labels of a
/// block has an exit: so the compiler vectorises it.
fn labels_fit(head: Head, words: &Words) -> bool {
    let labels = words.spare.chunks_exact(head.pages as usize);
    Block::all(&words.blocks).zip(labels).all(|(block, labels)| {
        if block.fill > head.pages {
            return false;
        }
        let (below, from) = labels.split_at(block.fill as usize);
        below.iter().fold(true, |fits, &label| fits & (label < head.logical))
            && from.iter().fold(0, |bits, label| bits | (label ^ ERASED)) == 0
    })
}

/// Rules 1, 2 and 4 for the extents in use; counts the mapped pages of each block. Rule 3
/// must hold: a label that is the logical page of an extent then says that the physical
/// one lies below the fill, and the logical one below L.
fn extents_fit(in_use: &[u32], pages: u32, spare: &[u32], mapped: &mut [u32]) -> bool {
    let (mut end, mut next) = (0, u32::MAX);
    for extent in in_use.chunks_exact(3) {
        let (logical, physical, count) = (extent[0], extent[1], extent[2]);
        let (block, offset) = (physical / pages, physical % pages);
        // So far below 2^32 no sum runs over, and no logical page is the word of an erased entry.
        if logical < end || logical >= 1 << 31 || count == 0 || count > pages - offset {
            return false;
        }
        // The page after the extent before, unless a block ends there.
        if physical == next && logical == end && offset != 0 {
            return false;
        }
        if !labelled(spare, pages as usize, physical as usize, logical, count as usize) {
            return false;
        }
        match mapped.get_mut(block as usize) {
            Some(mapped) => *mapped += count,
            None => return false,
        }
        end = logical + count;
        next = physical + count;
    }
    true
}

/// Labels that are compared at a time.
const WINDOW: usize = 8;

/// Ones, then zeros: from k words before the zeros on, it lets the first k labels of a window
/// count.
const MASKS: [u32; 2 * WINDOW] = [!0, !0, !0, !0, !0, !0, !0, !0, 0, 0, 0, 0, 0, 0, 0, 0];

/// Whether the labels of so many pages, 1 up to a block's, from `first` on are the logical
/// pages from `logical` on. They are compared in windows, but for those of the last pages,
/// where a window could reach beyond the last label.
#[inline(always)]
fn labelled(spare: &[u32], pages: usize, first: usize, logical: u32, count: usize) -> bool {
    let reach = (pages + WINDOW - 1) / WINDOW * WINDOW;
    match spare.get(first..first + reach) {
        Some(labels) => labelled_in_windows(labels, logical, count),
        None => spare
            .get(first..first + count)
            .map_or(false, |labels| labels.iter().zip(logical..).all(|(&label, l)| label == l)),
    }
}

/// The same where a block's labels, in whole windows, are there. The last window is masked,
/// so no label is compared by itself.
#[inline(always)]
fn labelled_in_windows(labels: &[u32], mut logical: u32, mut count: usize) -> bool {
    for window in labels.chunks_exact(WINDOW) {
        if count <= WINDOW {
            return differing(window, logical, &MASKS[WINDOW - count..]) == 0;
        }
        if differing(window, logical, &MASKS) != 0 {
            return false;
        }
        logical += WINDOW as u32;
        count -= WINDOW;
    }
    false
}

/// The bits in which the labels of a window differ from the logical pages from one on,
/// where the mask has ones.
#[inline(always)]
fn differing(window: &[u32], logical: u32, masks: &[u32]) -> u32 {
    let bits = window.iter().zip(logical..).map(|(label, l)| label ^ l);
    bits.zip(&masks[..WINDOW]).fold(0, |all, (bits, mask)| all | (bits & mask))
}

#[cfg(test)]
mod tests {
    use super::sound;
    use second::generate;
    use second::host::Host;
    use second::random::Random;
    use second::requests::Buffer;
    use second::{Block, Head, Layer, Second, Words};

    fn agrees(head: Head, words: &Words) -> bool {
        let refused = Second.report(head, words).refusal == 2;
        assert_eq!(sound(head, words), !refused, "{head:?} {words:?}");
        !refused
    }

    fn damaged(random: &mut Random, head: Head, words: &Words) -> (Head, Words) {
        let (mut head, mut words) = (head, words.clone());
        for _ in 0..random.between(1, 2) {
            let limits = [0, 1, head.logical, head.blocks * head.pages, head.pages, u32::MAX];
            if random.once_in(8) {
                head.used = random.pick(&limits);
            } else if random.once_in(8) {
                head.reserve = random.between(0, head.blocks);
            } else {
                let buffer = random.pick(&Buffer::ALL).of(&mut words);
                let word = random.between(0, buffer.len() as u32 - 1) as usize;
                let near = [buffer[word].wrapping_add(1), buffer[word].wrapping_sub(1)];
                buffer[word] = if random.once_in(2) { random.pick(&near) } else { random.pick(&limits) };
            }
        }
        (head, words)
    }

    /// The test says what the second implementation says, of a sound state and of damaged
    /// ones. How many of these were sound, and how many were not.
    fn agrees_when_damaged(random: &mut Random, head: Head, words: &Words) -> [u32; 2] {
        assert!(agrees(head, words));
        let mut counts = [0; 2];
        for _ in 0..300 {
            let (head, words) = damaged(random, head, words);
            counts[usize::from(!agrees(head, &words))] += 1;
        }
        counts
    }

    fn add(total: &mut [u32; 2], counts: [u32; 2]) {
        total.iter_mut().zip(counts).for_each(|(total, count)| *total += count);
    }

    /// States that histories come to: extents of few pages, and in blocks of up to 32 also
    /// such as take several windows.
    #[test]
    fn the_direct_test_agrees_with_the_second_implementation() {
        let mut random = Random::new(41);
        let mut total = [0; 2];
        for (histories, blocks, pages) in [(300, 6, 6), (100, 12, 32)] {
            for _ in 0..histories {
                let sizes = generate::sizes(&mut random, blocks, pages);
                let mut host = Host::replay(Second, &[sizes], true).expect("fresh");
                for _ in 0..40 {
                    for request in generate::call(&mut random, host.head()) {
                        host.run(request).expect("a history");
                    }
                }
                let (head, words) = host.lent();
                add(&mut total, agrees_when_damaged(&mut random, head, words));
            }
        }
        let [sound_ones, others] = total;
        assert!(sound_ones > 1000 && others > 10_000, "{sound_ones} sound, {others} not");
    }

    /// States of the three kinds that are measured, with extents of 1 page up to 31.
    #[test]
    fn the_direct_test_agrees_on_the_measured_kinds() {
        let mut random = Random::new(42);
        let (blocks, pages, logical, slots) = (12, 32, 320, 160);
        let mut total = [0; 2];
        for extents in [5, 10, 13, 18, 20, 30, 53, 80, 160].repeat(3) {
            let states = [
                generate::scattered(blocks, pages, logical, slots, extents),
                generate::shuffled(&mut random, blocks, pages, logical, slots, extents),
                generate::irregular(&mut random, blocks, pages, logical, slots, extents),
            ];
            for (head, words) in states {
                add(&mut total, agrees_when_damaged(&mut random, head, &words));
            }
        }
        let [sound_ones, others] = total;
        assert!(sound_ones > 1000 && others > 10_000, "{sound_ones} sound, {others} not");
    }

    /// An extent may be as long as a block, and it must not cross into the next one, even
    /// where labels, fills and valid counts are such that it could.
    #[test]
    fn an_extent_ends_with_its_block() {
        let mut words = Words::of_sizes(12, 32, 160);
        let mut head = Second.fresh(12, 32, 320, 160, &mut words).head;
        for (number, start, count) in [(1, 100, 16), (2, 0, 16), (3, 16, 32)] {
            head = Second.write(head, &mut words, number, start, count, &mut [0; 3]).head;
        }
        assert!(agrees(head, &words) && words.extents[..9] == [0, 16, 16, 16, 32, 32, 100, 0, 16]);
        words.extents[..6].copy_from_slice(&[0, 16, 17, 18, 34, 30]);
        words.put_block(0, Block { fill: 32, valid: 33 });
        words.put_block(1, Block { fill: 32, valid: 30 });
        assert!(!agrees(head, &words));
    }
}
