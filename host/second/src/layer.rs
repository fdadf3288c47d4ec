//! The six calls over lent words: the words are read as a table, the call is
//! done to the table, and an accepted one is put back into the words.

use crate::device::Device;
use crate::sound::{device_of, lengths_fit, sizes_fit};
use crate::{Block, Counts, Extent, Head, Layer, Outcome, Refusal, Words};

/// The second implementation.
#[derive(Clone, Copy, Debug, Default)]
pub struct Second;

/// Refusals 1 and 2, and the table of what passes them.
fn lent_device(head: Head, words: &Words) -> Result<Device, Refusal> {
    let shape = sizes_fit(head.blocks, head.pages, head.logical, head.slots)
        && lengths_fit(head.blocks, head.pages, head.slots, words);
    if !shape {
        return Err(Refusal::Shape);
    }
    device_of(head, words).ok_or(Refusal::Damaged)
}

fn refused(refusal: Refusal, head: Head) -> Outcome {
    Outcome { refusal: refusal.number(), count: 0, head }
}

fn accepted(count: usize, head: Head) -> Outcome {
    Outcome { refusal: 0, count: count as u32, head }
}

/// The head and the words that a table stands in.
pub fn words_of(device: &Device) -> (Head, Words) {
    let mut words = Words::of_sizes(device.blocks, device.pages, device.slots);
    let head = put(device, &mut words);
    (head, words)
}

/// Puts a table into words of its shape.
fn put(device: &Device, words: &mut Words) -> Head {
    let extents = device.extents();
    put_extents(&extents, &mut words.extents);
    words.extents[3 * extents.len()..].fill(0);
    for (block, (&fill, valid)) in (0..).zip(device.fills.iter().zip(device.valid())) {
        words.put_block(block, Block { fill, valid });
    }
    words.spare.copy_from_slice(&device.spare);
    Head {
        blocks: device.blocks,
        pages: device.pages,
        logical: device.logical,
        slots: device.slots,
        used: extents.len() as u32,
        reserve: device.reserve,
        last: device.last,
    }
}

fn put_extents(extents: &[Extent], words: &mut [u32]) {
    for (slot, e) in words.chunks_exact_mut(3).zip(extents) {
        slot.copy_from_slice(&[e.logical, e.physical, e.count]);
    }
}

impl Layer for Second {
    fn fresh(&self, blocks: u32, pages: u32, logical: u32, slots: u32, words: &mut Words) -> Outcome {
        if !sizes_fit(blocks, pages, logical, slots) || !lengths_fit(blocks, pages, slots, words) {
            return refused(Refusal::Shape, Head { blocks, pages, logical, slots, ..Head::default() });
        }
        accepted(0, put(&Device::fresh(blocks, pages, logical, slots), words))
    }

    fn write(
        &self,
        head: Head,
        words: &mut Words,
        number: u64,
        start: u32,
        count: u32,
        answer: &mut [u32],
    ) -> Outcome {
        let done = lent_device(head, words).and_then(|d| d.write(number, start, count, answer.len()));
        match done {
            Err(refusal) => refused(refusal, head),
            Ok((device, pieces)) => {
                put_extents(&pieces, answer);
                accepted(pieces.len(), put(&device, words))
            }
        }
    }

    fn trim(&self, head: Head, words: &mut Words, number: u64, start: u32, count: u32) -> Outcome {
        match lent_device(head, words).and_then(|d| d.trim(number, start, count)) {
            Err(refusal) => refused(refusal, head),
            Ok(device) => accepted(0, put(&device, words)),
        }
    }

    fn read(&self, head: Head, words: &Words, start: u32, count: u32, answer: &mut [u32]) -> Outcome {
        match lent_device(head, words).and_then(|d| d.read(start, count, answer.len())) {
            Err(refusal) => refused(refusal, head),
            Ok(pieces) => {
                put_extents(&pieces, answer);
                accepted(pieces.len(), head)
            }
        }
    }

    fn reclaim(&self, head: Head, words: &mut Words, answer: &mut [u32]) -> Outcome {
        match lent_device(head, words).and_then(|d| d.reclaim(answer.len())) {
            Err(refusal) => refused(refusal, head),
            Ok((device, sources)) => {
                answer[..sources.len()].copy_from_slice(&sources);
                accepted(sources.len(), put(&device, words))
            }
        }
    }

    fn report(&self, head: Head, words: &Words) -> Counts {
        match lent_device(head, words).map(|d| d.report()) {
            Err(refusal) => Counts { refusal: refusal.number(), free: 0, live: 0, stale: 0, head },
            Ok(s) => Counts { refusal: 0, free: s.free, live: s.live, stale: s.stale, head },
        }
    }
}
