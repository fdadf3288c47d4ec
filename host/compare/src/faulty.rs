//! Layers with a fault each, to try the checks themselves: a layer that does as it
//! should, with what goes into a call or comes out of it changed.

use second::{Block, Counts, Head, Layer, Outcome, Refusal, Words, ERASED, HOLE};

/// What is wrong with a layer, by the call that it is in.
#[derive(Clone, Copy, Debug, PartialEq, Eq)]
pub enum Fault {
    FreshKeepsTheLastLabel,
    WriteTakesANumberTwice,
    WriteChangesNothing,
    WritePlacesInTheHighestBlock,
    WritePlacesInTheReserve,
    WritePlacesInTheFullestBlockWithRoom,
    WriteNeverFillsABlock,
    WriteKeepsNothingWhole,
    WriteIsCutFromTheHighestBlock,
    WriteCountsAnExtentLessInTheLastSlot,
    WriteKeepsTheNumberIn32Bits,
    WriteRefusedUsesTheNumberUp,
    WriteRefusedChangesTheAnswer,
    WriteCountsCoveredExtents,
    WriteTakesAWordMore,
    /// On the largest devices only.
    WriteIgnoresTheLastSlotWord,
    TrimKeepsAValidCount,
    TrimLowersAValidCountForAHole,
    /// On the largest devices only, where the block is not full.
    TrimIgnoresTheLastLabelOfABlock,
    TrimAddsIn32Bits,
    ReadJoinsOverABlock,
    ReadChangesAWordPastTheAnswer,
    ReadIsShortAWordLate,
    ReadTakesARecordMore,
    /// In maps of eight extents and more.
    ReadLosesTheSlotInTheMiddle,
    ReclaimPicksTheHighestOnATie,
    ReclaimListsInLogicalOrder,
    ReclaimErasesWithZero,
    ReclaimRefusesToCopy,
    ReclaimRefusesWithAllSlotsInUse,
    ReportIgnoresTheReservesFill,
    /// On the largest devices only.
    ReportIgnoresTheLastLabel,
}

/// A layer with a fault.
#[derive(Clone)]
pub struct Faulty<L> {
    pub layer: L,
    pub fault: Fault,
}

fn fill(words: &Words, block: u32) -> u32 {
    words.block(block).fill
}

fn valid(words: &Words, block: u32) -> u32 {
    words.block(block).valid
}

fn set_valid(words: &mut Words, block: u32, valid: u32) {
    words.put_block(block, Block { valid, ..words.block(block) });
}

/// Sets a word, if it is there.
fn set(words: &mut [u32], index: usize, value: u32) {
    words.iter_mut().skip(index).take(1).for_each(|word| *word = value);
}

/// The words as a fault sees them that does not look at some: these as they should be.
fn unseen(fault: Fault, head: Head, words: &Words) -> Words {
    let mut seen = words.clone();
    if (head.blocks, head.pages, head.slots) != (1024, 256, 8192) {
        return seen;
    }
    let (last_word, last_block) = (3 * head.slots as usize - 1, head.blocks - 1);
    let not_full = |block: &u32| fill(words, *block) < head.pages;
    let last_label = |block: u32| ((block + 1) * head.pages - 1) as usize;
    match fault {
        Fault::WriteIgnoresTheLastSlotWord if head.used < head.slots => set(&mut seen.extents, last_word, 0),
        Fault::ReportIgnoresTheLastLabel => {
            set(&mut seen.spare, last_label(last_block), if not_full(&last_block) { ERASED } else { 0 });
        }
        Fault::TrimIgnoresTheLastLabelOfABlock => {
            let open = (0..head.blocks).filter(not_full);
            open.for_each(|block| set(&mut seen.spare, last_label(block), ERASED));
        }
        _ => {}
    }
    seen
}

/// Two blocks that are exchanged.
struct Exchange {
    pages: u32,
    blocks: [u32; 2],
}

impl Exchange {
    fn block(&self, block: u32) -> u32 {
        match self.blocks {
            [a, b] if block == a => b,
            [a, b] if block == b => a,
            _ => block,
        }
    }

    fn page(&self, page: u32) -> u32 {
        self.block(page / self.pages) * self.pages + page % self.pages
    }

    fn head(&self, head: Head) -> Head {
        Head { reserve: self.block(head.reserve), ..head }
    }

    /// Exchanges the records, the labels, and the pages that extents name.
    fn words(&self, words: &mut Words) {
        let [a, b] = self.blocks;
        let (at_a, at_b) = (words.block(a), words.block(b));
        words.put_block(a, at_b);
        words.put_block(b, at_a);
        let (a, b, pages) = (a as usize, b as usize, self.pages as usize);
        (0..pages).for_each(|k| words.spare.swap(a * pages + k, b * pages + k));
        let in_use = words.extents.chunks_exact_mut(3).filter(|slot| slot[2] > 0);
        in_use.for_each(|slot| slot[1] = self.page(slot[1]));
    }

    /// The pages of an answer: the second of each so many words, or all.
    fn answer(&self, answer: &mut [u32], count: u32, words: usize) {
        for piece in answer.chunks_exact_mut(words).take(count as usize) {
            piece[words / 2] = self.page(piece[words / 2]);
        }
    }
}

impl<L: Layer> Faulty<L> {
    fn sound(&self, head: Head, words: &Words) -> bool {
        self.layer.report(head, words).refusal == 0
    }

    /// The blocks of which something holds, in a sound state.
    fn blocks(&self, head: Head, words: &Words, holds: impl Fn(u32) -> bool) -> Vec<u32> {
        let blocks = if self.sound(head, words) { 0..head.blocks } else { 0..0 };
        blocks.filter(|&block| holds(block)).collect()
    }

    /// The write with what goes into it changed.
    fn write_of(
        &self,
        head: Head,
        words: &mut Words,
        number: u64,
        (start, count): (u32, u32),
        answer: &mut [u32],
        call: impl Fn(Head, &mut Words, &mut [u32]) -> Outcome,
    ) -> Outcome {
        match self.fault {
            Fault::WriteTakesANumberTwice if number == head.last && number > 0 => {
                let outcome = call(Head { last: number - 1, ..head }, words, answer);
                Outcome { head: if outcome.refusal == 0 { outcome.head } else { head }, ..outcome }
            }
            Fault::WriteChangesNothing => {
                let outcome = call(head, &mut words.clone(), answer);
                Outcome { head: Head { last: outcome.head.last, ..head }, ..outcome }
            }
            Fault::WriteCountsCoveredExtents => {
                let tried = call(head, &mut words.clone(), &mut answer.to_vec());
                if tried.refusal == 0 && head.used + tried.count > head.slots {
                    return Outcome { refusal: Refusal::NoNodes.number(), count: 0, head };
                }
                call(head, words, answer)
            }
            Fault::WriteTakesAWordMore if words.extents.len() % 3 == 1 => {
                let more = words.extents.pop();
                let outcome = call(head, words, answer);
                words.extents.extend(more);
                outcome
            }
            Fault::WriteIgnoresTheLastSlotWord => {
                let mut seen = unseen(self.fault, head, words);
                let outcome = call(head, &mut seen, answer);
                *words = if outcome.refusal == 0 { seen } else { std::mem::take(words) };
                outcome
            }
            Fault::WriteKeepsNothingWhole
                if call(head, &mut words.clone(), &mut answer.to_vec()).refusal == 0 =>
            {
                self.write_in_turn(head, words, number, (start, count), answer)
            }
            _ => self.write_elsewhere(head, words, count, answer, call),
        }
    }

    /// The write with its pages in other blocks.
    fn write_elsewhere(
        &self,
        head: Head,
        words: &mut Words,
        count: u32,
        answer: &mut [u32],
        call: impl Fn(Head, &mut Words, &mut [u32]) -> Outcome,
    ) -> Outcome {
        let room = |block: u32| if block == head.reserve { 0 } else { head.pages - fill(words, block) };
        let least = match self.fault {
            Fault::WritePlacesInTheHighestBlock | Fault::WriteIsCutFromTheHighestBlock => 1,
            Fault::WritePlacesInTheReserve => head.pages,
            _ => count.max(1),
        };
        let roomy = self.blocks(head, words, |block| room(block) >= least);
        let instead = match self.fault {
            Fault::WritePlacesInTheHighestBlock => roomy.last().copied(),
            Fault::WriteIsCutFromTheHighestBlock if roomy.iter().all(|&block| room(block) < count) => {
                roomy.last().copied()
            }
            Fault::WritePlacesInTheReserve => roomy.first().map(|_| head.reserve),
            Fault::WritePlacesInTheFullestBlockWithRoom => roomy.iter().copied().min_by_key(|&b| room(b)),
            Fault::WriteNeverFillsABlock => roomy.iter().copied().find(|&block| room(block) > count),
            _ => None,
        };
        let exchange = match (roomy.first(), instead) {
            (Some(&block), Some(instead)) => Exchange { pages: head.pages, blocks: [block, instead] },
            _ => return call(head, words, answer),
        };
        if instead != Some(head.reserve) {
            exchange.words(words);
        }
        let outcome = call(head, words, answer);
        exchange.words(words);
        exchange.answer(answer, outcome.count, 3);
        outcome
    }

    /// The write page by page, so that a piece ends with its block, though another has
    /// room for all.
    fn write_in_turn(
        &self,
        head: Head,
        words: &mut Words,
        number: u64,
        (start, count): (u32, u32),
        answer: &mut [u32],
    ) -> Outcome {
        let (mut after, mut written, mut page) = (head, words.clone(), [0; 3]);
        let mut pieces: Vec<[u32; 3]> = Vec::new();
        for l in start..start + count {
            let one = Head { last: head.last, ..after };
            let outcome = self.layer.write(one, &mut written, number, l, 1, &mut page);
            if outcome.refusal != 0 {
                return Outcome { head, ..outcome };
            }
            after = outcome.head;
            match pieces.last_mut() {
                Some([_, first, count]) if *first / head.pages == page[1] / head.pages => *count += 1,
                _ => pieces.push(page),
            }
        }
        if answer.len() < 3 * pieces.len() {
            return Outcome { refusal: Refusal::OutShort.number(), count: 0, head };
        }
        *words = written;
        answer.iter_mut().zip(pieces.concat()).for_each(|(word, listed)| *word = listed);
        Outcome { refusal: 0, count: pieces.len() as u32, head: after }
    }

    /// The reclaim, of the highest block on a tie if that is the fault.
    fn reclaim_highest(&self, head: Head, words: &mut Words, answer: &mut [u32]) -> Outcome {
        let stale = |block: u32| fill(words, block) - valid(words, block);
        let most =
            |block: u32| stale(block) > 0 && (0..head.blocks).all(|other| stale(other) <= stale(block));
        let tied = self.blocks(head, words, most);
        let exchange = match (tied.first(), tied.last()) {
            (Some(&first), Some(&last)) if self.fault == Fault::ReclaimPicksTheHighestOnATie => {
                Exchange { pages: head.pages, blocks: [first, last] }
            }
            _ => return self.layer.reclaim(head, words, answer),
        };
        exchange.words(words);
        let outcome = self.layer.reclaim(head, words, answer);
        exchange.words(words);
        exchange.answer(answer, outcome.count, 1);
        Outcome { head: exchange.head(outcome.head), ..outcome }
    }
}

/// A read's pieces, joined wherever one goes on where the one before ends.
fn join(answer: &mut [u32], count: u32) -> u32 {
    let mut joined: Vec<[u32; 3]> = Vec::new();
    for piece in answer[..3 * count as usize].chunks_exact(3) {
        match joined.last_mut() {
            Some(last) if last[1] != HOLE && last[1] + last[2] == piece[1] => last[2] += piece[2],
            _ => joined.push([piece[0], piece[1], piece[2]]),
        }
    }
    answer.iter_mut().zip(joined.concat()).for_each(|(word, joined)| *word = joined);
    joined.len() as u32
}

impl<L: Layer> Layer for Faulty<L> {
    fn fresh(&self, blocks: u32, pages: u32, logical: u32, slots: u32, words: &mut Words) -> Outcome {
        let label = words.spare.last().copied();
        let outcome = self.layer.fresh(blocks, pages, logical, slots, words);
        if self.fault == Fault::FreshKeepsTheLastLabel && outcome.refusal == 0 {
            words.spare.pop();
            words.spare.extend(label);
        }
        outcome
    }

    fn write(
        &self,
        head: Head,
        words: &mut Words,
        number: u64,
        start: u32,
        count: u32,
        answer: &mut [u32],
    ) -> Outcome {
        let call = |head: Head, words: &mut Words, answer: &mut [u32]| {
            self.layer.write(head, words, number, start, count, answer)
        };
        let mut outcome = self.write_of(head, words, number, (start, count), answer, call);
        let after = &mut outcome.head;
        match (self.fault, outcome.refusal) {
            (Fault::WriteCountsAnExtentLessInTheLastSlot, 0) if after.used == after.slots => after.used -= 1,
            (Fault::WriteKeepsTheNumberIn32Bits, 0) => after.last &= u64::from(u32::MAX),
            (Fault::WriteRefusedUsesTheNumberUp, 5..=7) => after.last = number,
            (Fault::WriteRefusedChangesTheAnswer, 1..=7) => set(answer, 0, 0),
            _ => {}
        }
        outcome
    }

    fn trim(&self, head: Head, words: &mut Words, number: u64, start: u32, count: u32) -> Outcome {
        let outside = u64::from(start) + u64::from(count) > u64::from(head.logical);
        let wraps = outside && start.wrapping_add(count) <= head.logical;
        if self.fault == Fault::TrimAddsIn32Bits && wraps && number > head.last && self.sound(head, words) {
            return Outcome { refusal: 0, count: 0, head: Head { last: number, ..head } };
        }
        let mut after = unseen(self.fault, head, words);
        let outcome = self.layer.trim(head, &mut after, number, start, count);
        if outcome.refusal != 0 {
            return outcome;
        }
        let before = std::mem::replace(words, after);
        let fell = (0..head.blocks).find(|&block| valid(words, block) < valid(&before, block));
        let live = (0..head.blocks).find(|&block| valid(words, block) > 0);
        match (self.fault, fell, live) {
            (Fault::TrimKeepsAValidCount, Some(block), _) => set_valid(words, block, valid(words, block) + 1),
            (Fault::TrimLowersAValidCountForAHole, None, Some(block)) => {
                set_valid(words, block, valid(words, block) - 1);
            }
            _ => {}
        }
        outcome
    }

    fn read(&self, head: Head, words: &Words, start: u32, count: u32, answer: &mut [u32]) -> Outcome {
        let (mut lent, mut room) = (words.clone(), answer.to_vec());
        match self.fault {
            Fault::ReadTakesARecordMore => lent.extents.truncate(3 * head.slots as usize),
            Fault::ReadIsShortAWordLate => room.push(0),
            _ => {}
        }
        let mut outcome = self.layer.read(head, &lent, start, count, &mut room);
        answer.copy_from_slice(&room[..answer.len()]);
        match (self.fault, outcome.refusal) {
            (Fault::ReadJoinsOverABlock, 0) => outcome.count = join(answer, outcome.count),
            (Fault::ReadChangesAWordPastTheAnswer, 0) => set(answer, 3 * outcome.count as usize, 0),
            (Fault::ReadLosesTheSlotInTheMiddle, 0) if head.used >= 8 => {
                let middle = &words.extents[3 * (head.used as usize / 2)..][..3];
                if (middle[0]..middle[0] + middle[2]).contains(&answer[0]) {
                    set(answer, 1, HOLE);
                }
            }
            _ => {}
        }
        outcome
    }

    fn reclaim(&self, head: Head, words: &mut Words, answer: &mut [u32]) -> Outcome {
        let (before, answer_before) = (words.clone(), answer.to_vec());
        let mut outcome = self.reclaim_highest(head, words, answer);
        let mut refused = None;
        match (self.fault, outcome.refusal) {
            (Fault::ReclaimListsInLogicalOrder, 0) => {
                let label = |&page: &u32| before.spare[page as usize];
                answer[..outcome.count as usize].sort_by_key(label);
            }
            (Fault::ReclaimErasesWithZero, 0) => {
                let erased = outcome.head.reserve * head.pages;
                (erased..erased + head.pages).for_each(|page| set(&mut words.spare, page as usize, 0));
            }
            (Fault::ReclaimRefusesToCopy, 0) if outcome.count > 0 => refused = Some(Refusal::NothingStale),
            (Fault::ReclaimRefusesWithAllSlotsInUse, 0) if head.used == head.slots => {
                refused = Some(Refusal::NoNodes);
            }
            _ => {}
        }
        if let Some(refusal) = refused {
            *words = before;
            answer.copy_from_slice(&answer_before);
            outcome = Outcome { refusal: refusal.number(), count: 0, head };
        }
        outcome
    }

    fn report(&self, head: Head, words: &Words) -> Counts {
        let records = Block::all(&words.blocks).take(head.blocks as usize);
        let empty = (0..).zip(records).find(|(_, record)| record.fill == 0).map(|(block, _)| block);
        let counts = match (self.fault, empty) {
            (Fault::ReportIgnoresTheReservesFill, Some(reserve)) if head.reserve < head.blocks => {
                self.layer.report(Head { reserve, ..head }, words)
            }
            (Fault::ReportIgnoresTheLastLabel, _) => {
                self.layer.report(head, &unseen(self.fault, head, words))
            }
            _ => self.layer.report(head, words),
        };
        Counts { head, ..counts }
    }
}
