//! A host over any layer, with a simulated flash that does as answers list.
//!
//! Checked after every call: a refusal changes nothing lent; an answer overwrites
//! only the words it needs; free + live + stale = (B-1) x N; every logical page
//! reads as its last accepted write or as a hole (demand 2); a write or trim sent
//! again is refused and changes nothing. Demand 3 can be run to its bound.
//! [`history`] does all this with random calls.

use crate::flash::{Fault, Flash};
use crate::generate;
use crate::random::Random;
use crate::requests::{Request, MOST_ROOM};
use crate::shrink::{shown, Checked, Failure, Tried};
use crate::sound::sizes_fit;
use crate::{Counts, Head, Layer, Outcome, Refusal, Words};

/// Stands in an answer buffer where no answer was put.
pub const UNTOUCHED: u32 = 0xA5A5_A5A5;

fn check(holds: bool, what: &str) -> Checked {
    if holds {
        return Ok(());
    }
    Err(Failure::from(what))
}

impl From<Fault> for Failure {
    fn from(fault: Fault) -> Failure {
        let kind = match fault {
            Fault::Outside { .. } => "a page outside the flash",
            Fault::ProgrammedTwice { .. } => "a page programmed twice",
            Fault::OutOfOrder { .. } => "a page programmed before an earlier one",
            Fault::CopyOfErased { .. } => "an erased page copied",
            Fault::ReadOfErased { .. } => "an erased page read",
        };
        Failure::new(kind, fault.to_string())
    }
}

/// Makes a call that has an outcome. A report has none of this form.
pub fn call(
    layer: &dyn Layer,
    head: Head,
    words: &mut Words,
    request: Request,
    answer: &mut [u32],
) -> Option<Outcome> {
    match request {
        Request::Write { number, start, count } => {
            Some(layer.write(head, words, number, start, count, answer))
        }
        Request::Trim { number, start, count } => Some(layer.trim(head, words, number, start, count)),
        Request::Read { start, count } => Some(layer.read(head, words, start, count, answer)),
        Request::Reclaim => Some(layer.reclaim(head, words, answer)),
        _ => None,
    }
}

/// A device, the flash under it, and what a host expects to read.
#[derive(Clone)]
pub struct Host<L> {
    layer: L,
    head: Head,
    words: Words,
    flash: Flash,
    /// The last accepted write of each logical page, or a hole.
    contents: Vec<Option<u64>>,
    /// Contents never programmed before.
    unused_contents: u64,
    /// Words of the answer buffer.
    room: u32,
    /// Whether all is checked, or only that the flash takes what is listed.
    thorough: bool,
    /// How often each refusal was given; 0 counts acceptances.
    given: [u64; 9],
    /// What was asked for since the last request of the history began.
    asked: Vec<Request>,
}

/// An accepted or refused call and its answer's words.
struct Answer {
    outcome: Outcome,
    words: Vec<u32>,
}

impl<L: Layer + Clone> Host<L> {
    /// A fresh device on erased flash; the sizes must be those of document 01.
    pub fn fresh(layer: L, blocks: u32, pages: u32, logical: u32, slots: u32) -> Checked<Host<L>> {
        check(sizes_fit(blocks, pages, logical, slots), "a host has no device of such sizes")?;
        let mut words = Words::of_sizes(blocks, pages, slots);
        words.spare.fill(UNTOUCHED);
        words.extents.fill(UNTOUCHED);
        words.blocks.fill(UNTOUCHED);
        let outcome = layer.fresh(blocks, pages, logical, slots, &mut words);
        check(outcome.refusal == 0, "fresh is refused")?;
        Ok(Host {
            layer,
            head: outcome.head,
            words,
            flash: Flash::erased(blocks, pages),
            contents: vec![None; logical as usize],
            unused_contents: 0,
            room: MOST_ROOM,
            thorough: true,
            given: [0; 9],
            asked: Vec::new(),
        })
    }

    /// Runs a history, a fresh and then calls, and checks all that must hold; if
    /// not thorough, only that the flash takes what is listed.
    pub fn replay(layer: L, history: &[Request], thorough: bool) -> Checked<Host<L>> {
        let (mut host, rest) = match history.split_first() {
            Some((&Request::Fresh { blocks, pages, logical, slots }, rest)) => {
                (Host::fresh(layer, blocks, pages, logical, slots)?, rest)
            }
            _ => return Err(Failure::from("a history begins with fresh")),
        };
        host.thorough = thorough;
        rest.iter().try_for_each(|&request| host.run(request))?;
        host.thorough = true;
        Ok(host)
    }

    /// Runs a history, and checks all that must hold of its last request alone.
    fn replay_to_last(layer: L, history: &[Request]) -> Checked<Host<L>> {
        let before = history.len().saturating_sub(1).max(1).min(history.len());
        let mut host = Host::replay(layer, &history[..before], false)?;
        history[before..].iter().try_for_each(|&request| host.run(request))?;
        Ok(host)
    }

    /// Runs a request of a history and checks what must hold.
    pub fn run(&mut self, request: Request) -> Checked {
        self.asked.clear();
        let done = self.make(request);
        done.map_err(|failure| {
            let made = self.asked.iter().position(|&asked| asked == request);
            failure.after(&self.asked[made.map_or(0, |k| k + 1)..])
        })
    }

    fn make(&mut self, request: Request) -> Checked {
        match request {
            Request::Room { words } => self.set_room(words),
            Request::Write { start, count, .. } => self.write(request, start, count).map(|_| ())?,
            Request::Trim { start, count, .. } => self.trim(request, start, count)?,
            Request::Read { start, count } => self.read(start, count).map(|_| ())?,
            Request::Reclaim => self.reclaim().map(|_| ())?,
            Request::Report => self.report().map(|_| ())?,
            _ => return Err(Failure::from("a request that a host does not make")),
        }
        Ok(())
    }

    fn set_room(&mut self, words: u32) {
        self.asked.push(Request::Room { words });
        self.room = words;
    }

    pub fn head(&self) -> Head {
        self.head
    }

    /// What is lent now.
    pub fn lent(&self) -> (Head, &Words) {
        (self.head, &self.words)
    }

    pub fn given(&self) -> [u64; 9] {
        self.given
    }

    /// Runs one call and checks what holds of every call.
    fn call(&mut self, request: Request) -> Checked<Answer> {
        self.asked.push(request);
        let before = (self.head, self.words.clone());
        let mut buffer = vec![UNTOUCHED; self.room as usize];
        let outcome = call(&self.layer, self.head, &mut self.words, request, &mut buffer)
            .ok_or("a call without an outcome")?;
        *self.given.get_mut(outcome.refusal as usize).ok_or("no refusal has this number")? += 1;
        self.head = outcome.head;
        if outcome.refusal != 0 {
            check(outcome.count == 0, "a refusal has a count")?;
            check((self.head, &self.words) == (before.0, &before.1), "a refusal changed what is lent")?;
        }
        let words = match request {
            Request::Trim { .. } => 0,
            Request::Reclaim => outcome.count as usize,
            _ => 3 * outcome.count as usize,
        };
        check(sizes(self.head) == sizes(before.0), "a call changed the sizes")?;
        check(words <= buffer.len(), "an answer is longer than its buffer")?;
        let rest = &buffer[words..];
        check(rest.iter().all(|&word| word == UNTOUCHED), "words beyond the answer changed")?;
        buffer.truncate(words);
        Ok(Answer { outcome, words: buffer })
    }

    fn report(&mut self) -> Checked<Counts> {
        self.asked.push(Request::Report);
        let counts = self.layer.report(self.head, &self.words);
        check(counts.refusal == 0, "report is refused")?;
        check(counts.head == self.head, "report changed the head")?;
        Ok(counts)
    }

    /// What the logical pages of an accepted call hold.
    fn pages_of(&mut self, start: u32, count: u32) -> Checked<&mut [Option<u64>]> {
        let pages = self.contents.get_mut(start as usize..start as usize + count as usize);
        pages.ok_or_else(|| Failure::from("a range outside is accepted"))
    }

    fn write(&mut self, request: Request, start: u32, count: u32) -> Checked<Outcome> {
        let before = self.head;
        let free = if self.thorough { self.report()?.free } else { 0 };
        let answer = self.call(request)?;
        if self.thorough {
            self.check_write_refusal(answer.outcome, before, free, request)?;
        }
        if answer.outcome.refusal != 0 {
            return Ok(answer.outcome);
        }
        let first = self.unused_contents;
        let contents = |l: u32| first + u64::from(l - start);
        check_pieces(&answer.words, start, count)?;
        let pages = self.pages_of(start, count)?;
        pages.iter_mut().zip(start..).for_each(|(page, l)| *page = Some(contents(l)));
        self.flash.write(&answer.words, contents)?;
        self.unused_contents += u64::from(count);
        self.check_after_change()?;
        self.check_sent_again(request)?;
        Ok(answer.outcome)
    }

    /// Refusals 3, 4 and 5 exactly when the rules say; 6 never with a slot for
    /// every logical page, 7 never with as much room as any answer needs.
    fn check_write_refusal(&self, outcome: Outcome, before: Head, free: u32, request: Request) -> Checked {
        let (number, start, count) = match request {
            Request::Write { number, start, count } => (number, start, count),
            _ => return Ok(()),
        };
        let out_of_range = count == 0
            || u64::from(start) + u64::from(count) > u64::from(before.logical)
            || count > before.pages;
        let first = [
            (out_of_range, Refusal::Range),
            (number <= before.last, Refusal::Applied),
            (count > free, Refusal::NoPages),
        ];
        let expected = first.into_iter().find(|(applies, _)| *applies).map(|(_, refusal)| refusal.number());
        match expected {
            Some(number) => check(outcome.refusal == number, "a write has another refusal"),
            None => {
                let short = outcome.refusal == 7 && self.room < 3 * before.pages;
                let slots = outcome.refusal == 6 && before.slots < before.logical;
                check(outcome.refusal == 0 || short || slots, "a write is refused")
            }
        }
    }

    fn trim(&mut self, request: Request, start: u32, count: u32) -> Checked {
        let answer = self.call(request)?;
        if answer.outcome.refusal != 0 {
            return Ok(());
        }
        self.pages_of(start, count)?.fill(None);
        self.check_after_change()?;
        self.check_sent_again(request)
    }

    fn read(&mut self, start: u32, count: u32) -> Checked<Outcome> {
        let answer = self.call(Request::Read { start, count })?;
        if answer.outcome.refusal == 0 {
            check_pieces(&answer.words, start, count)?;
            let entries = self.flash.read(&answer.words)?;
            check(entries == self.pages_of(start, count)?, "a page reads as something else")?;
        }
        Ok(answer.outcome)
    }

    fn reclaim(&mut self) -> Checked<Outcome> {
        let before = self.head;
        let stale = if self.thorough { Some(self.report()?.stale) } else { None };
        let answer = self.call(Request::Reclaim)?;
        if let Some(stale) = stale {
            self.check_reclaim_refusal(answer.outcome, stale)?;
        }
        if answer.outcome.refusal != 0 {
            return Ok(answer.outcome);
        }
        self.flash.reclaim(&answer.words, before.reserve, self.head.reserve)?;
        check(self.head.used <= before.used, "a reclaim raised the count of extents")?;
        check(self.head.last == before.last, "a reclaim changed the last number")?;
        self.check_after_change()?;
        Ok(answer.outcome)
    }

    /// Refusal 8 exactly when no page is stale; else 7 alone, and never with as much
    /// room as any answer needs.
    fn check_reclaim_refusal(&self, outcome: Outcome, stale: u32) -> Checked {
        let short = outcome.refusal == 7 && self.room < self.head.pages;
        let expected = if stale == 0 { outcome.refusal == 8 } else { outcome.refusal == 0 || short };
        check(expected, "a reclaim has another refusal")
    }

    fn check_after_change(&mut self) -> Checked {
        if !self.thorough {
            return Ok(());
        }
        let asked = self.asked.len();
        let counts = self.report()?;
        let sum = [counts.free, counts.live, counts.stale].into_iter().map(u64::from).sum::<u64>();
        let all = (self.head.blocks - 1) * self.head.pages;
        check(sum == u64::from(all), "free + live + stale is not (B-1) x N")?;
        let live = self.contents.iter().filter(|entry| entry.is_some()).count();
        check(counts.live as usize == live, "live is not the count of pages that hold something")?;
        let room = self.room;
        self.set_room(3 * self.head.logical);
        let all = self.read(0, self.head.logical)?;
        check(all.refusal == 0, "a read of all pages is refused")?;
        // What has passed and changes nothing need not be asked again.
        self.asked.truncate(asked);
        self.room = room;
        Ok(())
    }

    fn check_sent_again(&mut self, request: Request) -> Checked {
        if !self.thorough {
            return Ok(());
        }
        let again = self.call(request)?;
        check(again.outcome.refusal == Refusal::Applied.number(), "a request sent again is not refused 4")
    }

    /// Demand 3: the write of these pages is accepted after at most B-1 reclaims.
    /// Says nothing of a device and a write that demand 3 says nothing of.
    pub fn check_demand_3(mut self, start: u32, count: u32) -> Checked {
        self.asked.clear();
        let held = self.demand_3(start, count);
        held.map_err(|failure| failure.after(&self.asked))
    }

    fn demand_3(&mut self, start: u32, count: u32) -> Checked {
        let head = self.head;
        let slots = head.used + count < head.slots || head.slots >= head.logical;
        let in_range = count <= head.pages && start + count <= head.logical;
        if !slots || !in_range || head.last == u64::MAX {
            return Ok(());
        }
        self.set_room(head.pages);
        // On a large device all pages are read at the end alone.
        self.thorough = head.blocks * head.pages <= 4096;
        let mut reclaims = 0;
        while self.reclaim()?.refusal == 0 {
            reclaims += 1;
            check(reclaims < head.blocks, "more than B-1 reclaims")?;
        }
        check(self.report()?.stale == 0, "reclaim stopped with pages stale")?;
        self.thorough = true;
        self.set_room(3 * head.pages);
        let write = self.write(Request::Write { number: head.last + 1, start, count }, start, count)?;
        check(write.refusal == 0, "the write is refused after reclaiming")
    }
}

fn sizes(head: Head) -> [u32; 4] {
    [head.blocks, head.pages, head.logical, head.slots]
}

/// The triples of an accepted answer are the pages asked for, in order.
fn check_pieces(triples: &[u32], start: u32, count: u32) -> Checked {
    let mut next = u64::from(start);
    for triple in triples.chunks_exact(3) {
        check(u64::from(triple[0]) == next, "a piece does not follow the one before")?;
        next += u64::from(triple[2]);
    }
    check(next == u64::from(start) + u64::from(count), "the pieces are not the pages asked for")
}

/// Runs so many random calls after the history of a host, demand 3 tried about
/// every twentieth, and counts how often each refusal was given, from fresh on.
pub fn history<L: Layer + Clone>(
    layer: L,
    random: &mut Random,
    begun: &[Request],
    calls: u32,
) -> Tried<[u64; 9]> {
    let mut history = begun.to_vec();
    let to_last = |list: &[Request]| Host::replay_to_last(layer.clone(), list);
    let checked = |list: &[Request]| to_last(list).map(|_| ());
    let begins = Host::replay(layer.clone(), begun, false);
    let mut host = begins.map_err(|failure| shown(failure, begun, checked))?;
    for _ in 0..calls {
        let head = host.head();
        for request in generate::call(random, head) {
            history.push(request);
            host.run(request).map_err(|failure| shown(failure, &history, checked))?;
        }
        if random.once_in(20) {
            let count = random.between(1, head.pages.min(head.logical));
            let start = random.between(0, head.logical - count);
            let demand_3 = |list: &[Request]| to_last(list)?.check_demand_3(start, count);
            let held = host.clone().check_demand_3(start, count);
            held.map_err(|failure| shown(failure, &history, demand_3))?;
        }
    }
    Ok(host.given())
}
