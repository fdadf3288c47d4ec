//! A request sent twice at every point of a history: nothing changes the second time.

use second::generate;
use second::host::{call, UNTOUCHED};
use second::random::Random;
use second::requests::{Request, MOST_ROOM};
use second::shrink::{shown, Checked, Failure, Tried};
use second::{Head, Layer, Outcome, Refusal, Words};

use crate::{random, times};

/// A device and what was accepted on it.
struct Device<L> {
    layer: L,
    head: Head,
    words: Words,
    room: u32,
    /// The writes and trims that were accepted.
    accepted: Vec<Request>,
}

/// Something is otherwise when a request is sent again.
fn again(request: Request, what: &str) -> Failure {
    let kind = format!("sent again, {what}");
    Failure::new(kind.as_str(), format!("{kind}: {request}")).after(&[request])
}

impl<L: Layer> Device<L> {
    fn new(layer: L) -> Device<L> {
        let (head, words, accepted) = (Head::default(), Words::default(), Vec::new());
        Device { layer, head, words, room: MOST_ROOM, accepted }
    }

    /// Runs a history; after each request, all again.
    fn replay(layer: L, history: &[Request]) -> Checked {
        let mut device = Device::new(layer);
        history.iter().try_for_each(|&request| device.run(request))
    }

    fn run(&mut self, request: Request) -> Checked {
        match request {
            Request::Room { words } => self.room = words,
            Request::Fresh { blocks, pages, logical, slots } => {
                self.words = Words::of_sizes(blocks, pages, slots);
                self.head = self.layer.fresh(blocks, pages, logical, slots, &mut self.words).head;
                self.accepted.clear();
            }
            _ => self.twice(request)?,
        }
        self.all_again()
    }

    /// The outcome of a call and its answer.
    fn send(&mut self, request: Request) -> (Outcome, Vec<u32>) {
        let mut answer = vec![UNTOUCHED; self.room as usize];
        let outcome = call(&self.layer, self.head, &mut self.words, request, &mut answer);
        let outcome = outcome.unwrap_or_else(|| {
            let counts = self.layer.report(self.head, &self.words);
            answer = vec![counts.free, counts.live, counts.stale];
            Outcome { refusal: counts.refusal, count: 0, head: counts.head }
        });
        self.head = outcome.head;
        (outcome, answer)
    }

    /// Sends a request that must change nothing.
    fn send_again(&mut self, request: Request) -> Checked<(Outcome, Vec<u32>)> {
        let before = (self.head, self.words.clone());
        let sent = self.send(request);
        if (self.head, &self.words) != (before.0, &before.1) {
            return Err(again(request, "something changes"));
        }
        Ok(sent)
    }

    /// Sends a request and, but for an accepted reclaim, which has no number, once
    /// more.
    fn twice(&mut self, request: Request) -> Checked {
        let first = self.send(request);
        if first.0.refusal == 0 && matches!(request, Request::Write { .. } | Request::Trim { .. }) {
            self.accepted.push(request);
            return Ok(());
        }
        if first.0.refusal == 0 && request == Request::Reclaim {
            return Ok(());
        }
        // A refusal, a read and a report answer the same again.
        if self.send_again(request)? != first {
            return Err(again(request, "the answer is another"));
        }
        Ok(())
    }

    /// Every accepted write and trim so far is refused 4.
    fn all_again(&mut self) -> Checked {
        for request in self.accepted.clone() {
            let (outcome, answer) = self.send_again(request)?;
            let refused = Outcome { refusal: Refusal::Applied.number(), count: 0, head: self.head };
            if outcome != refused || answer.iter().any(|&word| word != UNTOUCHED) {
                return Err(again(request, "an accepted request is not refused 4"));
            }
        }
        Ok(())
    }
}

/// A random history, of so many calls.
fn history<L: Layer + Clone>(layer: &L, random: &mut Random, calls: u32) -> Tried {
    let mut history = Vec::new();
    let mut device = Device::new(layer.clone());
    let mut requests = vec![generate::sizes(random, 6, 6)];
    for _ in 0..=calls {
        for request in requests {
            history.push(request);
            let done = device.run(request);
            done.map_err(|failure| shown(failure, &history, |list| Device::replay(layer.clone(), list)))?;
        }
        requests = generate::call(random, device.head).to_vec();
    }
    Ok(())
}

pub fn nothing_changes_the_second_time<L: Layer + Clone>(layer: L) -> Tried {
    let mut random = random(21);
    for _ in 0..times(60) {
        history(&layer, &mut random, 60)?;
    }
    Ok(())
}
