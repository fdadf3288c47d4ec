//! A layer and the second implementation, side by side.

use std::fmt::Debug;

use second::generate;
use second::host::{call, UNTOUCHED};
use second::random::Random;
use second::requests::{Buffer, Request, MOST_ROOM};
use second::shrink::{self, Checked, Failure, Shown, Tried};
use second::{Head, Layer, Outcome, Refusal, Second, Words};

use crate::lent::{ONLY_READ_CHANGED, OUTSIDE_CHANGED};

/// The largest sizes of document 01: beyond them no buffer need be longer.
const MOST: (u32, u32, u32) = (1024, 256, 8192);

/// How often each refusal was given; 0 counts acceptances.
pub type Given = [u64; 9];

pub fn add(total: &mut Given, given: Given) {
    total.iter_mut().zip(given).for_each(|(sum, n)| *sum += n);
}

/// A layer, the second implementation, and what is lent to both. What one does otherwise
/// than the other is a failure.
#[derive(Clone)]
pub struct Pair<L> {
    layer: L,
    head: Head,
    /// The words as the layer left them; those of the second implementation are the same.
    words: Words,
    second_words: Words,
    room: u32,
    calls: u64,
    given: Given,
}

impl<L: Layer + Clone> Pair<L> {
    /// Before the first accepted fresh nothing is lent, and there is as much room for
    /// answers as in a replay.
    pub fn new(layer: L) -> Pair<L> {
        let (head, words, second_words) = (Head::default(), Words::default(), Words::default());
        Pair { layer, head, words, second_words, room: MOST_ROOM, calls: 0, given: [0; 9] }
    }

    /// Runs a history.
    pub fn replay(&mut self, history: &[Request]) -> Checked {
        history.iter().try_for_each(|&request| self.run(request).map(|_| ()))
    }

    pub fn head(&self) -> Head {
        self.head
    }

    pub fn words(&self) -> &Words {
        &self.words
    }

    /// How many calls were compared.
    pub fn calls(&self) -> u64 {
        self.calls
    }

    pub fn given(&self) -> Given {
        self.given
    }

    /// Lends a buffer with a word less, or with one more.
    pub fn lend_one_off(&mut self, buffer: Buffer, longer: bool) {
        for words in [&mut self.words, &mut self.second_words] {
            one_off(words, buffer, longer);
        }
    }

    /// Runs a request on both and returns the refusal's number.
    pub fn run(&mut self, request: Request) -> Checked<u32> {
        match request {
            Request::Room { words } => self.room = words,
            Request::Head { field, value } => field.set(&mut self.head, value),
            Request::Poke { buffer, index, value } => self.poke(buffer, index as usize, value)?,
            Request::State => {}
            Request::Report => return self.report(),
            Request::Fresh { blocks, pages, slots, .. } => {
                let words = Words::of_sizes(blocks.min(MOST.0), pages.min(MOST.1), slots.min(MOST.2));
                return self.fresh(request, words);
            }
            _ => return self.call(request),
        }
        Ok(0)
    }

    fn poke(&mut self, buffer: Buffer, index: usize, value: u32) -> Checked {
        for words in [&mut self.words, &mut self.second_words] {
            *buffer.of(words).get_mut(index).ok_or("a poke outside")? = value;
        }
        Ok(())
    }

    /// Makes a fresh device in words of these lengths, with old contents. Refused, what
    /// was lent before stays.
    pub fn fresh(&mut self, request: Request, mut words: Words) -> Checked<u32> {
        let (blocks, pages, logical, slots) = match request {
            Request::Fresh { blocks, pages, logical, slots } => (blocks, pages, logical, slots),
            _ => return Err(Failure::from("no fresh")),
        };
        Buffer::ALL.into_iter().for_each(|buffer| buffer.of(&mut words).fill(UNTOUCHED));
        let mut second_words = words.clone();
        let outcome = self.layer.fresh(blocks, pages, logical, slots, &mut words);
        let expected = Second.fresh(blocks, pages, logical, slots, &mut second_words);
        self.count(outcome.refusal);
        same_outcome(request, &outcome, &expected)?;
        same_words(request, &words, &second_words)?;
        if outcome.refusal == 0 {
            (self.head, self.words, self.second_words) = (outcome.head, words, second_words);
        }
        Ok(outcome.refusal)
    }

    fn report(&mut self) -> Checked<u32> {
        let counts = self.layer.report(self.head, &self.words);
        let expected = Second.report(self.head, &self.second_words);
        self.count(counts.refusal);
        same_refusal(Request::Report, counts.refusal, expected.refusal)?;
        same(Request::Report, "counts", &counts, &expected)?;
        Ok(counts.refusal)
    }

    fn call(&mut self, request: Request) -> Checked<u32> {
        let mut answer = vec![UNTOUCHED; self.room as usize];
        let mut second_answer = answer.clone();
        let outcome = call(&self.layer, self.head, &mut self.words, request, &mut answer);
        let expected = call(&Second, self.head, &mut self.second_words, request, &mut second_answer);
        let (outcome, expected) = outcome.zip(expected).ok_or("a call without an outcome")?;
        self.count(outcome.refusal);
        same_outcome(request, &outcome, &expected)?;
        same_buffer(request, "answer", &answer, &second_answer)?;
        same_words(request, &self.words, &self.second_words)?;
        self.head = outcome.head;
        Ok(outcome.refusal)
    }

    fn count(&mut self, refusal: u32) {
        self.calls += 1;
        if let Some(given) = self.given.get_mut(refusal as usize) {
            *given += 1;
        }
    }
}

/// A buffer with a word less, or with one more.
pub fn one_off(words: &mut Words, buffer: Buffer, longer: bool) {
    let buffer = buffer.of(words);
    if longer {
        buffer.push(0);
    } else {
        buffer.pop();
    }
}

/// The failure of a request, of which this is not as the second implementation has it.
fn differs(request: Request, what: &str, how: &str) -> Failure {
    let line = request.to_string();
    let call = line.split(' ').next().unwrap_or_default();
    Failure::new(format!("{call}: {what}"), format!("{line}: {how}"))
}

fn same<T: PartialEq + Debug>(request: Request, what: &str, given: &T, second: &T) -> Checked {
    if given == second {
        return Ok(());
    }
    Err(differs(request, what, &format!("{what} {given:?}, but the second implementation's is {second:?}")))
}

/// A refusal, or what stands for one, by its name.
fn named(refusal: u32) -> String {
    match refusal {
        0 => String::from("accepted"),
        OUTSIDE_CHANGED => String::from("a word outside the buffers changed"),
        ONLY_READ_CHANGED => String::from("a buffer that is only read changed"),
        number => format!("refused {number} {}", Refusal::of_number(number).map_or("Unknown", Refusal::name)),
    }
}

/// Which refusals they are is part of the kind.
fn same_refusal(request: Request, given: u32, second: u32) -> Checked {
    if given == second {
        return Ok(());
    }
    let how = format!("{}, but the second implementation's is {}", named(given), named(second));
    Err(differs(request, &how, &how))
}

pub fn same_outcome(request: Request, given: &Outcome, second: &Outcome) -> Checked {
    same_refusal(request, given.refusal, second.refusal)?;
    same(request, "count", &given.count, &second.count)?;
    same(request, "head", &given.head, &second.head)
}

pub fn same_buffer(request: Request, what: &str, given: &[u32], second: &[u32]) -> Checked {
    if given == second {
        return Ok(());
    }
    let index = given.iter().zip(second).position(|(word, expected)| word != expected);
    let index = index.unwrap_or(given.len().min(second.len()));
    let word = |buffer: &[u32]| buffer.get(index).map_or(String::from("none"), u32::to_string);
    let (given, second) = (word(given), word(second));
    let how = format!("word {index} of {what} is {given}, but the second implementation's is {second}");
    Err(differs(request, what, &how))
}

fn same_words(request: Request, given: &Words, second: &Words) -> Checked {
    same_buffer(request, "extents", &given.extents, &second.extents)?;
    same_buffer(request, "blocks", &given.blocks, &second.blocks)?;
    same_buffer(request, "spare", &given.spare, &second.spare)
}

/// A pair with the requests that led to it from nothing.
#[derive(Clone)]
pub struct History<L> {
    pub pair: Pair<L>,
    pub requests: Vec<Request>,
}

impl<L: Layer + Clone> History<L> {
    /// Runs the requests that begin a history.
    pub fn of(layer: L, begun: &[Request]) -> Tried<History<L>> {
        let mut history = History { pair: Pair::new(layer), requests: Vec::new() };
        begun.iter().try_for_each(|&request| history.run(request))?;
        Ok(history)
    }

    pub fn run(&mut self, request: Request) -> Tried {
        self.requests.push(request);
        self.pair.run(request).map_err(|failure| self.shown(failure, &[]))?;
        Ok(())
    }

    /// Runs so many random calls.
    pub fn calls(&mut self, random: &mut Random, calls: u32) -> Tried {
        for _ in 0..calls {
            generate::call(random, self.pair.head()).into_iter().try_for_each(|request| self.run(request))?;
        }
        Ok(())
    }

    /// A failure that came with further requests.
    pub fn shown(&self, failure: Failure, further: &[Request]) -> Shown {
        let layer = &self.pair.layer;
        let requests = [&self.requests, further].concat();
        shrink::shown(failure, &requests, |list| Pair::new(layer.clone()).replay(list))
    }
}

/// A fresh device of up to so many blocks and pages, or one that was written in order,
/// and so many sound states along a random history of it.
pub fn states<L: Layer + Clone>(
    layer: &L,
    random: &mut Random,
    most: u32,
    count: u32,
) -> Tried<Vec<History<L>>> {
    let fresh = generate::sizes(random, most, most);
    let begun = if random.once_in(2) { vec![fresh] } else { generate::in_order(fresh) };
    let mut history = History::of(layer.clone(), &begun)?;
    let mut states = vec![history.clone()];
    for _ in 0..count {
        let calls = random.between(1, 15);
        history.calls(random, calls)?;
        states.push(history.clone());
    }
    Ok(states)
}
