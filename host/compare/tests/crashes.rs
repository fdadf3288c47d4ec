//! A store on a flash that is cut short at every step: of every request, and of going on after it. What was acknowledged
//! must be there, what was not must have happened as a whole or not at all, a request sent again must be taken once, and
//! the flash must never be asked what would spoil it.

use std::fmt;

use compare::{random, times};
use second::random::Random;
use utasiro::{Block, Board, Failure, Refusal, Saved, Sizes, Store};

/// A page of flash.
#[derive(Clone, Copy, Debug, PartialEq)]
enum Page {
    Erased,
    /// Its erase was cut short: it reads as erased, and must be erased again before it is programmed.
    Weak,
    Holds(u64),
}

/// What a page holds whose programming was cut short.
const TORN: u64 = u64::MAX;

/// How the step at which it stops is left.
#[derive(Clone, Copy, Debug)]
enum Cut {
    Undone,
    HalfDone,
    Done,
}

const CUTS: [Cut; 3] = [Cut::Undone, Cut::HalfDone, Cut::Done];

/// A flash with a place for what is saved, which stops at a step.
#[derive(Clone, Debug)]
struct Chip {
    pages_of_block: u32,
    pages: Vec<Page>,
    saved: Option<Saved>,
    /// The steps until it stops, and how it leaves that one. None does not stop.
    stop: Option<(u32, Cut)>,
    steps: u32,
}

/// The chip has stopped.
#[derive(Debug, PartialEq)]
struct Stopped;

impl Chip {
    fn new(sizes: Sizes) -> Chip {
        // What it holds at first does not matter.
        let pages = vec![Page::Holds(TORN); (sizes.blocks * sizes.pages) as usize];
        Chip { pages_of_block: sizes.pages, pages, saved: None, stop: None, steps: 0 }
    }

    /// The same, to stop after so many steps.
    fn stopping(&self, stop: Option<(u32, Cut)>) -> Chip {
        Chip { stop, steps: 0, ..self.clone() }
    }

    fn block_of(&self, page: u32) -> std::ops::Range<usize> {
        let first = page - page % self.pages_of_block;
        first as usize..(first + self.pages_of_block) as usize
    }

    /// How the next step is left, and what it returns.
    fn step(&mut self) -> (Cut, Result<(), Stopped>) {
        self.steps += 1;
        match self.stop {
            Some((steps, cut)) if self.steps > steps => (cut, Err(Stopped)),
            _ => (Cut::Done, Ok(())),
        }
    }

    /// What is saved is the one or the other, and never a part.
    fn keep(&mut self, state: Option<&Saved>) -> Result<(), Stopped> {
        let (cut, returned) = self.step();
        if !matches!(cut, Cut::Undone) {
            self.saved = state.cloned();
        }
        returned
    }
}

impl Board for Chip {
    type Fault = Stopped;

    fn program(&mut self, page: u32, contents: u64) -> Result<(), Stopped> {
        let (block, at) = (self.block_of(page), page as usize);
        assert!(self.pages[at..block.end].iter().all(|&p| p == Page::Erased), "page {page} is not erased");
        let before = &self.pages[block.start..at];
        assert!(
            before.iter().all(|p| matches!(p, Page::Holds(_))),
            "page {page} comes before an earlier one"
        );
        let (cut, returned) = self.step();
        self.pages[at] = match cut {
            Cut::Undone => Page::Erased,
            Cut::HalfDone => Page::Holds(TORN),
            Cut::Done => Page::Holds(contents),
        };
        returned
    }

    fn copy(&mut self, source: u32, target: u32) -> Result<(), Stopped> {
        match self.pages[source as usize] {
            Page::Holds(contents) => self.program(target, contents),
            erased => panic!("page {source} is copied and holds nothing: {erased:?}"),
        }
    }

    fn erase(&mut self, block: u32) -> Result<(), Stopped> {
        let pages = self.block_of(block * self.pages_of_block);
        let (cut, returned) = self.step();
        for (k, page) in self.pages[pages].iter_mut().enumerate() {
            match cut {
                Cut::Undone => {}
                Cut::HalfDone => *page = if k % 2 == 0 { Page::Weak } else { Page::Holds(TORN) },
                Cut::Done => *page = Page::Erased,
            }
        }
        returned
    }

    fn save(&mut self, state: &Saved) -> Result<(), Stopped> {
        self.keep(Some(state))
    }

    fn forget(&mut self) -> Result<(), Stopped> {
        self.keep(None)
    }

    fn saved(&self) -> Result<Option<Saved>, Stopped> {
        Ok(self.saved.clone())
    }

    fn contents(&self, page: u32) -> Result<Option<u64>, Stopped> {
        match self.pages[page as usize] {
            Page::Holds(contents) => Ok(Some(contents)),
            Page::Erased | Page::Weak => Ok(None),
        }
    }
}

#[derive(Clone, Debug)]
enum Asked {
    Write { number: u64, start: u32, contents: Vec<u64> },
    Trim { number: u64, start: u32, count: u32 },
    Reclaim,
}

type Answer = Result<(), Failure<Stopped>>;

fn ask(store: &mut Store<&mut Chip>, asked: &Asked) -> Answer {
    match asked {
        Asked::Write { number, start, contents } => store.write(*number, *start, contents),
        Asked::Trim { number, start, count } => store.trim(*number, *start, *count),
        Asked::Reclaim => store.reclaim().map(|_| ()),
    }
}

impl fmt::Display for Asked {
    fn fmt(&self, f: &mut fmt::Formatter<'_>) -> fmt::Result {
        match self {
            Asked::Write { number, start, contents } => {
                write!(f, "write {number} {start} {}", contents.len())
            }
            Asked::Trim { number, start, count } => write!(f, "trim {number} {start} {count}"),
            Asked::Reclaim => write!(f, "reclaim"),
        }
    }
}

/// What was asked so far, as a request list, told if the test fails.
struct Told {
    sizes: Sizes,
    asked: Vec<Asked>,
    /// Where the last request, and going on after it, were cut short.
    cuts: Vec<(u32, Cut)>,
}

impl Drop for Told {
    fn drop(&mut self) {
        if std::thread::panicking() {
            let Sizes { blocks, pages, logical, slots } = self.sizes;
            eprintln!("fresh {blocks} {pages} {logical} {slots}");
            self.asked.iter().for_each(|asked| eprintln!("{asked}"));
            eprintln!(
                "# cut short after so many steps of the board, counted from each opening: {:?}",
                self.cuts
            );
        }
    }
}

/// What each logical page is to hold.
type Table = Vec<Option<u64>>;

/// The table after a request.
fn after(mut table: Table, asked: &Asked) -> Table {
    match asked {
        Asked::Write { start, contents, .. } => {
            table[*start as usize..].iter_mut().zip(contents).for_each(|(line, &c)| *line = Some(c));
        }
        Asked::Trim { start, count, .. } => {
            table[*start as usize..][..*count as usize].iter_mut().for_each(|line| *line = None);
        }
        Asked::Reclaim => {}
    }
    table
}

fn refused(refusal: Refusal) -> Answer {
    Err(Failure::Refused(refusal))
}

/// A chip at rest, what its pages are to hold, and a request that is cut short.
struct Trial<'a> {
    chip: &'a Chip,
    before: &'a Table,
    asked: &'a Asked,
}

impl Trial<'_> {
    /// The request cut short at each of its steps, if it is not refused, and going on after each.
    fn cut_everywhere(&self, random: &mut Random, again: u32, told: &mut Told) {
        let mut whole = self.chip.stopping(None);
        let mut store = open(&mut whole);
        let opening = store.board().steps;
        if ask(&mut store, self.asked).is_err() {
            return;
        }
        let steps = whole.steps;
        for step in opening..steps {
            for cut in CUTS {
                let mut chip = self.chip.stopping(Some((step, cut)));
                told.cuts = vec![(step, cut)];
                let stopped = ask(&mut open(&mut chip), self.asked);
                assert_eq!(stopped, Err(Failure::Board(Stopped)));
                self.go_on(&chip, random, again, told);
            }
        }
    }

    /// Goes on from a chip that has stopped; and, so many times again, from one that stopped while going on.
    fn go_on(&self, chip: &Chip, random: &mut Random, again: u32, told: &mut Told) {
        if again > 0 {
            let mut whole = chip.stopping(None);
            open(&mut whole);
            let all = whole.steps;
            // Each step of going on where they are few, some of them where they are many.
            let most = if all <= 12 { all } else { 4 };
            for k in 0..most {
                let step = if most == all { k } else { random.between(0, all - 1) };
                let cut = random.pick(&CUTS);
                told.cuts.push((step, cut));
                let mut stopped = chip.stopping(Some((step, cut)));
                assert!(matches!(Store::open(&mut stopped), Err(Failure::Board(Stopped))));
                self.go_on(&stopped, random, again - 1, told);
                told.cuts.pop();
            }
        }
        let mut chip = chip.stopping(None);
        self.check(open(&mut chip));
    }

    /// Erased from each fill on; as a whole or not at all; sent again, taken once; and it goes on.
    fn check(&self, mut store: Store<&mut Chip>) {
        check_erased(&store);
        let expected = after(self.before.clone(), self.asked);
        let all = expected.len() as u32;
        let last = store.device().head().last;
        let number = match self.asked {
            Asked::Write { number, .. } | Asked::Trim { number, .. } => *number,
            Asked::Reclaim => 0,
        };
        let happened = number > 0 && last == number;
        let table = if happened { &expected } else { self.before };
        assert_eq!(store.read(0, all).as_ref(), Ok(table), "after {:?} was cut short", self.asked);
        if number > 0 {
            let answer = ask(&mut store, self.asked);
            assert_eq!(answer, if happened { refused(Refusal::Applied) } else { Ok(()) });
            assert_eq!(ask(&mut store, self.asked), refused(Refusal::Applied));
        }
        assert_eq!(store.read(0, all).as_ref(), Ok(&expected));
        let next = store.device().head().last + 1;
        store.write_making_room(next, all - 1, &[7]).expect("it goes on");
        assert_eq!(store.read(all - 1, 1), Ok(vec![Some(7)]));
    }
}

fn open(chip: &mut Chip) -> Store<&mut Chip> {
    Store::open(chip).expect("what is durable is a state")
}

fn check_erased(store: &Store<&mut Chip>) {
    let (device, chip) = (store.device(), store.board());
    for block in 0..device.head().blocks {
        let fill = Block::at(device.blocks(), block).expect("a record for each block").fill;
        let pages = &chip.pages[chip.block_of(block * chip.pages_of_block)];
        assert!(
            pages[fill as usize..].iter().all(|&page| page == Page::Erased),
            "block {block} past its fill"
        );
    }
}

/// A request that the store accepts, and one that it may refuse for want of pages or of stale ones.
fn next_request(random: &mut Random, sizes: Sizes, number: u64) -> Asked {
    let count = random.between(1, sizes.pages.min(sizes.logical));
    let start = random.between(0, sizes.logical - count);
    match random.between(0, 5) {
        0 => Asked::Trim { number, start, count },
        1 | 2 => Asked::Reclaim,
        _ => Asked::Write {
            number,
            start,
            contents: (0..u64::from(count)).map(|k| 1000 * number + k).collect(),
        },
    }
}

/// A history of so many requests, each of them cut short at each of its steps before it is let through.
fn history(random: &mut Random, sizes: Sizes, requests: u32, again: u32) -> u32 {
    let mut chip = Chip::new(sizes);
    Store::fresh(&mut chip, sizes).expect("sizes that fit");
    let mut table: Table = vec![None; sizes.logical as usize];
    let mut told = Told { sizes, asked: Vec::new(), cuts: Vec::new() };
    let mut accepted = 0;
    for number in 1..=u64::from(requests) {
        let asked = next_request(random, sizes, number);
        told.asked.push(asked.clone());
        Trial { chip: &chip, before: &table, asked: &asked }.cut_everywhere(random, again, &mut told);
        if ask(&mut open(&mut chip), &asked).is_ok() {
            table = after(table, &asked);
            accepted += 1;
        }
    }
    accepted
}

#[test]
fn tiny_devices_cut_short_twice() {
    let mut random = random(51);
    let mut accepted = 0;
    for (blocks, pages) in [(3, 1), (3, 2), (4, 2), (4, 3), (5, 2)] {
        let logical = (blocks - 2) * pages;
        let sizes = Sizes { blocks, pages, logical, slots: logical };
        accepted += history(&mut random, sizes, times(12), 2);
    }
    assert!(accepted > 20, "only {accepted} requests");
}

#[test]
fn small_devices_cut_short_once() {
    let mut random = random(52);
    for _ in 0..times(6) {
        let (blocks, pages) = (random.between(3, 6), random.between(1, 6));
        let logical = random.between(1, (blocks - 2) * pages);
        history(&mut random, Sizes { blocks, pages, logical, slots: logical }, 25, 1);
    }
}

/// A board made fresh again, cut short at each step: what it held is there as it was, or nothing is saved, or it is fresh.
#[test]
fn fresh_cut_short() {
    let sizes = Sizes { blocks: 4, pages: 3, logical: 6, slots: 6 };
    let mut used = Chip::new(sizes);
    let mut store = Store::fresh(&mut used, sizes).expect("sizes that fit");
    store.write(1, 0, &[10, 11, 12]).expect("it is accepted");
    let old = store.read(0, 6);
    let mut found = [0; 3];
    for step in 0..=5 {
        for cut in CUTS {
            let mut chip = used.stopping(Some((step, cut)));
            assert!(matches!(Store::fresh(&mut chip, sizes), Err(Failure::Board(Stopped))));
            let mut chip = chip.stopping(None);
            match Store::open(&mut chip) {
                Ok(store) if store.read(0, 6) == old => found[0] += 1,
                Ok(store) => {
                    assert_eq!(store.read(0, 6), Ok(vec![None; 6]));
                    found[2] += 1;
                }
                Err(failure) => {
                    assert_eq!(failure, Failure::NothingSaved);
                    found[1] += 1;
                }
            }
            let store = Store::fresh(&mut chip, sizes).expect("sizes that fit");
            assert_eq!(store.read(0, 6), Ok(vec![None; 6]));
        }
    }
    // Only before it is forgotten, and only once all is saved.
    assert_eq!(found, [1, 15, 2]);
}

/// A store whose board has failed does nothing more until it is opened again.
#[test]
fn closed_after_a_failure() {
    let sizes = Sizes { blocks: 3, pages: 2, logical: 2, slots: 2 };
    let mut chip = Chip::new(sizes);
    let mut store = Store::fresh(&mut chip, sizes).expect("sizes that fit");
    store.write(1, 0, &[10, 11]).expect("it is accepted");
    let mut stopping = store.into_board().stopping(Some((1, Cut::Done)));
    let mut store = open(&mut stopping);
    assert_eq!(store.write(2, 0, &[20]), Err(Failure::Board(Stopped)));
    assert_eq!(store.write(2, 0, &[20]), Err(Failure::Closed));
    assert_eq!(store.read(0, 1), Err(Failure::Closed));
    assert_eq!(store.reclaim().map(|_| ()), Err(Failure::Closed));
}
