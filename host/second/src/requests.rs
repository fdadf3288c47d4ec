//! The request list: its lines, and a program that answers them over any
//! [`Layer`]. docs/REPLAY.md describes the form for those who write lists.

use std::fmt;

use crate::device::Device;
use crate::{Head, Layer, Outcome, Refusal, Words};

/// The most of B x N that is held: that of the largest device.
pub const MOST_PAGES: u32 = 262_144;
/// The most of M that is held, likewise.
pub const MOST_SLOTS: u32 = 8192;
/// As much room as any answer needs: a read of all slots with a hole before
/// each and after the last.
pub const MOST_ROOM: u32 = 3 * (2 * MOST_SLOTS + 1);

/// Whether a device of these sizes is held.
pub fn holds(blocks: u32, pages: u32, slots: u32) -> bool {
    u64::from(blocks) * u64::from(pages) <= u64::from(MOST_PAGES) && slots <= MOST_SLOTS
}

/// A line of a request list.
#[derive(Clone, Copy, Debug, PartialEq, Eq)]
pub enum Request {
    Fresh { blocks: u32, pages: u32, logical: u32, slots: u32 },
    Write { number: u64, start: u32, count: u32 },
    Trim { number: u64, start: u32, count: u32 },
    Read { start: u32, count: u32 },
    Reclaim,
    Report,
    Room { words: u32 },
    Poke { buffer: Buffer, index: u32, value: u32 },
    Head { field: Field, value: u64 },
    State,
}

/// A lent buffer that `poke` names.
#[derive(Clone, Copy, Debug, PartialEq, Eq)]
pub enum Buffer {
    Extents,
    Blocks,
    Spare,
}

/// A field of the head that `head` names.
#[derive(Clone, Copy, Debug, PartialEq, Eq)]
pub enum Field {
    Blocks,
    Pages,
    Logical,
    Slots,
    Used,
    Reserve,
    Last,
}

/// What is wrong with a line. Words are counted from 1.
#[derive(Clone, Copy, Debug, PartialEq, Eq)]
pub enum Wrong {
    Spaces,
    UnknownRequest,
    MissingWord,
    ExtraWord,
    NoBuffer,
    NoField,
    NotANumber { word: usize },
    TooLarge { word: usize },
    IndexOutside,
    SizesBeyond,
}

impl fmt::Display for Wrong {
    fn fmt(&self, f: &mut fmt::Formatter<'_>) -> fmt::Result {
        match self {
            Wrong::Spaces => write!(f, "words not separated by single spaces"),
            Wrong::UnknownRequest => write!(f, "unknown request"),
            Wrong::MissingWord => write!(f, "missing word"),
            Wrong::ExtraWord => write!(f, "extra word"),
            Wrong::NoBuffer => write!(f, "word 2 is not extents, blocks or spare"),
            Wrong::NoField => write!(f, "word 2 is not a field of the head"),
            Wrong::NotANumber { word } => write!(f, "word {word} is not a number"),
            Wrong::TooLarge { word } => write!(f, "word {word} is too large"),
            Wrong::IndexOutside => write!(f, "index outside"),
            Wrong::SizesBeyond => write!(f, "sizes beyond what this program holds"),
        }
    }
}

/// A request as the line that asks for it.
impl fmt::Display for Request {
    fn fmt(&self, f: &mut fmt::Formatter<'_>) -> fmt::Result {
        match self {
            Request::Fresh { blocks, pages, logical, slots } => {
                write!(f, "fresh {blocks} {pages} {logical} {slots}")
            }
            Request::Write { number, start, count } => write!(f, "write {number} {start} {count}"),
            Request::Trim { number, start, count } => write!(f, "trim {number} {start} {count}"),
            Request::Read { start, count } => write!(f, "read {start} {count}"),
            Request::Reclaim => write!(f, "reclaim"),
            Request::Report => write!(f, "report"),
            Request::Room { words } => write!(f, "room {words}"),
            Request::Poke { buffer, index, value } => write!(f, "poke {} {index} {value}", buffer.name()),
            Request::Head { field, value } => write!(f, "head {} {value}", field.name()),
            Request::State => write!(f, "state"),
        }
    }
}

impl Buffer {
    pub const ALL: [Buffer; 3] = [Buffer::Extents, Buffer::Blocks, Buffer::Spare];

    fn name(self) -> &'static str {
        match self {
            Buffer::Extents => "extents",
            Buffer::Blocks => "blocks",
            Buffer::Spare => "spare",
        }
    }

    fn named(word: &[u8]) -> Result<Buffer, Wrong> {
        let named = Buffer::ALL.into_iter().find(|buffer| buffer.name().as_bytes() == word);
        named.ok_or(Wrong::NoBuffer)
    }

    /// The buffer among the lent words.
    pub fn of(self, words: &mut Words) -> &mut Vec<u32> {
        match self {
            Buffer::Extents => &mut words.extents,
            Buffer::Blocks => &mut words.blocks,
            Buffer::Spare => &mut words.spare,
        }
    }

    /// The words of the buffer.
    pub fn words_of(self, words: &Words) -> &[u32] {
        match self {
            Buffer::Extents => &words.extents,
            Buffer::Blocks => &words.blocks,
            Buffer::Spare => &words.spare,
        }
    }
}

impl Field {
    pub const ALL: [Field; 7] =
        [Field::Blocks, Field::Pages, Field::Logical, Field::Slots, Field::Used, Field::Reserve, Field::Last];

    fn name(self) -> &'static str {
        match self {
            Field::Blocks => "blocks",
            Field::Pages => "pages",
            Field::Logical => "logical",
            Field::Slots => "slots",
            Field::Used => "used",
            Field::Reserve => "reserve",
            Field::Last => "last",
        }
    }

    fn named(word: &[u8]) -> Result<Field, Wrong> {
        let named = Field::ALL.into_iter().find(|field| field.name().as_bytes() == word);
        named.ok_or(Wrong::NoField)
    }

    /// The largest value the field holds.
    fn most(self) -> u64 {
        match self {
            Field::Last => u64::MAX,
            _ => u64::from(u32::MAX),
        }
    }

    pub fn of(self, head: Head) -> u64 {
        match self {
            Field::Blocks => u64::from(head.blocks),
            Field::Pages => u64::from(head.pages),
            Field::Logical => u64::from(head.logical),
            Field::Slots => u64::from(head.slots),
            Field::Used => u64::from(head.used),
            Field::Reserve => u64::from(head.reserve),
            Field::Last => head.last,
        }
    }

    /// Sets the field; the value must not be above its most.
    pub fn set(self, head: &mut Head, value: u64) {
        match self {
            Field::Blocks => head.blocks = value as u32,
            Field::Pages => head.pages = value as u32,
            Field::Logical => head.logical = value as u32,
            Field::Slots => head.slots = value as u32,
            Field::Used => head.used = value as u32,
            Field::Reserve => head.reserve = value as u32,
            Field::Last => head.last = value,
        }
    }
}

/// The decimal number that a word is, at most `most`. `word` counts from 1.
fn number_in(words: &[&[u8]], word: usize, most: u64) -> Result<u64, Wrong> {
    let digits = words[word - 1];
    if !digits.iter().all(u8::is_ascii_digit) {
        return Err(Wrong::NotANumber { word });
    }
    let mut number = 0_u64;
    for digit in digits {
        let next = number.checked_mul(10).and_then(|n| n.checked_add(u64::from(digit - b'0')));
        number = next.filter(|&n| n <= most).ok_or(Wrong::TooLarge { word })?;
    }
    Ok(number)
}

fn short_number(words: &[&[u8]], word: usize) -> Result<u32, Wrong> {
    number_in(words, word, u64::from(u32::MAX)).map(|number| number as u32)
}

fn long_number(words: &[&[u8]], word: usize) -> Result<u64, Wrong> {
    number_in(words, word, u64::MAX)
}

/// How many words a request of this first word has.
fn length(first: &[u8]) -> Result<usize, Wrong> {
    match first {
        b"reclaim" | b"report" | b"state" => Ok(1),
        b"room" => Ok(2),
        b"read" | b"head" => Ok(3),
        b"write" | b"trim" | b"poke" => Ok(4),
        b"fresh" => Ok(5),
        _ => Err(Wrong::UnknownRequest),
    }
}

/// The words of a line, as many as its request has.
fn words_of(line: &[u8]) -> Result<Vec<&[u8]>, Wrong> {
    let words: Vec<&[u8]> = line.split(|&byte| byte == b' ').collect();
    if words.iter().any(|word| word.is_empty()) {
        return Err(Wrong::Spaces);
    }
    let length = length(words[0])?;
    if words.len() < length {
        return Err(Wrong::MissingWord);
    }
    if words.len() > length {
        return Err(Wrong::ExtraWord);
    }
    Ok(words)
}

/// The request of a line that is neither empty nor begins with #.
pub fn parse(line: &[u8]) -> Result<Request, Wrong> {
    let words = words_of(line)?;
    let short = |word| short_number(&words, word);
    let long = |word| long_number(&words, word);
    Ok(match words[0] {
        b"fresh" => {
            Request::Fresh { blocks: short(2)?, pages: short(3)?, logical: short(4)?, slots: short(5)? }
        }
        b"write" => Request::Write { number: long(2)?, start: short(3)?, count: short(4)? },
        b"trim" => Request::Trim { number: long(2)?, start: short(3)?, count: short(4)? },
        b"read" => Request::Read { start: short(2)?, count: short(3)? },
        b"reclaim" => Request::Reclaim,
        b"report" => Request::Report,
        b"room" => Request::Room { words: short(2)? },
        b"poke" => Request::Poke { buffer: Buffer::named(words[1])?, index: short(3)?, value: short(4)? },
        b"head" => {
            let field = Field::named(words[1])?;
            Request::Head { field, value: number_in(&words, 3, field.most())? }
        }
        _ => Request::State,
    })
}

/// A layer with what is lent to it, answering one request after the other.
#[derive(Clone, Debug)]
pub struct Replay<L> {
    layer: L,
    head: Head,
    words: Words,
    room: u32,
}

impl<L: Layer> Replay<L> {
    /// Before the first accepted fresh nothing is lent, so every call is
    /// refused 1.
    pub fn new(layer: L) -> Replay<L> {
        Replay { layer, head: Head::default(), words: Words::default(), room: MOST_ROOM }
    }

    /// The lines that answer a request: four for `state`, one for all others.
    pub fn answer(&mut self, request: Request) -> Result<Vec<String>, Wrong> {
        let line = match request {
            Request::Fresh { blocks, pages, logical, slots } => self.fresh(blocks, pages, logical, slots)?,
            Request::Write { number, start, count } => self.write(number, start, count),
            Request::Trim { number, start, count } => self.trim(number, start, count),
            Request::Read { start, count } => self.read(start, count),
            Request::Reclaim => self.reclaim(),
            Request::Report => self.report(),
            Request::Room { words } => self.room(words),
            Request::Poke { buffer, index, value } => self.poke(buffer, index, value)?,
            Request::Head { field, value } => self.set(field, value),
            Request::State => return Ok(self.state()),
        };
        Ok(vec![line])
    }

    /// What is lent now.
    pub fn lent(&self) -> (Head, &Words) {
        (self.head, &self.words)
    }

    /// Sizes that are not held are no request; held ones go to the layer with
    /// buffers of the lengths they ask for. Only N = 0, which is refused whatever
    /// the lengths, leaves B without a bound: then no more blocks are lent than
    /// are held.
    fn fresh(&mut self, blocks: u32, pages: u32, logical: u32, slots: u32) -> Result<String, Wrong> {
        if !holds(blocks, pages, slots) {
            return Err(Wrong::SizesBeyond);
        }
        let mut words = Words::of_sizes(blocks.min(MOST_PAGES), pages, slots);
        let outcome = self.layer.fresh(blocks, pages, logical, slots, &mut words);
        if outcome.refusal != 0 {
            return Ok(refused(outcome.refusal));
        }
        self.words = words;
        self.head = outcome.head;
        Ok(ok(&[]))
    }

    fn write(&mut self, number: u64, start: u32, count: u32) -> String {
        let mut buffer = self.buffer();
        let outcome = self.layer.write(self.head, &mut self.words, number, start, count, &mut buffer);
        self.head = outcome.head;
        pieces(outcome, &buffer)
    }

    fn trim(&mut self, number: u64, start: u32, count: u32) -> String {
        let outcome = self.layer.trim(self.head, &mut self.words, number, start, count);
        self.head = outcome.head;
        if outcome.refusal != 0 {
            return refused(outcome.refusal);
        }
        ok(&[])
    }

    fn read(&mut self, start: u32, count: u32) -> String {
        let mut buffer = self.buffer();
        let outcome = self.layer.read(self.head, &self.words, start, count, &mut buffer);
        self.head = outcome.head;
        pieces(outcome, &buffer)
    }

    fn reclaim(&mut self) -> String {
        let mut buffer = self.buffer();
        let outcome = self.layer.reclaim(self.head, &mut self.words, &mut buffer);
        self.head = outcome.head;
        if outcome.refusal != 0 {
            return refused(outcome.refusal);
        }
        let sources = given(&buffer, outcome.count as usize);
        format!("{} erase {}", ok(&[&[outcome.count], sources]), outcome.head.reserve)
    }

    fn report(&mut self) -> String {
        let counts = self.layer.report(self.head, &self.words);
        self.head = counts.head;
        if counts.refusal != 0 {
            return refused(counts.refusal);
        }
        ok(&[&[counts.free, counts.live, counts.stale]])
    }

    fn room(&mut self, words: u32) -> String {
        self.room = words;
        ok(&[])
    }

    fn set(&mut self, field: Field, value: u64) -> String {
        field.set(&mut self.head, value);
        ok(&[])
    }

    fn poke(&mut self, buffer: Buffer, index: u32, value: u32) -> Result<String, Wrong> {
        let word = buffer.of(&mut self.words).get_mut(index as usize).ok_or(Wrong::IndexOutside)?;
        *word = value;
        Ok(ok(&[]))
    }

    fn state(&self) -> Vec<String> {
        let head = self.head;
        let sizes = [head.blocks, head.pages, head.logical, head.slots, head.used, head.reserve];
        vec![
            format!("{} {}", line("head", &[&sizes]), head.last),
            line("extents", &[&self.words.extents]),
            line("blocks", &[&self.words.blocks]),
            line("spare", &[&self.words.spare]),
        ]
    }

    /// The answer buffer. More room than any answer needs is as good as just
    /// that much.
    fn buffer(&self) -> Vec<u32> {
        vec![0; self.room.min(MOST_ROOM) as usize]
    }
}

fn line(first: &str, numbers: &[&[u32]]) -> String {
    let mut line = String::from(first);
    for number in numbers.concat() {
        line.push(' ');
        line.push_str(&number.to_string());
    }
    line
}

fn ok(numbers: &[&[u32]]) -> String {
    line("ok", numbers)
}

fn refused(number: u32) -> String {
    let name = Refusal::of_number(number).map_or("Unknown", Refusal::name);
    format!("refused {number} {name}")
}

fn pieces(outcome: Outcome, buffer: &[u32]) -> String {
    if outcome.refusal != 0 {
        return refused(outcome.refusal);
    }
    ok(&[&[outcome.count], given(buffer, 3 * outcome.count as usize)])
}

/// The words of an answer. A layer may claim more than there is room for.
fn given(buffer: &[u32], words: usize) -> &[u32] {
    &buffer[..words.min(buffer.len())]
}

/// The requests that lead from nothing to what is lent: a fresh, and what is otherwise
/// after it. The sizes must be those of document 01 and the lengths those that they
/// ask for.
pub fn to_reach(head: Head, words: &Words) -> Vec<Request> {
    let Head { blocks, pages, logical, slots, .. } = head;
    let (fresh, fresh_words) = crate::words_of(&Device::fresh(blocks, pages, logical, slots));
    let mut requests = vec![Request::Fresh { blocks, pages, logical, slots }];
    for buffer in Buffer::ALL {
        let pairs = buffer.words_of(words).iter().zip(buffer.words_of(&fresh_words));
        let others = (0..).zip(pairs).filter(|(_, (value, fresh))| value != fresh);
        requests.extend(others.map(|(index, (&value, _))| Request::Poke { buffer, index, value }));
    }
    let others = Field::ALL.into_iter().filter(|field| field.of(head) != field.of(fresh));
    requests.extend(others.map(|field| Request::Head { field, value: field.of(head) }));
    requests
}

/// The lines that answer a request list.
pub fn run<L: Layer>(layer: L, list: &[u8]) -> Vec<String> {
    let mut replay = Replay::new(layer);
    let mut answers = Vec::new();
    for (number, line) in (1..).zip(list.strip_suffix(b"\n").unwrap_or(list).split(|&byte| byte == b'\n')) {
        answers.extend(answer_line(&mut replay, number, line));
    }
    answers
}

fn answer_line<L: Layer>(replay: &mut Replay<L>, number: u64, line: &[u8]) -> Vec<String> {
    if line.is_empty() || line[0] == b'#' {
        return Vec::new();
    }
    let answer = parse(line).and_then(|request| replay.answer(request));
    answer.unwrap_or_else(|wrong| vec![format!("line {number}: {wrong}")])
}
