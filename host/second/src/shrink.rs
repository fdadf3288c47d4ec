//! Failures, and the shortest request list that shows one, as far as leaving requests
//! out and making their numbers smaller finds it.

use std::fmt;
use std::io;
use std::path::PathBuf;
use std::sync::atomic::{AtomicU32, Ordering};
use std::time::{Duration, Instant};

use crate::requests::{holds, parse, Request};

/// What does not hold.
#[derive(Clone, Debug, PartialEq, Eq)]
pub struct Failure {
    /// What went wrong, without its numbers. Lists with failures of one kind are taken
    /// to show the same fault.
    pub kind: String,
    /// What went wrong, with its numbers.
    pub sentence: String,
    /// What the check itself asked for after the list.
    pub asked: Vec<Request>,
}

/// What was done, or what does not hold.
pub type Checked<T = ()> = Result<T, Failure>;

impl Failure {
    pub fn new(kind: impl Into<String>, sentence: impl Into<String>) -> Failure {
        Failure { kind: kind.into(), sentence: sentence.into(), asked: Vec::new() }
    }

    /// The failure, with what the check asked for after the list.
    pub fn after(self, asked: &[Request]) -> Failure {
        Failure { asked: asked.to_vec(), ..self }
    }
}

/// A sentence without numbers is its own kind.
impl From<&str> for Failure {
    fn from(sentence: &str) -> Failure {
        Failure::new(sentence, sentence)
    }
}

/// A failure with a list that shows it from nothing.
#[derive(Clone)]
pub struct Shown {
    pub failure: Failure,
    pub list: Vec<Request>,
    /// Where the list is, if it is too long for a message.
    kept: Option<String>,
}

/// What was done, or the failure that came.
pub type Tried<T = ()> = Result<T, Shown>;

/// How many lines of a list a message has at most, and how many from the beginning and
/// the end of a longer one.
const MOST_LINES: usize = 200;
const FIRST_LINES: usize = 20;
const LAST_LINES: usize = 5;

/// How long a shorter list is looked for.
const MOST_TIME: Duration = Duration::from_secs(20);

/// The sentence and the list, or its first and last lines and where it is.
impl fmt::Display for Shown {
    fn fmt(&self, f: &mut fmt::Formatter<'_>) -> fmt::Result {
        writeln!(f, "{}; the list that shows it:", self.failure.sentence)?;
        match &self.kept {
            None => write!(f, "{}", lines(&self.list)),
            Some(kept) => {
                write!(f, "{}", lines(&self.list[..FIRST_LINES]))?;
                writeln!(f, "# and so on, {} lines in all: {kept}", self.list.len())?;
                write!(f, "{}", lines(&self.list[self.list.len() - LAST_LINES..]))
            }
        }
    }
}

/// As a test that fails prints it.
impl fmt::Debug for Shown {
    fn fmt(&self, f: &mut fmt::Formatter<'_>) -> fmt::Result {
        write!(f, "{self}")
    }
}

/// A list in the form that the replay programs take.
pub fn lines(list: &[Request]) -> String {
    let beyond = |request: &Request| match *request {
        Request::Fresh { blocks, pages, slots, .. } => !holds(blocks, pages, slots),
        _ => false,
    };
    let note = if list.iter().any(beyond) { "# Sizes beyond what the replay programs hold.\n" } else { "" };
    let lines = list.iter().map(|request| format!("{request}\n"));
    std::iter::once(String::from(note)).chain(lines).collect()
}

/// The shortest list found that shows a failure, from a history that met it.
pub fn shown(failure: Failure, history: &[Request], checked: impl Fn(&[Request]) -> Checked) -> Shown {
    let fails = |list: &[Request]| matches!(checked(list), Err(found) if found.kind == failure.kind);
    let mut list = Search { fails, end: Instant::now() + MOST_TIME }.shortest(history);
    let failure = match checked(&list) {
        Err(found) if found.kind == failure.kind => found,
        _ => failure,
    };
    list.extend_from_slice(&failure.asked);
    // After a call that changes what is lent a replay is to show every word.
    if !matches!(list.last(), Some(Request::Read { .. } | Request::Report) | None) {
        list.push(Request::State);
    }
    let kept = (list.len() > MOST_LINES).then(|| match keep(&list) {
        Ok(path) => path.display().to_string(),
        Err(error) => format!("they cannot be written, {error}"),
    });
    Shown { failure, list, kept }
}

/// Writes a list into a file of its own.
fn keep(list: &[Request]) -> io::Result<PathBuf> {
    static KEPT: AtomicU32 = AtomicU32::new(0);
    let name = format!("utasiro-failure-{}-{}.txt", std::process::id(), KEPT.fetch_add(1, Ordering::Relaxed));
    let path = std::env::temp_dir().join(name);
    std::fs::write(&path, lines(list))?;
    Ok(path)
}

/// The search for a shorter list that fails, up to its end.
struct Search<F> {
    fails: F,
    end: Instant,
}

impl<F: Fn(&[Request]) -> bool> Search<F> {
    /// Leaves out and makes smaller until neither finds anything more.
    fn shortest(&self, list: &[Request]) -> Vec<Request> {
        let mut shortest = self.end_of(list);
        loop {
            let before = shortest.clone();
            shortest = self.smaller(self.shorter(shortest));
            if shortest == before || self.over() {
                return shortest;
            }
        }
    }

    fn over(&self) -> bool {
        Instant::now() >= self.end
    }

    /// The shortest end of a list, after its first fresh, that fails by itself.
    fn end_of(&self, list: &[Request]) -> Vec<Request> {
        let lengths = std::iter::successors(Some(1), |length| Some(2 * length));
        let ends = lengths.take_while(|&length| length < list.len());
        let fails = ends.map(|length| without(list, 0, list.len() - length)).find(|end| (self.fails)(end));
        fails.unwrap_or_else(|| list.to_vec())
    }

    /// Leaves out ever smaller parts.
    fn shorter(&self, mut list: Vec<Request>) -> Vec<Request> {
        let mut part = (list.len() + 1) / 2;
        while part > 0 {
            let before = list.len();
            let mut from = 0;
            while from < list.len() && !self.over() {
                let without = without(&list, from, part);
                if without.len() < list.len() && (self.fails)(&without) {
                    list = without;
                } else {
                    from += part;
                }
            }
            // Single requests are left out until none can be: one may need another gone.
            part = if part == 1 && list.len() < before { 1 } else { part / 2 };
        }
        list
    }

    /// Makes the numbers of each request smaller.
    fn smaller(&self, mut list: Vec<Request>) -> Vec<Request> {
        let mut k = 0;
        while k < list.len() && !self.over() {
            let now = list[k];
            let found = with_smaller_number(now).into_iter().find(|&request| {
                list[k] = request;
                (self.fails)(&list)
            });
            list[k] = found.unwrap_or(now);
            k += usize::from(found.is_none());
        }
        list
    }
}

/// A list without a part of it, but with its first fresh.
fn without(list: &[Request], from: usize, part: usize) -> Vec<Request> {
    let fresh = list.iter().position(|request| matches!(request, Request::Fresh { .. }));
    let stays = |k: &usize| !(from..from + part).contains(k) || Some(*k) == fresh;
    (0..list.len()).filter(stays).map(|k| list[k]).collect()
}

/// The requests that are this one with a single number made smaller.
fn with_smaller_number(request: Request) -> Vec<Request> {
    let line = request.to_string();
    let words: Vec<&str> = line.split(' ').collect();
    let mut requests = Vec::new();
    for (k, number) in words.iter().enumerate().filter_map(|(k, word)| Some((k, word.parse::<u64>().ok()?))) {
        // Zero, a half, three quarters and so on, up to one less.
        let less = std::iter::successors(Some(number), |less| Some(less / 2)).take_while(|&less| less > 0);
        for smaller in less.map(|less| (number - less).to_string()) {
            let mut words = words.clone();
            words[k] = &smaller;
            requests.extend(parse(words.join(" ").as_bytes()));
        }
    }
    requests
}

#[cfg(test)]
mod tests {
    use super::{lines, shown, Checked, Failure};
    use crate::requests::Request;

    fn fresh(blocks: u32, pages: u32) -> Request {
        Request::Fresh { blocks, pages, logical: 1, slots: 1 }
    }

    /// A room above 17 and a reclaim are a fault, and so is a list without a fresh.
    fn checked(list: &[Request]) -> Checked {
        if !list.iter().any(|request| matches!(request, Request::Fresh { .. })) {
            return Err(Failure::from("no fresh"));
        }
        let room = list.iter().any(|request| matches!(request, Request::Room { words: 18.. }));
        if room && list.contains(&Request::Reclaim) {
            return Err(Failure::new("room and reclaim", format!("{} requests", list.len())));
        }
        Ok(())
    }

    #[test]
    fn what_is_not_needed_is_left_out_or_made_smaller() {
        let mut list: Vec<Request> = (0..100).map(|words| Request::Room { words }).collect();
        list.insert(0, fresh(3, 1));
        list.insert(10, Request::Reclaim);
        let shown = shown(checked(&list).expect_err("a failure"), &list, checked);
        assert_eq!(shown.failure, Failure::new("room and reclaim", "3 requests"));
        let message = "3 requests; the list that shows it:\nfresh 0 0 0 0\nreclaim\nroom 18\nstate\n";
        assert_eq!(shown.to_string(), message);
    }

    #[test]
    fn what_the_check_asked_for_comes_last() {
        let checked = |_: &[Request]| Err(Failure::from("never").after(&[Request::Reclaim, Request::Report]));
        let shown = shown(Failure::from("never"), &[fresh(3, 1)], checked);
        assert_eq!(lines(&shown.list), "fresh 0 0 0 0\nreclaim\nreport\n");
    }

    #[test]
    fn a_long_list_is_kept_in_a_file() {
        let mut list = vec![Request::Report; 300];
        list[0] = fresh(3, 1);
        let checked = |list: &[Request]| match list.len() {
            300 => Err(Failure::from("long")),
            _ => Ok(()),
        };
        let shown = shown(Failure::from("long"), &list, checked);
        let message = shown.to_string();
        assert_eq!(message.lines().count(), 1 + 20 + 1 + 5, "{message}");
        let file = message.lines().nth(21).and_then(|line| line.rsplit(' ').next()).expect("a file");
        assert_eq!(std::fs::read_to_string(file).expect("the list"), lines(&shown.list));
        std::fs::remove_file(file).expect("the list is gone");
    }

    #[test]
    fn sizes_that_are_not_held_are_said() {
        assert!(lines(&[fresh(3, 1)]).starts_with("fresh"));
        assert!(lines(&[fresh(u32::MAX, 256)]).starts_with("# "));
    }
}
