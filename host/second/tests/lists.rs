//! The request lists of tests/requests, whose expected output is written by hand
//! from the papers, answered by the second implementation.

use std::fs;
use std::path::{Path, PathBuf};

use second::requests::{parse, run, to_reach, Replay};
use second::{generate, Head, Layer, Second, Words};

fn lists() -> Vec<PathBuf> {
    let folder = Path::new(env!("CARGO_MANIFEST_DIR")).join("../../tests/requests");
    let entries = fs::read_dir(folder).expect("the folder of request lists");
    let mut lists: Vec<PathBuf> = entries
        .map(|entry| entry.expect("an entry of the folder").path())
        .filter(|path| path.extension() == Some("txt".as_ref()))
        .collect();
    lists.sort();
    lists
}

#[test]
fn every_list_answers_as_expected() {
    let lists = lists();
    assert!(lists.len() >= 33, "only {} lists", lists.len());
    for path in lists {
        let list = fs::read(&path).expect("a list");
        let expected = fs::read_to_string(path.with_extension("expected")).expect("its expected output");
        let answers = run(Second, &list);
        for (k, (answer, expected)) in answers.iter().zip(expected.lines()).enumerate() {
            assert_eq!(answer, expected, "{}: line {} of the output", path.display(), k + 1);
        }
        assert_eq!(answers.len(), expected.lines().count(), "{}: lines of output", path.display());
    }
}

/// A request prints as a line that asks for the same.
#[test]
fn requests_print_as_they_are_read() {
    for path in lists() {
        let list = fs::read(&path).expect("a list");
        for request in list.split(|&byte| byte == b'\n').filter_map(|line| parse(line).ok()) {
            assert_eq!(parse(request.to_string().as_bytes()), Ok(request));
        }
    }
}

/// The requests that lead to a state are taken one and all, and lead to it.
#[test]
fn a_state_is_reached_from_nothing() {
    let mut states: Vec<(Head, Words)> = [1, 5, 30, 64]
        .into_iter()
        .flat_map(|extents| {
            [generate::scattered(16, 16, 224, 64, extents), generate::uneven(16, 16, 224, 64, extents)]
        })
        .collect();
    for (head, words) in &states {
        assert_eq!(Second.report(*head, words).refusal, 0);
    }
    let (mut head, mut words) = states[0].clone();
    head.last = u64::MAX;
    head.reserve = 77;
    words.extents[5] = 9;
    words.spare.fill(0);
    states.push((head, words));
    for (head, words) in states {
        let mut replay = Replay::new(Second);
        for request in to_reach(head, &words) {
            assert_eq!(replay.answer(request), Ok(vec![String::from("ok")]), "{request}");
        }
        assert_eq!(replay.lent(), (head, &words));
    }
}
