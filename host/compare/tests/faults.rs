//! The checks themselves: a layer with a fault is found by each check that is meant to
//! find it, with a short list that shows the fault when it is replayed.

use compare::checks::records::Readers;
use compare::checks::{damaged, flash, histories, places, twice};
use compare::{Fault, Faulty, Pair};
use second::requests::{parse, run, Request};
use second::shrink::{lines, Shown, Tried};
use second::Second;

/// A check and its name.
type Check = (&'static str, fn(Faulty<Second>) -> Tried);

const HISTORIES: Check = ("histories", |layer| histories::tiny_devices(layer).map(|_| ()));
const FLASH: Check = ("flash", flash::small_devices);
const TWICE: Check = ("twice", twice::nothing_changes_the_second_time);
const DAMAGED: Check =
    ("damaged: small states", |layer| damaged::every_word_and_field_of_small_states(layer).map(|_| ()));
const LENGTHS: Check = ("damaged: lengths", damaged::every_length_one_off);
const BOUNDARIES: Check =
    ("damaged: boundaries", |layer| damaged::boundaries_of_largest_states(layer).map(|_| ()));
const BLOCKS: Check = ("damaged: every block", |layer| damaged::words_of_every_block(layer).map(|_| ()));
const PLACES: Check = ("places", |layer| places::short_maps(layer).map(|_| ()));
const RECORDS: Check = ("records", |layer| readers(layer).small_states().map(|_| ()));
const NUMBERS: Check =
    ("records: numbers", |layer| readers(layer).every_other_number_of_records().map(|_| ()));

fn readers(over_records: Faulty<Second>) -> Readers<Faulty<Second>, Second> {
    Readers { over_records, over_words: Second }
}

/// Each fault, and the checks that are meant to find it.
const FAULTS: &[(Fault, &[Check])] = &[
    (Fault::FreshKeepsTheLastLabel, &[HISTORIES, FLASH]),
    (Fault::WriteTakesANumberTwice, &[HISTORIES, FLASH, TWICE]),
    (Fault::WriteChangesNothing, &[HISTORIES, FLASH]),
    (Fault::WritePlacesInTheHighestBlock, &[HISTORIES]),
    (Fault::WritePlacesInTheReserve, &[HISTORIES, FLASH]),
    (Fault::WritePlacesInTheFullestBlockWithRoom, &[HISTORIES]),
    (Fault::WriteNeverFillsABlock, &[HISTORIES]),
    (Fault::WriteKeepsNothingWhole, &[HISTORIES]),
    (Fault::WriteIsCutFromTheHighestBlock, &[HISTORIES]),
    (Fault::WriteCountsAnExtentLessInTheLastSlot, &[HISTORIES, FLASH, TWICE]),
    (Fault::WriteKeepsTheNumberIn32Bits, &[HISTORIES, FLASH, TWICE]),
    (Fault::WriteRefusedUsesTheNumberUp, &[HISTORIES, FLASH, TWICE]),
    (Fault::WriteRefusedChangesTheAnswer, &[HISTORIES, FLASH, TWICE]),
    (Fault::WriteCountsCoveredExtents, &[HISTORIES, FLASH]),
    (Fault::WriteTakesAWordMore, &[LENGTHS]),
    (Fault::WriteIgnoresTheLastSlotWord, &[BOUNDARIES]),
    (Fault::TrimKeepsAValidCount, &[HISTORIES, FLASH, TWICE]),
    (Fault::TrimLowersAValidCountForAHole, &[HISTORIES, FLASH, TWICE]),
    (Fault::TrimIgnoresTheLastLabelOfABlock, &[BLOCKS]),
    (Fault::TrimAddsIn32Bits, &[HISTORIES, FLASH, TWICE]),
    (Fault::ReadJoinsOverABlock, &[HISTORIES, RECORDS]),
    (Fault::ReadChangesAWordPastTheAnswer, &[HISTORIES, FLASH, RECORDS]),
    (Fault::ReadIsShortAWordLate, &[HISTORIES, FLASH, RECORDS]),
    (Fault::ReadTakesARecordMore, &[DAMAGED, RECORDS, NUMBERS]),
    (Fault::ReadLosesTheSlotInTheMiddle, &[PLACES]),
    (Fault::ReclaimPicksTheHighestOnATie, &[HISTORIES]),
    (Fault::ReclaimListsInLogicalOrder, &[HISTORIES, FLASH]),
    (Fault::ReclaimErasesWithZero, &[HISTORIES, FLASH]),
    (Fault::ReclaimRefusesToCopy, &[HISTORIES, FLASH]),
    (Fault::ReclaimRefusesWithAllSlotsInUse, &[HISTORIES, FLASH]),
    (Fault::ReportIgnoresTheReservesFill, &[DAMAGED]),
    (Fault::ReportIgnoresTheLastLabel, &[BOUNDARIES]),
];

/// The most requests of a list, those that the check asks for included.
const MOST_REQUESTS: usize = 20;

/// The requests of a message, which are those of the failure.
fn printed(shown: &Shown) -> Vec<Request> {
    let message = shown.to_string();
    let list = message.lines().skip(1).filter(|line| !line.starts_with('#'));
    let requests: Vec<Request> = list.map(|line| parse(line.as_bytes()).expect("a request")).collect();
    assert_eq!(requests, shown.list, "{shown}");
    requests
}

/// A replay of the list takes every line, and its answers are other than those of the
/// second implementation, but for a fault that only the answer buffer tells.
fn shows_in_a_replay(layer: &Faulty<Second>, shown: &Shown) {
    let only_in_the_buffer =
        [Fault::WriteRefusedChangesTheAnswer, Fault::ReadChangesAWordPastTheAnswer].contains(&layer.fault);
    let list = lines(&shown.list);
    let answers = run(Second, list.as_bytes());
    assert!(!answers.iter().any(|answer| answer.starts_with("line ")), "{shown}{answers:?}");
    assert_eq!(run(layer.clone(), list.as_bytes()) == answers, only_in_the_buffer, "{shown}");
}

/// The list is short, begins with a fresh and shows the fault from nothing on, unless
/// it says that no list can.
fn shows(layer: &Faulty<Second>, shown: &Shown) {
    let list = printed(shown);
    assert!(list.len() <= MOST_REQUESTS, "{shown}");
    assert!(matches!(list[0], Request::Fresh { .. }), "{shown}");
    if shown.failure.sentence.contains("no list can") {
        return;
    }
    assert!(Pair::new(layer.clone()).replay(&list).is_err(), "{shown}");
    if !shown.to_string().contains("# Sizes beyond") {
        shows_in_a_replay(layer, shown);
    }
}

#[test]
fn every_fault_is_found() {
    for &(fault, checks) in FAULTS {
        for (name, check) in checks {
            let layer = Faulty { layer: Second, fault };
            let shown = check(layer.clone()).err();
            let shown = shown.unwrap_or_else(|| panic!("{fault:?} is not found by {name}"));
            println!("{fault:?} | {name} | {}", shown.list.len());
            shows(&layer, &shown);
        }
    }
}
