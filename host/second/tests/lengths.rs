//! What a request list cannot lend: buffers of any length, and what comes back
//! from a refused fresh.

use second::{Head, Layer, Outcome, Second, Words};

const SIZES: (u32, u32, u32, u32) = (4, 4, 8, 4);

fn lent() -> (Head, Words) {
    let mut words = Words::of_sizes(SIZES.0, SIZES.1, SIZES.3);
    let head = Second.fresh(SIZES.0, SIZES.1, SIZES.2, SIZES.3, &mut words).head;
    let write = Second.write(head, &mut words, 1, 0, 4, &mut [0; 3]);
    assert_eq!(write.refusal, 0);
    (write.head, words)
}

/// Each buffer one word short and one word long.
fn wrong_lengths(words: &Words) -> Vec<Words> {
    let buffers: [fn(&mut Words) -> &mut Vec<u32>; 3] =
        [|words| &mut words.extents, |words| &mut words.blocks, |words| &mut words.spare];
    let mut wrong = Vec::new();
    for buffer in buffers {
        let mut short = words.clone();
        buffer(&mut short).pop();
        let mut long = words.clone();
        buffer(&mut long).push(0);
        wrong.extend([short, long]);
    }
    wrong
}

#[test]
fn a_length_one_off_is_refused_1_by_every_call() {
    let (head, words) = lent();
    for wrong in wrong_lengths(&words) {
        let mut lent = wrong.clone();
        let mut answer = [7; 30];
        let refused = Outcome { refusal: 1, count: 0, head };
        assert_eq!(Second.write(head, &mut lent, 2, 0, 1, &mut answer), refused);
        assert_eq!(Second.trim(head, &mut lent, 2, 0, 1), refused);
        assert_eq!(Second.read(head, &lent, 0, 8, &mut answer), refused);
        assert_eq!(Second.reclaim(head, &mut lent, &mut answer), refused);
        let counts = Second.report(head, &lent);
        assert_eq!((counts.refusal, counts.free, counts.live, counts.stale), (1, 0, 0, 0));
        assert_eq!(counts.head, head);
        assert_eq!((lent, answer), (wrong, [7; 30]));
    }
}

#[test]
fn a_refused_fresh_gives_the_four_sizes_and_zero_elsewhere() {
    let (_, words) = lent();
    let sizes = Head { blocks: 4, pages: 4, logical: 8, slots: 4, ..Head::default() };
    for wrong in wrong_lengths(&words) {
        let mut lent = wrong.clone();
        let fresh = Second.fresh(SIZES.0, SIZES.1, SIZES.2, SIZES.3, &mut lent);
        assert_eq!(fresh, Outcome { refusal: 1, count: 0, head: sizes });
        assert_eq!(lent, wrong);
    }
    let mut lent = words.clone();
    let fresh = Second.fresh(4, 4, u32::MAX, 4, &mut lent);
    assert_eq!(fresh, Outcome { refusal: 1, count: 0, head: Head { logical: u32::MAX, ..sizes } });
    assert_eq!(lent, words);
}

#[test]
fn fresh_takes_no_heed_of_old_contents() {
    let mut words = Words::of_sizes(SIZES.0, SIZES.1, SIZES.3);
    let fresh = Second.fresh(SIZES.0, SIZES.1, SIZES.2, SIZES.3, &mut words);
    let mut old = words.clone();
    for buffer in [&mut old.extents, &mut old.blocks, &mut old.spare] {
        buffer.fill(12345);
    }
    assert_eq!(Second.fresh(SIZES.0, SIZES.1, SIZES.2, SIZES.3, &mut old), fresh);
    assert_eq!(old, words);
}

#[test]
fn an_answer_overwrites_only_the_words_it_needs() {
    let (head, mut words) = lent();
    let mut answer = [7; 8];
    assert_eq!(Second.read(head, &words, 3, 2, &mut answer).count, 2);
    assert_eq!(answer, [3, 3, 1, 4, u32::MAX, 1, 7, 7]);
    let mut answer = [7; 4];
    let write = Second.write(head, &mut words, 2, 0, 1, &mut answer);
    assert_eq!((write.count, answer), (1, [0, 4, 1, 7]));
    let mut answer = [7; 5];
    let reclaim = Second.reclaim(write.head, &mut words, &mut answer);
    assert_eq!((reclaim.count, answer), (3, [1, 2, 3, 7, 7]));
}

/// The largest sizes of document 01, which a request list cannot ask for.
#[test]
fn the_largest_sizes_are_taken_and_no_larger() {
    let mut words = Words::of_sizes(1024, 256, 8192);
    let most = 1022 * 256;
    let fresh = Second.fresh(1024, 256, most, 8192, &mut words);
    assert_eq!((fresh.refusal, fresh.head.reserve), (0, 1023));
    assert_eq!(Second.report(fresh.head, &words).free, 1023 * 256);
    assert_eq!(Second.fresh(1024, 256, most + 1, 8192, &mut words).refusal, 1);
    let mut more_slots = Words::of_sizes(1024, 256, 8193);
    assert_eq!(Second.fresh(1024, 256, most, 8193, &mut more_slots).refusal, 1);
}
