//! The states that `generate` makes for measuring a layer.

use second::random::Random;
use second::{generate, Block, Extent, Head, Layer, Second, Words};

/// A state of each kind.
fn states(random: &mut Random, sizes: [u32; 4], extents: u32) -> [(Head, Words); 3] {
    let [blocks, pages, logical, slots] = sizes;
    [
        generate::scattered(blocks, pages, logical, slots, extents),
        generate::shuffled(random, blocks, pages, logical, slots, extents),
        generate::irregular(random, blocks, pages, logical, slots, extents),
    ]
}

fn extents(head: Head, words: &Words) -> Vec<Extent> {
    let slots = words.extents.chunks_exact(3).take(head.used as usize);
    slots.map(|slot| Extent { logical: slot[0], physical: slot[1], count: slot[2] }).collect()
}

/// Whether a state is sound, with the last two blocks empty and one of them the reserve;
/// its stale pages.
fn stale(head: Head, words: &Words) -> u32 {
    let counts = Second.report(head, words);
    assert_eq!(counts.refusal, 0, "{head:?}");
    assert_eq!(head.reserve, head.blocks - 1);
    assert_eq!(words.block(head.blocks - 2), Block { fill: 0, valid: 0 });
    counts.stale
}

#[test]
fn states_of_all_sizes_are_sound() {
    let mut random = Random::new(61);
    for _ in 0..3000 {
        let (blocks, pages) = (random.between(3, 9), random.between(1, 24));
        let most = (blocks - 2) * pages;
        let logical = random.between((most + 1) / 2, most);
        let wanted = random.between(1, logical);
        let [equal, shuffled, irregular] = states(&mut random, [blocks, pages, logical, wanted], wanted);
        assert_eq!(stale(equal.0, &equal.1) > 0, pages > 1);
        assert_eq!(stale(shuffled.0, &shuffled.1), stale(equal.0, &equal.1));
        stale(irregular.0, &irregular.1);
        assert!((1..=wanted).contains(&equal.0.used));
        assert_eq!(shuffled.0.used, equal.0.used);
        assert!((1..=wanted).contains(&irregular.0.used));
    }
}

/// Where there is room, a state has as many extents as were asked for. What is left to
/// chance comes out in all ways.
#[test]
fn kinds_differ_in_order_and_lengths() {
    let wanted = 1000;
    let mut random = Random::new(62);
    let states = states(&mut random, [64, 128, 62 * 128, 1000], wanted);
    let [equal, shuffled, irregular] = states.map(|(head, words)| {
        assert!(stale(head, &words) > 0);
        extents(head, &words)
    });
    for extents in [&equal, &shuffled, &irregular] {
        assert_eq!(extents.len(), wanted as usize);
    }
    let rising = |extents: &[Extent]| extents.windows(2).filter(|e| e[0].physical < e[1].physical).count();
    assert_eq!(rising(&equal), 0);
    assert!((400..600).contains(&rising(&shuffled)) && (400..600).contains(&rising(&irregular)));
    let pages_and_lengths = |extents: &[Extent]| {
        let mut runs: Vec<(u32, u32)> = extents.iter().map(|e| (e.physical, e.count)).collect();
        runs.sort_unstable();
        runs
    };
    assert_eq!(pages_and_lengths(&shuffled), pages_and_lengths(&equal));
    assert!(equal.iter().all(|e| e.count == 3));
    (1..=5).for_each(|count| assert!(irregular.iter().filter(|e| e.count == count).count() > 100));
}

/// A write to a nearly full device takes the few pages of one block after the other: no
/// block has room for more.
#[test]
fn a_write_falls_into_pieces() {
    for extents in [16, 512, 1900] {
        let (head, mut words) = generate::nearly_full(66, 64, 64 * 64, 1900, extents, 4);
        assert_eq!(Second.report(head, &words).refusal, 0);
        assert_eq!((head.used, head.reserve), (extents, 65));
        assert!((0..65).all(|block| words.block(block).fill == 60));
        let mut answer = vec![0; 3 * 64];
        let done = Second.write(head, &mut words, 1, 100, 48, &mut answer);
        assert_eq!((done.refusal, done.count), (0, 12), "{extents} extents");
    }
}
