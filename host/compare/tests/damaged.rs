//! The library on damaged states: single words, fields of the head and lengths.

use compare::checks::damaged;
use compare::Lent;
use second::shrink::Tried;
use second::Block;

#[test]
fn every_word_and_field_of_small_states() -> Tried {
    let calls = damaged::every_word_and_field_of_small_states(Lent)?;
    assert!(calls > 100_000, "only {calls} calls");
    Ok(())
}

#[test]
fn every_word_of_long_slots() -> Tried {
    let calls = damaged::every_word_of_long_slots(Lent)?;
    // Six values of each word in 19 states, and five calls for each.
    let words = 3 * 40 + Block::WORDS * 6 + 6 * 20;
    assert_eq!(calls, 6 * 19 * 5 * words as u64);
    Ok(())
}

#[test]
fn every_length_one_off() -> Tried {
    damaged::every_length_one_off(Lent)
}

#[test]
fn fresh_with_every_length_one_off() -> Tried {
    damaged::fresh_with_every_length_one_off(Lent)
}

#[test]
fn words_of_large_states() -> Tried {
    damaged::words_of_large_states(Lent)
}

#[test]
fn boundaries_of_largest_states() -> Tried {
    let words = damaged::boundaries_of_largest_states(Lent)?;
    // Two slots and four, four labels and six, three records and five.
    assert_eq!(words, 3 * 6 + 10 + 8 * Block::WORDS, "words tried");
    Ok(())
}

#[test]
fn words_of_every_block() -> Tried {
    let words = damaged::words_of_every_block(Lent)?;
    // Labels, fills and valid counts.
    assert_eq!(words, 4087 + 1024 + 1024, "words refused 2");
    Ok(())
}
