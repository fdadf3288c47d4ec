//! Random histories from fresh: every answer and every lent word is compared with that
//! of the second implementation. More than a million calls in all.

use compare::checks::histories;
use compare::{Given, Lent};
use second::shrink::Tried;

/// Every refusal but 1 and 2, which no history from fresh meets.
fn all_given(total: Given, least: u64) {
    for (refusal, &given) in total.iter().enumerate().filter(|(refusal, _)| ![1, 2].contains(refusal)) {
        assert!(given > 0, "refusal {refusal} was never given");
    }
    assert!(total.iter().sum::<u64>() >= least);
}

#[test]
fn tiny_devices() -> Tried {
    all_given(histories::tiny_devices(Lent)?, 300_000);
    Ok(())
}

#[test]
fn small_devices() -> Tried {
    all_given(histories::small_devices(Lent)?, 700_000);
    Ok(())
}

#[test]
fn smallest_device() -> Tried {
    histories::smallest_device(Lent)
}

#[test]
fn middling_devices() -> Tried {
    histories::middling_devices(Lent)
}

#[test]
fn largest_devices() -> Tried {
    histories::largest_devices(Lent)
}

#[test]
fn sizes_at_every_limit() -> Tried {
    histories::sizes_at_every_limit(Lent)
}
