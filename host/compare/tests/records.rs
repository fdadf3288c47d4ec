//! The library's read over extent records, against its read over words and that of the
//! second implementation.

use compare::checks::records::Readers;
use compare::{Lent, OverRecords};
use second::shrink::Tried;

const READERS: Readers<OverRecords, Lent> = Readers { over_records: OverRecords, over_words: Lent };

#[test]
fn small_states() -> Tried {
    let given = READERS.small_states()?;
    for refusal in [0, 1, 2, 3, 7] {
        assert!(given[refusal] > 0, "refusal {refusal} was never given");
    }
    Ok(())
}

#[test]
fn every_other_number_of_records() -> Tried {
    let given = READERS.every_other_number_of_records()?;
    assert!(given[1] > 0, "nothing was refused 1");
    Ok(())
}

#[test]
fn large_states() -> Tried {
    let given = READERS.large_states()?;
    assert!(given[0] > 0, "nothing was accepted");
    Ok(())
}

#[test]
fn histories() -> Tried {
    READERS.histories()
}
