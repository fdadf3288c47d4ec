//! The library from every logical page of a map on.

use compare::checks::places;
use compare::Lent;
use second::shrink::Tried;

#[test]
fn short_maps() -> Tried {
    let calls = places::short_maps(Lent)?;
    assert_eq!(calls, 12 * 1258, "calls compared");
    Ok(())
}

#[test]
fn long_map() -> Tried {
    let calls = places::long_map(Lent)?;
    assert_eq!(calls, 6 * 1794, "calls compared");
    Ok(())
}
