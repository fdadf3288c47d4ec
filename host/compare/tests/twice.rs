//! A request sent twice to the library at every point of a history: nothing changes
//! the second time.

use compare::checks::twice;
use compare::Lent;
use second::shrink::Tried;

#[test]
fn nothing_changes_the_second_time() -> Tried {
    twice::nothing_changes_the_second_time(Lent)
}
