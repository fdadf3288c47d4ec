//! A host over the library, with a simulated flash that does as answers list.

use compare::checks::flash;
use compare::Lent;
use second::shrink::Tried;

#[test]
fn small_devices() -> Tried {
    flash::small_devices(Lent)
}

#[test]
fn smallest_device() -> Tried {
    flash::smallest_device(Lent)
}

#[test]
fn middling_devices() -> Tried {
    flash::middling_devices(Lent)
}

#[test]
fn full_device() -> Tried {
    flash::full_device(Lent)
}

#[test]
fn largest_device() -> Tried {
    flash::largest_device(Lent)
}
