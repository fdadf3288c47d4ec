//! A host over the layer, with a simulated flash that does as answers list: every page
//! reads as its last accepted write, no page is programmed twice between erases, pages
//! of a block in order, and demand 3 runs to its bound. What is checked is in
//! `second::host`.

use second::generate;
use second::host::history;
use second::requests::Request;
use second::shrink::Tried;
use second::Layer;

use crate::{random, times};

pub fn small_devices<L: Layer + Clone>(layer: L) -> Tried {
    let mut random = random(31);
    for _ in 0..times(250) {
        let fresh = generate::sizes(&mut random, 8, 8);
        history(layer.clone(), &mut random, &[fresh], 200)?;
    }
    Ok(())
}

pub fn smallest_device<L: Layer + Clone>(layer: L) -> Tried {
    let mut random = random(32);
    for _ in 0..times(50) {
        let fresh = Request::Fresh { blocks: 3, pages: 1, logical: 1, slots: 1 };
        history(layer.clone(), &mut random, &[fresh], 100)?;
    }
    Ok(())
}

pub fn middling_devices<L: Layer + Clone>(layer: L) -> Tried {
    let mut random = random(33);
    for (blocks, pages, logical, slots) in [(16, 64, 896, 100), (64, 16, 992, 992), (3, 256, 256, 16)] {
        let fresh = Request::Fresh { blocks, pages, logical, slots };
        history(layer.clone(), &mut random, &[fresh], times(100))?;
    }
    Ok(())
}

/// From a device that is all but full.
pub fn full_device<L: Layer + Clone>(layer: L) -> Tried {
    let mut random = random(34);
    let fresh = Request::Fresh { blocks: 64, pages: 128, logical: 7936, slots: 4096 };
    let filled = generate::filled(&mut random, fresh);
    history(layer, &mut random, &filled, times(40))?;
    Ok(())
}

pub fn largest_device<L: Layer + Clone>(layer: L) -> Tried {
    let mut random = random(35);
    let fresh = Request::Fresh { blocks: 1024, pages: 256, logical: 261_632, slots: 8192 };
    history(layer, &mut random, &[fresh], times(15))?;
    Ok(())
}
