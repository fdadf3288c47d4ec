//! Random histories from fresh over the second implementation, with a simulated flash
//! that does as answers list; what is checked is in `second::host`. A failure prints the
//! shortest history it can find as a request list.

use second::generate;
use second::host::history;
use second::random::Random;
use second::requests::Request;
use second::shrink::Tried;
use second::Second;

#[test]
fn small_devices() -> Tried {
    let mut random = Random::new(1);
    let mut total = [0; 9];
    for _ in 0..600 {
        let fresh = generate::sizes(&mut random, 8, 8);
        let given = history(Second, &mut random, &[fresh], 300)?;
        total.iter_mut().zip(given).for_each(|(sum, n)| *sum += n);
    }
    let never = [1, 2];
    for (refusal, &times) in total.iter().enumerate() {
        assert_eq!(times == 0, never.contains(&refusal), "refusal {refusal} was given {times} times");
    }
    Ok(())
}

#[test]
fn smallest_device() -> Tried {
    let mut random = Random::new(2);
    for _ in 0..50 {
        let fresh = Request::Fresh { blocks: 3, pages: 1, logical: 1, slots: 1 };
        history(Second, &mut random, &[fresh], 200)?;
    }
    Ok(())
}

#[test]
fn middling_devices() -> Tried {
    let mut random = Random::new(3);
    for slots in [1, 16, 100, 896] {
        for (blocks, pages, logical) in [(16, 64, 896), (64, 16, 992), (1024, 1, 1022), (3, 256, 256)] {
            history(Second, &mut random, &[Request::Fresh { blocks, pages, logical, slots }], 150)?;
        }
    }
    Ok(())
}

#[test]
fn largest_device() -> Tried {
    let mut random = Random::new(4);
    let fresh = Request::Fresh { blocks: 1024, pages: 256, logical: 261_632, slots: 8192 };
    let filled = generate::filled(&mut random, fresh);
    history(Second, &mut random, &filled, 20)?;
    Ok(())
}
