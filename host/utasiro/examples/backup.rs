//! A backup on a small device, in the order that outlives a crash: written, sent again, written until pages are wanting and
//! some are reclaimed, taken up again after a crash that cut a write short, read back.

use utasiro::{Failure, Fault, SimulatedBoard, Sizes, Store};

type Answer = Result<(), Failure<Fault>>;

fn say(what: &str, answer: &Answer) {
    match answer {
        Ok(()) => println!("{what}: acknowledged"),
        Err(failure) => println!("{what}: {failure}"),
    }
}

fn main() -> Answer {
    // A slot for every logical page: then a write in range with a new number fits after at most B-1 reclaims. With fewer
    // slots it may be refused 6. Each call reads the whole state, so slots that are never used cost time as well as room.
    let sizes = Sizes { blocks: 4, pages: 4, logical: 8, slots: 8 };
    let mut board = SimulatedBoard::new(sizes.blocks, sizes.pages);
    let mut store = Store::fresh(&mut board, sizes)?;

    let backup: Vec<u64> = (4400..4404).collect();
    say("request 1", &store.write(1, 0, &backup));
    say("request 1 again", &store.write(1, 0, &backup));
    say("request 2", &store.write(2, 4, &[4404, 4405, 4406]));
    say("request 3", &store.write(3, 1, &[4418, 4419, 4420]));
    say("request 4, without making room", &store.write(4, 4, &[4421, 4422, 4423]));
    say("request 4, making room", &store.write_making_room(4, 4, &[4421, 4422, 4423]));
    say("request 5", &store.trim(5, 0, 1));
    let report = store.report()?;
    println!("free {}, live {}, stale {}", report.free, report.live, report.stale);

    // Request 6 is cut short: its first page is programmed, and the state is not saved. What is left is the board.
    let mut lost = store.device().clone();
    let first = lost.write(6, 6, 2)?[0].physical;
    board.flash.program(first, 4499).map_err(Failure::Board)?;
    println!("a crash: page {first} was programmed for request 6, and no more");
    let mut store = Store::open(&mut board)?;
    say("request 5 again", &store.trim(5, 0, 1));
    say("request 6 again", &store.write_making_room(6, 6, &[4424, 4425]));

    for (page, contents) in store.read(0, sizes.logical)?.into_iter().enumerate() {
        match contents {
            Some(contents) => println!("page {page} reads {contents}"),
            None => println!("page {page} is a hole"),
        }
    }
    Ok(())
}
