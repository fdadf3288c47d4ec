//! Nothing panics, whatever it is given.

use utasiro::{Block, Board, Borrowed, Device, Failure, Fault, Flash, Head, Moves};
use utasiro::{Piece, Refusal, Saved, SimulatedBoard, Sizes, Store, HOLE};

const MOST: u32 = u32::MAX;

#[test]
fn pieces_at_the_end_of_32_bits() {
    let pages = |logical, physical, count| Piece { logical, physical, count }.pages().collect::<Vec<_>>();
    assert_eq!(pages(MOST - 1, 3, 5), [(MOST - 1, Some(3)), (MOST, Some(4))]);
    assert_eq!(pages(3, MOST - 1, 5), [(3, Some(MOST - 1)), (4, Some(MOST))]);
    assert_eq!(pages(MOST, HOLE, 5), [(MOST, None)]);
    assert_eq!(pages(0, 0, 0), []);
    assert_eq!(Piece { logical: 0, physical: HOLE, count: MOST }.pages().nth(70_000), Some((70_000, None)));
    let moves = Moves { sources: &[1, 2, 3], target: MOST - 1, erase: 0 };
    assert_eq!(moves.copies().collect::<Vec<_>>(), [(1, MOST - 1), (2, MOST)]);
}

#[test]
fn flashes_of_any_size() {
    let mut none = Flash::erased(0, 0);
    assert_eq!(none.program(0, 1), Err(Fault::Outside { page: 0 }));
    assert_eq!(none.copy(0, 0), Err(Fault::CopyOfErased { page: 0 }));
    assert_eq!(none.erase(0), Err(Fault::NoBlock { block: 0 }));
    let mut no_pages = Flash::erased(MOST, 0);
    assert_eq!(no_pages.program(0, 1), Err(Fault::Outside { page: 0 }));
    assert_eq!(no_pages.erase(MOST - 1), Ok(()));
    let mut most = Flash::erased(MOST, MOST);
    assert_eq!(most.program(0, 1), Ok(()));
    // Page 4294967295 is the first of block 1.
    assert_eq!(most.copy(0, MOST), Ok(()));
    assert_eq!(most.copy(0, 0), Err(Fault::ProgrammedTwice { page: 0 }));
    assert_eq!(most.copy(MOST, MOST - 1), Err(Fault::OutOfOrder { page: MOST - 1 }));
    assert_eq!(most.erase(MOST - 1), Ok(()));
    assert_eq!(most.erase(MOST), Err(Fault::NoBlock { block: MOST }));
    assert_eq!((most.contents(0), most.contents(MOST)), (Some(1), Some(1)));
    assert_eq!(most.erase(1), Ok(()));
    assert_eq!((most.contents(0), most.contents(MOST)), (Some(1), None));
}

/// A record is there where its words are: what is put is what is there, and no other record changes.
#[test]
fn block_records_in_words_of_any_length() {
    let mut record = Block::default();
    (record.fill, record.valid) = (7, 5);
    for length in 0..=3 * Block::WORDS {
        let words: Vec<u32> = (100..).take(length).collect();
        for block in [0, 1, 2, 3, 1 << 31, MOST] {
            let is_there = (block as usize) < length / Block::WORDS;
            let mut after = words.clone();
            assert_eq!(Block::at(&words, block).is_some(), is_there);
            assert_eq!(record.put(&mut after, block), is_there);
            for other in 0..3 {
                let before = Block::at(&words, other);
                let expected = if other == block { before.and(Some(record)) } else { before };
                assert_eq!(Block::at(&after, other), expected);
            }
            if let Some(before) = Block::at(&words, block) {
                before.put(&mut after, block);
            }
            assert_eq!(after, words);
        }
    }
}

/// A head of any fields over words of any lengths that do not fit it.
#[test]
fn devices_of_any_parts() {
    for field in [0, 1, 3, 4, 1024, 8192, 1 << 31, MOST] {
        let mut head = Head::default();
        (head.blocks, head.pages, head.logical, head.slots) = (field, field, field, field);
        (head.used, head.reserve, head.last) = (field, field, u64::MAX);
        for length in [0, 1, 3, 8, 48] {
            let words = vec![field; length];
            let mut device = Device::from_parts(head, words.clone(), words.clone(), words);
            let before = device.clone();
            for (start, count) in [(0, 1), (field, field), (MOST, MOST)] {
                assert_eq!(device.write(u64::MAX, start, count), Err(Refusal::Shape));
                assert_eq!(device.trim(u64::MAX, start, count), Err(Refusal::Shape));
                assert_eq!(device.read(start, count), Err(Refusal::Shape));
            }
            assert_eq!(device.reclaim(), Err(Refusal::Shape));
            assert_eq!(device.report(), Err(Refusal::Shape));
            assert_eq!(device, before);
        }
    }
    let most = Sizes { blocks: MOST, pages: MOST, logical: MOST, slots: MOST };
    assert_eq!(Device::fresh(most), Err(Refusal::Shape));
    let (mut e, mut b, mut s) = ([0; 3], [0; 2], [0; 1]);
    let sizes = Sizes { blocks: 3, pages: 1, logical: 1, slots: 1 };
    assert_eq!(Borrowed::fresh(sizes, &mut e, &mut b, &mut s), Err(Refusal::Shape));
}

/// A device over borrowed buffers answers as the owning one does, and leaves the same.
#[test]
fn borrowed_as_owned() {
    const SIZES: Sizes = Sizes { blocks: 4, pages: 3, logical: 6, slots: 4 };
    let (mut e, mut b) = ([7; SIZES.extent_words()], [7; SIZES.block_words()]);
    let (mut s, mut answer) = ([7; SIZES.spare_words()], [0; SIZES.write_answer_words()]);
    let mut all = [0; SIZES.read_answer_words()];
    let mut borrowed = Borrowed::fresh(SIZES, &mut e, &mut b, &mut s).expect("sizes that fit");
    let mut owned = Device::fresh(SIZES).expect("sizes that fit");
    for number in 1..60 {
        let (start, count) = (number as u32 * 7 % 6, number as u32 % 3 + 1);
        let pieces = borrowed.write(number, start, count, &mut answer).map(|pieces| pieces.collect());
        assert_eq!(pieces, owned.write(number, start, count));
        if number % 5 == 0 {
            assert_eq!(borrowed.trim(number + 1, start, 1), owned.trim(number + 1, start, 1));
        }
        let moves = borrowed.reclaim(&mut answer).map(|moves| (moves.copies().collect(), moves.erase));
        assert_eq!(moves, owned.reclaim().map(|reclaimed| (reclaimed.copies, reclaimed.erase)));
        assert_eq!(borrowed.read(0, 6, &mut all).map(|pieces| pieces.collect()), owned.read(0, 6));
        assert_eq!(borrowed.report(), owned.report());
        assert_eq!(borrowed.head(), owned.head());
        assert_eq!(borrowed.extents(), owned.extents());
        assert_eq!(borrowed.blocks(), owned.blocks());
        assert_eq!(borrowed.spare(), owned.spare());
    }
    assert_eq!(borrowed.read(0, 1, &mut [0; 2]).err(), Some(Refusal::OutShort));
}

/// What was saved and is no state is refused.
#[test]
fn stores_of_anything_saved() {
    let sizes = Sizes { blocks: 3, pages: 2, logical: 2, slots: 2 };
    let mut board = Store::simulated(sizes).expect("sizes that fit").into_board();
    let damaged = Err(Failure::Refused(Refusal::Damaged));
    for note in [2, 3, MOST] {
        let mut board = board.clone();
        board.saved.as_mut().expect("it is saved").putting_back = Some(note);
        assert_eq!(Store::open(board).map(|_| ()), damaged);
    }
    let (head, extents, mut blocks, spare) = board.saved.clone().expect("it is saved").device.into_parts();
    let mut first = Block::at(&blocks, 0).expect("a record for each block");
    first.fill = 1;
    assert!(first.put(&mut blocks, 0));
    let device = Device::from_parts(head, extents, blocks, spare);
    board.save(&Saved { device, putting_back: None }).expect("it is saved");
    assert_eq!(Store::open(board).map(|_| ()), damaged);
    assert_eq!(Store::open(SimulatedBoard::new(3, 2)).map(|_| ()), Err(Failure::NothingSaved));
    let refused = Store::simulated(Sizes { logical: 3, ..sizes }).map(|_| ());
    assert_eq!(refused, Err(Failure::Refused(Refusal::Shape)));
}
