//! State files: the figures in them, and what is wrong of these.

use crate::common::hex;
use second::book::Book;
use second::generate::explain::{pairs, states};
use second::generate::random::Random;
use second::memory::{self, Memory, FIGURES_AT, FIGURES_SIZE};
use second::why;

/// Window 1 shown with 175 pixels, window 2 hidden with 6, window 3 minimized with none.
const ORDERS: [&str; 3] = [
    "2E1E00 10020011 01000000 05 0200 000000000A000A00 050005000F000F00",
    "2E1500 00020011 02000000 0100 0000000002000300",
    "2E0C00 10000011 03000000 02",
];

fn book() -> Book {
    let mut book = Book::with_places(12);
    for order in ORDERS {
        book.deliver(&hex(order)).expect("a granted order");
    }
    book.mark();
    book
}

fn file(book: &Book) -> Vec<u8> {
    memory::write(book, 12, &mut Random::new(9))
}

fn number(file: &[u8]) -> u8 {
    let order = hex("2E0700 01000004");
    why::on_file(file, &order).expect("a book").number
}

#[test]
fn stand_where_the_document_says() {
    let file = file(&book());
    let figures = &file[FIGURES_AT..][..FIGURES_SIZE];
    let mut met = Vec::new();
    for slot in 0..32 {
        let ids = &file[157 + 9 * slot..][..9];
        let of_slot = &figures[4 * slot..][..4];
        match ids[0] {
            0 => assert_eq!(of_slot, [0; 4]),
            _ => met.push((ids[1], of_slot.to_vec())),
        }
    }
    met.sort();
    assert_eq!(
        met,
        [
            (1, vec![175, 0, 0, 0]),
            (2, vec![0, 0, 0, 0]),
            (3, vec![0, 0, 0, 0]),
        ]
    );
    assert_eq!(figures[128..], [2, 0, 0, 0, 175, 0, 0, 0, 0, 0, 0, 0]);
    assert_eq!((FIGURES_AT, FIGURES_AT + FIGURES_SIZE), (589, 729));
    assert_eq!(number(&file), 0);
}

/// No bit of them can be another unseen, and an emptied table has none that is set.
#[test]
fn every_bit_counts() {
    let emptied = file(&Book::with_places(12));
    assert_eq!(emptied[FIGURES_AT..][..FIGURES_SIZE], [0; FIGURES_SIZE]);
    for whole in [file(&book()), emptied] {
        let mut file = whole;
        for at in FIGURES_AT..FIGURES_AT + FIGURES_SIZE {
            for bit in 0..8 {
                file[at] ^= 1 << bit;
                assert_eq!(memory::read(&file), Memory::Unfit, "byte {at}, bit {bit}");
                file[at] ^= 1 << bit;
            }
        }
        assert_eq!(number(&file), 0);
    }
}

/// Where the pixels of a window stand, by its id.
fn count_of(file: &[u8], id: u8) -> usize {
    let ids = |slot: &usize| &file[157 + 9 * slot..][..2];
    let slot = (0..32).find(|slot| ids(slot) == [1, id]).expect("listed");
    FIGURES_AT + 4 * slot
}

/// Two figures that fit each other are wrong all the same.
#[test]
fn wrong_alike() {
    let whole = file(&book());
    let (shown, pixels) = (FIGURES_AT + 128, FIGURES_AT + 132);
    let [one, two, three] = [1, 2, 3].map(|id| count_of(&whole, id));
    for changes in [
        // Window 1 with a pixel less; as if it were hidden.
        vec![(one, 174), (pixels, 174)],
        vec![(one, 0), (shown, 1), (pixels, 0)],
        // Window 2 with what it would have, and as if it were shown.
        vec![(two, 6)],
        vec![(two, 6), (pixels, 181)],
        vec![(two, 6), (shown, 3), (pixels, 181)],
        // Window 3, which is minimized and has no pixels, as if it were hidden.
        vec![(shown, 1)],
        // The pixels of window 1 for another.
        vec![(one, 0), (three, 175)],
    ] {
        let mut file = whole.clone();
        for &(at, byte) in &changes {
            file[at] = byte;
        }
        assert_eq!(memory::read(&file), Memory::Unfit, "{changes:?}");
        assert_eq!(number(&file), 1);
    }
}

/// A generated file that breaks a rule is none of a state.
#[test]
fn a_broken_rule_is_met() {
    let rules: Vec<&str> = states::rules().collect();
    let mut met = 0;
    for pair in (0..60).flat_map(|seed| pairs(seed, 60)) {
        if rules.contains(&pair.of_state.as_str()) {
            let read = memory::read(pair.state.bytes());
            assert_eq!(read, Memory::Unfit, "{}", pair.of_state);
            met += 1;
        }
    }
    assert!(met > 100, "{met}");
}

/// The figures are those of the mark, whatever orders stand after it.
#[test]
fn are_those_of_the_mark() {
    let mut book = book();
    let of = |book: &Book| file(book)[FIGURES_AT..][..FIGURES_SIZE].to_vec();
    let before = of(&book);
    for order in ["2E0C00 10000001 02000000 05", "2E0B00 00000021 01000000"] {
        book.deliver(&hex(order)).expect("a granted order");
    }
    assert_eq!(of(&book), before);
    assert_eq!((book.figure().windows, book.figure().pixels), (2, 6));
    let read = memory::read(&file(&book));
    assert_eq!(read, Memory::Book(Box::new(book.clone())));
    book.mark();
    assert_eq!(of(&book)[128..], [2, 0, 0, 0, 6, 0, 0, 0, 0, 0, 0, 0]);
}
