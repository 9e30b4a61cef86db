//! Tests of the tool that tells why: numbers, words and offsets, state files, pairs.

#[allow(dead_code)]
#[path = "../common/mod.rs"]
mod common;
mod figures;
mod files;
mod generator;

use common::hex;
use second::book::Book;
use second::why::{on_book, Explanation};

/// A window and a filled cell: window 00010058 shows what is in cell 0 of cache 0.
const BEFORE: [&str; 2] = [
    "2E0B00 00000011 58000100",
    "2E1700 00000041 58000100 0000 00 20 0100 0100 0000 0000",
];

fn book() -> Book {
    let mut book = Book::with_places(12);
    for order in BEFORE {
        book.deliver(&hex(order)).expect("a granted order");
    }
    book
}

/// What is told of an order on the state above: number and offset.
fn told(order: &str) -> (u8, Option<usize>) {
    let Explanation { number, at } = on_book(&book(), &hex(order));
    (number, at)
}

#[test]
fn each_number() {
    assert_eq!(told("2E0700 02000004"), (0, None));
    assert_eq!(told(""), (2, Some(0)));
    assert_eq!(told("2E0600 000004"), (2, Some(0)));
    assert_eq!(told("2E0800 02000004"), (3, Some(1)));
    assert_eq!(told("2F0700 02000004"), (4, Some(0)));
    assert_eq!(told("2F0700 00000000"), (4, Some(0)));
    assert_eq!(told("2E0700 01000005"), (4, Some(3)));
    assert_eq!(told("2E0700 40000004"), (5, Some(3)));
    assert_eq!(told("2E0700 03000004"), (6, Some(3)));
    assert_eq!(told("2E0B00 00000011 58000100"), (9, Some(7)));
    assert_eq!(told("2E0E00 00000081 58000100 0100 00"), (11, Some(7)));
}

#[test]
fn fields_that_do_not_fill() {
    // The window rectangles' count is 1, and no side of it is there.
    assert_eq!(told("2E0D00 00010011 58000100 0100"), (7, Some(13)));
    assert_eq!(told("2E0E00 00010001 58000100 0100 01"), (7, Some(13)));
    assert_eq!(told("2E0F00 00010001 58000100 0100 0100"), (7, Some(15)));
    assert_eq!(told("2E0A00 00000001 580001"), (7, Some(7)));
    assert_eq!(told("2E0700 00000001"), (7, Some(7)));
    assert_eq!(told("2E0D00 00000002 58000100 0100"), (7, Some(11)));
    // Style fits and extended style does not.
    assert_eq!(
        told("2E1100 08000001 58000100 01000000 0100"),
        (7, Some(15))
    );
    // A string that does not fit whole, at its first byte; and its length alone cut.
    assert_eq!(told("2E0F00 04000001 58000100 0400 4100"), (7, Some(13)));
    assert_eq!(told("2E0C00 04000001 58000100 04"), (7, Some(11)));
    // Bytes left over.
    assert_eq!(told("2E0800 01000004 00"), (7, Some(7)));
    assert_eq!(told("2E0D00 00000021 58000100 0000"), (7, Some(11)));
    // Ids of the stacking list: the second is cut.
    let ids = "2E0E00 10000004 02 01000000 0200";
    assert_eq!(told(ids), (7, Some(12)));
    // A mask of 2 bytes, of which one is there.
    let icon = "2E1800 00000041 58000100 0000 00 20 0100 0100 0200 0000 FF";
    assert_eq!(told(icon), (7, Some(23)));
    // 2 bits per pixel have no color table length: what comes as one is the mask's.
    let icon = "2E1900 00000041 58000100 0000 00 02 0100 0100 0000 0000 0000";
    assert_eq!(told(icon), (7, Some(23)));
}

#[test]
fn fields_outside_their_sets() {
    assert_eq!(told("2E0C00 10000001 58000100 01"), (8, Some(11)));
    assert_eq!(told("2E0E00 04000001 58000100 0100 41"), (8, Some(11)));
    assert_eq!(told("2E0D00 10000201 58000100 01 02"), (8, Some(11)));
    assert_eq!(told("2E0D00 10000201 58000100 05 02"), (8, Some(12)));
    // Entry and cache id of an icon, and of a cached icon.
    let icon = |cell: &str| format!("2E1700 00000041 58000100 {cell} 20 0100 0100 0000 0000");
    assert_eq!(told(&icon("0600 00")), (8, Some(11)));
    assert_eq!(told(&icon("0600 02")), (8, Some(11)));
    assert_eq!(told(&icon("0500 02")), (8, Some(13)));
    assert_eq!(told(&icon("0600 FF")), (0, None));
    let cached = |cell: &str| format!("2E0E00 00000081 58000100 {cell}");
    assert_eq!(told(&cached("0600 FF")), (8, Some(11)));
    assert_eq!(told(&cached("0500 FF")), (8, Some(13)));
    // Bits, width, height.
    let icon = |numbers: &str| format!("2E1700 00000041 58000100 0000 00 {numbers} 0000 0000");
    assert_eq!(told(&icon("02 0100 0100")), (8, Some(14)));
    assert_eq!(told(&icon("20 0000 2100")), (8, Some(15)));
    assert_eq!(told(&icon("20 0100 2100")), (8, Some(17)));
}

#[test]
fn a_picture_too_large() {
    let order = |width: u8, bits: u8, lengths: [u16; 3]| {
        let mut order = hex("2E0000 00000041 58000100 0000 00");
        order.extend([bits, width, 0, 1, 0]);
        let carried = if bits == 8 { 0..3 } else { 1..3 };
        let lengths = &lengths[carried];
        order.extend(lengths.iter().flat_map(|length| length.to_le_bytes()));
        let size: usize = lengths.iter().map(|&length| usize::from(length)).sum();
        order.resize(order.len() + size, 0xAA);
        let size = (order.len() as u16).to_le_bytes();
        order[1..3].copy_from_slice(&size);
        let told = on_book(&book(), &order);
        (told.number, told.at)
    };
    // The color length, also where it is 0 and the mask alone is too long.
    assert_eq!(order(1, 32, [0, 0, 4_225]), (8, Some(21)));
    assert_eq!(order(1, 32, [0, 4_225, 0]), (8, Some(21)));
    assert_eq!(order(1, 8, [1, 2_000, 2_224]), (8, Some(23)));
    assert_eq!(order(1, 8, [0, 2_000, 2_224]), (0, None));
    assert_eq!(order(33, 8, [1, 2_000, 2_224]), (8, Some(15)));
}

#[test]
fn full_rooms() {
    let mut book = book();
    for _ in book.standing().orders..128 {
        book.deliver(&hex("2E0700 02000004")).expect("room");
    }
    let none = on_book(&book, &hex("2E0700 01000004"));
    assert_eq!((none.number, none.at), (12, Some(7)));
    // An earlier refusal comes first.
    let unknown = on_book(&book, &hex("2E0B00 00000001 07000000"));
    assert_eq!((unknown.number, unknown.at), (9, Some(7)));
}

#[test]
fn lines() {
    let lines = |number, order: &str| Explanation::of(number, &hex(order)).lines();
    assert_eq!(lines(0, ""), "0\ndone\n");
    assert_eq!(
        lines(1, "2E"),
        "1\nlent state memory is shorter than needed, or not well formed\n0\n"
    );
    assert_eq!(lines(17, ""), "17\nevery place is pointed at\n7\n");
    assert_eq!(lines(11, ""), "11\ncached icon naming an empty cell\n7\n");
    assert_eq!(
        lines(7, "2E0D00 00010011 58000100 0100"),
        "7\nthe fields don't fill the declared length exactly\n13\n"
    );
}
