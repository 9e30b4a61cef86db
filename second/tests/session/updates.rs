//! Whole updates: cutting, limits, where they stop and what they report.

use super::{order, run_text, ID};
use second::book::Book;
use second::generate::session::script;
use second::script::parts::Parts;
use second::script::session::{call, Call, Session};
use second::script::take_item;
use second::update::{deliver, first, Report};

const NONE: &str = "2E070001000004";

fn report(number: u8, orders: u32, bytes: usize) -> Report {
    Report {
        number,
        orders,
        bytes,
    }
}

#[test]
fn pieces() {
    let sizes = |bytes: &[u8]| {
        let mut sizes = Vec::new();
        let mut rest = bytes;
        while !rest.is_empty() {
            let (piece, tail) = first(rest);
            sizes.push(piece.len());
            rest = tail;
        }
        sizes
    };
    let none = [0x2E, 7, 0, 1, 0, 0, 4];
    assert_eq!(sizes(&[]), []);
    assert_eq!(sizes(&none.repeat(3)), [7, 7, 7]);
    // Missing: one or two bytes.
    assert_eq!(sizes(&[&none[..], &[0x2E]].concat()), [7, 1]);
    assert_eq!(sizes(&[&none[..], &[0x2E, 7]].concat()), [7, 2]);
    // Under 7, also where it is what is left.
    assert_eq!(sizes(&[&[0x2E, 6, 0], &none[..]].concat()), [10]);
    assert_eq!(sizes(&[0x2E, 3, 0]), [3]);
    // Past the end, by one byte and by many.
    assert_eq!(
        sizes(&[&none[..], &[0x2E, 8, 0, 1, 0, 0, 4]].concat()),
        [7, 7]
    );
    assert_eq!(sizes(&[0x2E, 0xFF, 0xFF, 1, 0, 0, 4]), [7]);
    // The first byte does not matter.
    assert_eq!(sizes(&[&[0, 7, 0, 9, 9, 9, 9], &none[..]].concat()), [7, 7]);
    // A size in both of its bytes; more than a size can say.
    assert_eq!(sizes(&[&[0x2E, 0, 1], &[0; 300][..]].concat()), [256, 47]);
    assert_eq!(sizes(&none.repeat(10_000)).len(), 10_000);
}

#[test]
fn stops_at_the_limit_the_end_or_a_refusal() {
    let new = order(0x1100_0000, ID);
    let update = [&new[..], &order(0x0400_0002, ""), &new].concat();
    for (limit, expected) in [
        (0, report(0, 0, 0)),
        (1, report(0, 1, 11)),
        (2, report(0, 2, 18)),
        (3, report(9, 2, 18)),
        (u32::MAX, report(9, 2, 18)),
    ] {
        let mut book = Book::new();
        assert_eq!(deliver(&mut book, limit, &update), expected);
        let mut single = Book::new();
        for order in [&new, &order(0x0400_0002, "")]
            .into_iter()
            .take(expected.orders as usize)
        {
            assert_eq!(single.deliver(order), Ok(()));
        }
        assert_eq!(book, single);
    }
    assert_eq!(deliver(&mut Book::new(), 5, &[]), report(0, 0, 0));
}

#[test]
fn lines() {
    let text = format!(
        "U 02000000 {NONE} 2E05
         U 09000000 {NONE} 2E080001000004
         U 09000000 2F070001000004 {NONE}
         T 00 0100
         U 00000000
         U 00000000"
    );
    let printed = "U 2 1 7 1 7\nU 3 1 7 2 14\nU 4 0 0 2 14\nU 1\nU 0 0 0 2 14\n";
    assert_eq!(run_text(&text), printed);
    assert_eq!(run_text("U 010000"), "bad item\n");
}

/// Each update of generated scripts does as its pieces delivered one by one.
#[test]
fn as_deliveries_one_by_one() {
    let parts = Parts::default();
    let mut updates = 0;
    for seed in 0..40 {
        let script = script(seed, 300, &parts);
        let mut session = Session::default();
        let mut rest = &script[..];
        while let Some((item, tail)) = take_item(rest) {
            rest = tail;
            let Some(call) = call(item, &parts) else {
                break;
            };
            let mut single = session.book().clone();
            let number = session.make(&call);
            let Call::Update(limit, mut left) = call else {
                continue;
            };
            if number == Some(1) {
                continue;
            }
            updates += 1;
            let mut expected = report(0, 0, 0);
            while expected.orders < limit && !left.is_empty() && expected.number == 0 {
                let (order, tail) = first(left);
                match single.deliver(order) {
                    Ok(()) => {
                        expected.orders += 1;
                        expected.bytes += order.len();
                    }
                    Err(number) => expected.number = number,
                }
                left = tail;
            }
            assert_eq!(session.report(), expected);
            assert_eq!(session.book(), &single);
        }
    }
    assert!(updates > 400, "{updates}");
}
