//! The figure at each mark beside the second program's report, and the present one beside
//! its book.

use std::fmt::Write;

use rail::{Figure, Session};
use second::book::Book;
use second::generate::report::input;
use second::report::{run, take_item, HEAD, MARK};

/// The report of an input through the crate.
fn report(input: &[u8]) -> String {
    let mut session = Session::new();
    let mut text = HEAD.to_owned();
    let mut mark = 0;
    let mut rest = input;
    while let Some((item, tail)) = take_item(rest) {
        rest = tail;
        if item.kind != MARK {
            let before = session.figure();
            let _passed_over = session.deliver(item.payload);
            assert_eq!(session.figure(), before, "no order counts before the mark");
            continue;
        }
        mark += 1;
        session.checkpoint();
        let Figure {
            windows, pixels, ..
        } = session.figure();
        writeln!(text, "{mark} {windows} {pixels}").expect("a text takes all");
    }
    text
}

/// After each order and each mark the present figure is the book's.
#[test]
fn at_any_moment() {
    for seed in 0..20 {
        let mut session = Session::new();
        let mut book = Book::new();
        let input = input(seed, 300);
        let mut rest = input.as_slice();
        while let Some((item, tail)) = take_item(rest) {
            rest = tail;
            if item.kind == MARK {
                session.checkpoint();
                book.mark();
            } else {
                let granted = session.deliver(item.payload).is_ok();
                assert_eq!(granted, book.deliver(item.payload).is_ok());
            }
            let Figure {
                windows, pixels, ..
            } = session.desktop().figure;
            let figure = book.figure();
            assert_eq!((windows as usize, pixels), (figure.windows, figure.pixels));
        }
    }
}

#[test]
fn generated_inputs() {
    for seed in 0..40 {
        let input = input(seed, 300);
        let mut expected = Vec::new();
        run(&input, &mut expected).expect("memory takes all");
        assert_eq!(report(&input).as_bytes(), expected, "seed {seed}");
    }
}

#[test]
fn the_stored_input() {
    let input = include_bytes!("../../../crates/rail_report/stdin");
    assert_eq!(report(input), "mark windows pixels\n1 1 175\n");
}
