//! Tests of the report: figures, the documents' example, inputs.

#[allow(dead_code)]
#[path = "../common/mod.rs"]
mod common;

use common::{hex, second};
use second::coverage::report::of_seeds;
use second::figure::{pixels, Figure};
use second::generate::report::input;
use second::report::{from_text, run, take_item, HEAD};
use second::table::Rect;

/// The orders of document 02's example: a window with show state 5 and two rectangles.
const EXAMPLE: &str = "2E1E00 10020011 01000000 05 0200 00000000 0A000A00 05000500 0F000F00";

fn report(text: &str) -> String {
    let mut output = Vec::new();
    run(&from_text(text).expect("a text form"), &mut output).expect("memory takes all");
    String::from_utf8(output).expect("a text")
}

fn rects(numbers: &[[u16; 4]]) -> Vec<Rect> {
    let rect = |&[left, top, right, bottom]: &[u16; 4]| Rect {
        left,
        top,
        right,
        bottom,
    };
    numbers.iter().map(rect).collect()
}

/// The points below 64 by 64 that some rectangle has, one by one.
fn points(rects: &[Rect]) -> u64 {
    let has = |x: u16, y: u16| {
        let inside = |r: &&Rect| r.left <= x && x < r.right && r.top <= y && y < r.bottom;
        rects.iter().any(|r| inside(&r))
    };
    let row = |y| (0..64).filter(|&x| has(x, y)).count() as u64;
    (0..64).map(row).sum()
}

#[test]
fn the_documents_example() {
    assert_eq!(
        report(&format!("{EXAMPLE}\nmark")),
        "mark windows pixels\n1 1 175\n"
    );
    assert_eq!(report(EXAMPLE), HEAD);
    assert_eq!(report(""), HEAD);
}

#[test]
fn the_stored_input_is_that_of_the_text() {
    let text = include_str!("../../vectors/report.txt");
    let stored = include_bytes!("../../../crates/rail_report/stdin");
    assert_eq!(from_text(text).expect("a text form"), stored);
}

#[test]
fn a_mark_counts_what_stands_then() {
    let hidden = "2E0C00 10000001 01000000 00";
    let minimized = "2E0C00 10000001 01000000 02";
    let absent = "2E0C00 10000001 02000000 05 # 9: passed over";
    let text =
        format!("mark\n{EXAMPLE}\nmark\n{absent}\nmark\n{hidden}\nmark\n{minimized}\nmark\n2E");
    assert_eq!(
        report(&text),
        format!("{HEAD}1 0 0\n2 1 175\n3 1 175\n4 0 0\n5 1 175\n")
    );
}

#[test]
fn rectangles_as_points() {
    let cases: [(&[[u16; 4]], u64); 10] = [
        (&[], 0),
        (&[[0, 0, 10, 10]], 100),
        (&[[0, 0, 10, 10], [5, 5, 15, 15]], 175),
        (&[[0, 0, 10, 10], [10, 0, 20, 10]], 200),
        (&[[0, 0, 10, 10], [2, 2, 4, 4]], 100),
        (&[[0, 0, 10, 10], [0, 0, 10, 10]], 100),
        (&[[10, 0, 0, 10]], 0),
        (&[[0, 10, 10, 0], [3, 3, 3, 9]], 0),
        (&[[9, 9, 8, 10], [0, 0, 1, 1]], 1),
        (&[[0, 0, 65_535, 65_535]], 65_535 * 65_535),
    ];
    for (numbers, expected) in cases {
        assert_eq!(pixels(&rects(numbers)), expected, "{numbers:?}");
    }
}

#[test]
fn strips_are_a_count_point_by_point() {
    let mut random = second::generate::random::Random::new(8);
    for _ in 0..400 {
        let count = random.below(17);
        let numbers: Vec<[u16; 4]> = (0..count)
            .map(|_| [(); 4].map(|()| random.below(64) as u16))
            .collect();
        let rects = rects(&numbers);
        assert_eq!(pixels(&rects), points(&rects), "{numbers:?}");
    }
}

#[test]
fn totals_pass_32_bits() {
    let mut text = String::new();
    for id in 0..32 {
        text += &format!("2E1600 10020011 {id:02X}000000 05 0100 00000000 FFFFFFFF\n");
    }
    assert_eq!(
        report(&(text + "mark")),
        format!("{HEAD}1 32 137434759200\n")
    );
    let all = Figure {
        windows: 32,
        pixels: 32 * 65_535 * 65_535,
    };
    assert!(all.pixels > u64::from(u32::MAX));
}

/// An order that passes the room of the history is passed over like every refused one.
#[test]
fn a_full_history_loses_orders_until_the_mark() {
    let hide = "2E0C00 10000001 01000000 00\n";
    let show = "2E0C00 10000001 01000000 05\n";
    let text = format!("{EXAMPLE}\n{}{show}mark\n{show}mark", hide.repeat(127));
    assert_eq!(report(&text), format!("{HEAD}1 0 0\n2 1 175\n"));
    let text = format!("{EXAMPLE}\n{}{show}mark", hide.repeat(126));
    assert_eq!(report(&text), format!("{HEAD}1 1 175\n"));
}

#[test]
fn a_cut_item_is_dropped() {
    let whole = from_text(&format!("{EXAMPLE}\nmark\nmark")).expect("a text form");
    for cut in [1, 2, 3] {
        let mut input = whole.clone();
        input.truncate(whole.len() - cut);
        let mut output = Vec::new();
        run(&input, &mut output).expect("memory takes all");
        let lines = if cut == 3 { "" } else { "1 1 175\n" };
        assert_eq!(output, format!("{HEAD}{lines}").as_bytes());
    }
}

#[test]
fn items() {
    assert!(take_item(&[]).is_none());
    assert!(take_item(&[1]).is_none());
    assert!(take_item(&[1, 0]).is_none());
    let (item, rest) = take_item(&[1, 0, 7, 0]).expect("an item");
    assert_eq!((item.kind, item.payload, rest), (b'D', &[7][..], &[0][..]));
    let (item, rest) = take_item(&[0, 0]).expect("a mark");
    assert_eq!((item.kind, item.payload, rest), (b'M', &[][..], &[][..]));
}

#[test]
fn generated_inputs() {
    for seed in [0, 1, 19, u64::MAX] {
        assert_eq!(input(seed, 100), input(seed, 100));
        assert_ne!(input(seed, 100), input(seed ^ 1, 100));
    }
    let facts = of_seeds(0, 99, 300);
    assert_eq!(facts.missing(), Vec::<&str>::new());
}

#[test]
fn text_to_input_to_lines() {
    let input = second(
        &["hex-report"],
        format!("{EXAMPLE} # a window\nmark\n").as_bytes(),
    );
    assert!(input.status.success());
    assert_eq!(input.stdout[..5], hex("1E00 2E1E00"));
    let lines = second(&["report"], &input.stdout);
    assert!(lines.status.success());
    assert_eq!(lines.stdout, b"mark windows pixels\n1 1 175\n");
    assert!(!second(&["hex-report"], b"2E 1").status.success());
}
