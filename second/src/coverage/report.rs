//! What generated inputs of the report reach.

use super::Facts;
use crate::book::{Book, BYTES_ROOM, ORDERS_ROOM};
use crate::figure;
use crate::generate;
use crate::number::ROOM_PASSED;
use crate::report::{take_item, ORDER};
use crate::table::{Rect, Window, WINDOWS};

/// The numbers that a delivery can get.
const NUMBERS: [u8; 12] = [0, 2, 3, 4, 5, 6, 7, 8, 9, 10, 11, 17];

/// What a window has at a mark, and what a mark has.
const AT_MARKS: [&str; 20] = [
    "no window",
    "no window shown",
    "one window shown",
    "every window shown",
    "more pixels than 32 bits count",
    "shown window minimized, with pixels",
    "hidden window with rectangles",
    "shown window without rectangles",
    "shown window whose rectangles count nothing",
    "16 rectangles that count",
    "rectangles apart",
    "rectangles that touch",
    "rectangles that overlap",
    "rectangle inside another",
    "rectangle twice",
    "rectangle without width",
    "rectangle without height",
    "rectangle inverted in x",
    "rectangle inverted in y",
    "rectangle at both ends of the numbers",
];

/// Runs the generated inputs of the seeds `from` to `to`.
pub fn of_seeds(from: u64, to: u64, items: usize) -> Facts {
    let mut expected: Vec<String> = NUMBERS.map(|number| format!("D {number}")).to_vec();
    expected.extend(AT_MARKS.map(String::from));
    let others = [
        "D 12 by orders",
        "D 12 by bytes",
        "D 12, and a mark after it",
        "D 17, and D 12 before the next mark",
        "item of 65535 bytes",
        "two marks in a row",
        "cut length",
        "cut bytes",
        "no order after the last mark",
        "orders after the last mark",
    ];
    expected.extend(others.map(String::from));
    let mut facts = Facts::expecting(expected);
    for seed in from..=to {
        add_input(&mut facts, &generate::report::input(seed, items));
    }
    facts
}

fn add_input(facts: &mut Facts, input: &[u8]) {
    let mut book = Book::new();
    let mut since = Vec::new();
    let mut after_mark = false;
    let mut rest = input;
    while let Some((item, tail)) = take_item(rest) {
        rest = tail;
        if item.kind == ORDER {
            after_mark = false;
            let number = add_order(facts, &mut book, item.payload);
            if number == ROOM_PASSED && since.contains(&17) {
                facts.add("D 17, and D 12 before the next mark");
            }
            since.push(number);
            continue;
        }
        if after_mark {
            facts.add("two marks in a row");
        }
        if since.contains(&ROOM_PASSED) {
            facts.add("D 12, and a mark after it");
        }
        after_mark = true;
        since.clear();
        book.mark();
        add_mark(facts, &book);
    }
    facts.add(match since.is_empty() {
        true => "no order after the last mark",
        false => "orders after the last mark",
    });
    match rest.len() {
        0 => {}
        1 => facts.add("cut length"),
        _ => facts.add("cut bytes"),
    }
}

fn add_order(facts: &mut Facts, book: &mut Book, order: &[u8]) -> u8 {
    let standing = book.standing();
    let number = book.deliver(order).err().unwrap_or(0);
    facts.add(format!("D {number}"));
    if order.len() == usize::from(u16::MAX) {
        facts.add("item of 65535 bytes");
    }
    if number == ROOM_PASSED {
        if standing.orders == ORDERS_ROOM {
            facts.add("D 12 by orders");
        }
        if standing.bytes + order.len() > BYTES_ROOM {
            facts.add("D 12 by bytes");
        }
    }
    number
}

fn add_mark(facts: &mut Facts, book: &Book) {
    let table = book.table();
    let figure = figure::of(table);
    let windows: Vec<&Window> = table
        .window_ids()
        .filter_map(|id| table.window(id))
        .collect();
    match (windows.len(), figure.windows) {
        (0, _) => facts.add("no window"),
        (_, 0) => facts.add("no window shown"),
        (_, 1) => facts.add("one window shown"),
        (_, WINDOWS) => facts.add("every window shown"),
        _ => {}
    }
    if figure.pixels > u64::from(u32::MAX) {
        facts.add("more pixels than 32 bits count");
    }
    for window in windows {
        add_window(facts, window);
    }
}

fn add_window(facts: &mut Facts, window: &Window) {
    let rects = &window.visibility_rects;
    let pixels = figure::pixels(rects);
    match (window.show_state, rects.len(), pixels) {
        (0, 1.., 1..) => facts.add("hidden window with rectangles"),
        (0, ..) => return,
        (_, 0, _) => facts.add("shown window without rectangles"),
        (_, _, 0) => facts.add("shown window whose rectangles count nothing"),
        (2, ..) => facts.add("shown window minimized, with pixels"),
        _ => {}
    }
    let counting: Vec<&Rect> = rects.iter().filter(|r| area(r) > 0).collect();
    if counting.len() == 16 {
        facts.add("16 rectangles that count");
    }
    for (index, a) in rects.iter().enumerate() {
        add_rect(facts, a);
        for b in &rects[..index] {
            add_pair(facts, a, b);
        }
    }
}

fn area(r: &Rect) -> u64 {
    figure::pixels(std::slice::from_ref(r))
}

fn add_rect(facts: &mut Facts, r: &Rect) {
    let (tall, wide) = (r.top < r.bottom, r.left < r.right);
    if r.left == r.right && tall {
        facts.add("rectangle without width");
    }
    if r.top == r.bottom && wide {
        facts.add("rectangle without height");
    }
    if r.left > r.right && tall {
        facts.add("rectangle inverted in x");
    }
    if r.top > r.bottom && wide {
        facts.add("rectangle inverted in y");
    }
    if (r.left, r.top, r.right, r.bottom) == (0, 0, u16::MAX, u16::MAX) {
        facts.add("rectangle at both ends of the numbers");
    }
}

/// How two rectangles that count lie.
fn add_pair(facts: &mut Facts, a: &Rect, b: &Rect) {
    if area(a) == 0 || area(b) == 0 {
        return;
    }
    let union = figure::pixels(&[*a, *b]);
    if a == b {
        facts.add("rectangle twice");
    } else if union == area(a).max(area(b)) {
        facts.add("rectangle inside another");
    } else if union < area(a) + area(b) {
        facts.add("rectangles that overlap");
    } else if a.right == b.left || b.right == a.left || a.bottom == b.top || b.bottom == a.top {
        facts.add("rectangles that touch");
    } else {
        facts.add("rectangles apart");
    }
}
