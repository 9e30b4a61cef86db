//! The figures: a window's pixels, both totals, and faults in what is stored of them.

use super::{deliver, run_text, script_of, WINDOW};
use second::book::Book;
use second::fault::{check, Met};
use second::figure::{of_window, Figure};
use second::generate::fault::Faulty;
use second::memory::{FIGURES_AT, FIGURES_SIZE, PARTS};
use second::script::parts::Parts;

const NEW: u32 = 0x1100_0000;
const UPDATE: u32 = 0x0100_0000;
const SHOW: u32 = 0x10;
const VISIBILITY: u32 = 0x200;
/// Rectangles of 175 pixels.
const RECTS: &str = "0200 000000000A000A00 050005000F000F00";

fn figure(windows: usize, pixels: u64) -> Figure {
    Figure { windows, pixels }
}

/// A book with one window, of this show state, with the rectangles above.
fn book(show: u8) -> Book {
    let mut book = Book::new();
    let fields = format!("58000100 {show:02X} {RECTS}");
    assert_eq!(deliver(&mut book, NEW | SHOW | VISIBILITY, &fields), 0);
    book
}

#[test]
fn every_show_state() {
    for (show, expected) in [(0, 0), (2, 175), (3, 175), (5, 175)] {
        let book = book(show);
        let window = book.window(WINDOW).expect("a window");
        assert_eq!(of_window(window), expected);
        let windows = usize::from(show != 0);
        assert_eq!(book.figure(), figure(windows, expected.into()));
    }
}

/// Every sort of call keeps the totals those of the table.
#[test]
fn calls() {
    let mut book = book(5);
    book.mark();
    assert_eq!(book.figure(), figure(1, 175));
    assert_eq!(deliver(&mut book, UPDATE | SHOW, "58000100 00"), 0);
    assert_eq!(book.figure(), figure(0, 0));
    assert_eq!(deliver(&mut book, UPDATE | SHOW, "58000100 02"), 0);
    assert_eq!(book.figure(), figure(1, 175));
    let one = "58000100 0100 0000000002000300";
    assert_eq!(deliver(&mut book, UPDATE | VISIBILITY, one), 0);
    assert_eq!(book.figure(), figure(1, 6));
    assert_eq!(deliver(&mut book, 0x2100_0000, "58000100"), 0);
    assert_eq!(book.figure(), figure(0, 0));
    assert_eq!(book.step_back(1), Ok(()));
    assert_eq!(book.figure(), figure(1, 6));
    assert_eq!(deliver(&mut book, 0x0400_0001, ""), 0);
    assert_eq!(book.figure(), figure(0, 0));
    assert_eq!(book.step_back(4), Ok(()));
    assert_eq!(book.figure(), figure(1, 175));
    book.empty(12);
    assert_eq!(book.figure(), figure(0, 0));
}

/// All windows with the most pixels: a window's fit 32 bits, the sum does not.
#[test]
fn the_most() {
    let mut book = Book::new();
    for id in 0..32 {
        let fields = format!("{id:02X}000000 05 0100 00000000FFFFFFFF");
        assert_eq!(deliver(&mut book, NEW | SHOW | VISIBILITY, &fields), 0);
    }
    assert_eq!(book.figure(), figure(32, 137_434_759_200));
}

#[test]
fn the_figures_end_the_index() {
    assert_eq!(FIGURES_SIZE, 32 * 4 + 4 + 8);
    assert_eq!(FIGURES_AT + FIGURES_SIZE, PARTS[0]);
    let figures = Parts::default().figures().expect("known parts");
    assert_eq!(figures.end, Parts::default().lengths()[0]);
    assert_eq!(Parts::parse("1,2").expect("lengths").figures(), None);
}

/// A fault in the figures at this offset from their end, as an item.
fn fault(from_end: usize, bits: u8) -> String {
    let offset = ((PARTS[0] - from_end) as u32).swap_bytes();
    format!("X 00 {offset:08X} {bits:02X}\n")
}

fn checked(script: &str, printed: &str) -> Result<Met, String> {
    let script = script_of(script);
    let faulty = Faulty {
        last_part: script.len(),
        script,
    };
    check(&faulty, &Parts::default(), printed.as_bytes())
}

/// While a figure is wrong every call answers 1 and nothing changes; once it is as it was,
/// all goes on from there.
#[test]
fn a_wrong_figure_is_met() {
    let window = "D 2E0B00 00000011 58000100\n";
    let calls = "D 2E0700 01000004\nU 01000000 2E0700 01000004\nM\nB 00000000\nW 58000100\n\
                 N 58000100 07000000\nC 0000 00\nS\nI\nO FFFF\nV 0000\n\
                 H 01 58000100 00000000 01 58000100 00000000\n";
    let refused = "D 1\nU 1\nM 1\nB 1\nW 1\nN 1\nC 1\nS 1\nI 1\nO 1\nV 0 0 bodies=\nH 1\n";
    let lists = "I\n";
    let as_before = "I 0 1 11 windows=65624 icons=\n";
    for from_end in [1, 8, 9, 12, 13, FIGURES_SIZE] {
        let wrong = fault(from_end, 4);
        let script = format!("{window}{wrong}{calls}{wrong}{lists}{wrong}E\n{lists}");
        let emptied = "E 0 0 0\nI 0 0 0 windows= icons=\n";
        let printed = format!("D 0 1 11\n{refused}{as_before}{emptied}");
        let met = checked(&script, &printed).expect("a good output");
        assert_eq!((met.figure_faults, met.wrong_figures), (3, 11));
        assert_eq!((met.unfit, met.lent_short), (0, 0));
        // The wrong figure is not noticed by one call.
        for line in refused.lines().filter(|line| line.ends_with(" 1")) {
            let granted = line.replace(" 1", " 0 1 11");
            let printed = printed.replacen(&format!("\n{line}\n"), &format!("\n{granted}\n"), 1);
            assert!(checked(&script, &printed).is_err(), "{line}");
        }
    }
}

/// Two faults in one byte of the figures are one in another bit; and a fault elsewhere
/// leaves nothing known.
#[test]
fn faults_beside_a_wrong_figure() {
    let (one, other, both) = (fault(1, 1), fault(1, 2), fault(1, 3));
    let good = "S 0 0 0 active=0 hooked=0 syncing=0 stack= shown=0 pixels=0\n";
    let script = format!("{one}S\n{other}S\n{both}S\nE\n");
    assert!(checked(&script, &format!("S 1\nS 1\n{good}E 0 0 0\n")).is_ok());
    assert!(checked(&script, &format!("S 1\n{good}{good}E 0 0 0\n")).is_err());
    let script = format!("{one}X 01 00000000 01\n{one}S\nE\n");
    for line in [good, "S 1\n"] {
        assert!(checked(&script, &format!("{line}E 0 0 0\n")).is_ok());
    }
}

/// A call that is lent too little is told as such, wrong figure or not.
#[test]
fn lent_too_little_beside_a_wrong_figure() {
    let script = format!("{}T 02 0100\nS\nS\nE\n", fault(9, 1));
    let met = checked(&script, "S 1\nS 1\nE 0 0 0\n").expect("a good output");
    assert_eq!((met.lent_short, met.wrong_figures), (1, 1));
}

#[test]
fn lines() {
    let text = format!("D 2E1E00 10020011 58000100 05 {RECTS}\nW 58000100\nS");
    let output = run_text(&text);
    let lines: Vec<&str> = output.lines().collect();
    assert!(lines[1].ends_with(" pixels=175"));
    assert!(lines[2].ends_with(" stack= shown=1 pixels=175"));
}
