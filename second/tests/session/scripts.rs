//! The script format: items, bad items, memory that is lent too short.

use super::{common::hex, run_script, run_text, script_of, store_part};
use second::compare::difference;
use second::script::parts::Parts;
use second::script::session::{run, End, KINDS, SILENT};

const EMPTY: &str = "45 0000";

#[test]
fn an_empty_script_prints_nothing() {
    assert_eq!(run_script(&[]), "");
}

#[test]
fn cut_items_are_bad() {
    for cut in [
        "45",
        "45 00",
        "44 0100",
        "44 0700 2E0700000000",
        "42 0400 000000",
    ] {
        let script = hex(&format!("{EMPTY} {cut}"));
        assert_eq!(run_script(&script), "E 0 0 0\nbad item\n", "{cut}");
    }
}

#[test]
fn unknown_kinds_are_bad() {
    for kind in (0..=u8::MAX).filter(|kind| !KINDS.contains(kind)) {
        let script = [&[kind, 0, 0][..], &hex(EMPTY)].concat();
        assert_eq!(run_script(&script), "bad item\n");
    }
}

#[test]
fn payloads_have_their_lengths() {
    for (kind, length) in [
        ('E', 0),
        ('M', 0),
        ('B', 4),
        ('W', 4),
        ('N', 8),
        ('C', 3),
        ('S', 0),
        ('T', 3),
        ('X', 6),
        ('H', 18),
        ('L', 20),
        ('Z', 0),
    ] {
        for other in (0..24).filter(|&other| other != length) {
            let text = format!("{kind} {}", "01".repeat(other));
            assert_eq!(run_text(&text), "bad item\n", "{text}");
        }
    }
    for length in [0, 1, 6, 65_535] {
        let output = run_text(&format!("D {}", "2E".repeat(length)));
        let number = if length < 7 { 2 } else { 3 };
        assert_eq!(output, format!("D {number}\n"));
    }
}

#[test]
fn a_bad_item_ends_the_run() {
    assert_eq!(run_text("S\nM 00\nS"), format!("{DESKTOP}bad item\n"));
}

const DESKTOP: &str = "S 0 0 0 active=0 hooked=0 syncing=0 stack= shown=0 pixels=0\n";

/// Whatever the next call is, it answers 1; the one after it is made.
#[test]
fn memory_too_short() {
    let first = "D 2E0B00 00000011 58000100";
    for (call, kind) in [
        ("E", 'E'),
        ("D 2E0700 01000004", 'D'),
        ("D", 'D'),
        ("M", 'M'),
        ("B 01000000", 'B'),
        ("B 09000000", 'B'),
        ("W 58000100", 'W'),
        ("N 58000100 01000000", 'N'),
        ("C 0000 00", 'C'),
        ("S", 'S'),
    ] {
        let output = run_text(&format!("{first}\nT 00 0100\n{call}\nB 01000000\nS\n"));
        assert_eq!(output, format!("D 0 1 11\n{kind} 1\nB 0 0 0\n{DESKTOP}"));
    }
    // Twice before one call is once; at the end it prints nothing.
    assert_eq!(
        run_text("T 00 0100\nT 01 0200\nS\nS\nT 00 0100"),
        format!("S 1\n{DESKTOP}")
    );
    assert_eq!(run_text("T 00 0100\nM 00"), "bad item\n");
}

#[test]
fn parts_and_missing_bytes() {
    let parts = Parts::default();
    let past = parts.first_of_store() + 5;
    let lack =
        |part: u8, missing: u32| format!("T {part:02X} {:04X}", (missing as u16).swap_bytes());
    let fault = |part: u8, offset: u32| format!("X {part:02X} {:08X} 01", offset.swap_bytes());
    let mut items = vec![
        (lack(0, 0), false),
        (lack(parts.first_of_store(), 0), false),
        (lack(past, 1), false),
        (lack(255, 1), false),
        (fault(past, 0), false),
        (fault(parts.first_of_store(), 65_536), false),
        (fault(0, 65_536), false),
        (fault(0, u32::MAX), false),
    ];
    for (part, &length) in parts.lengths().iter().enumerate() {
        let part = part as u8;
        items.push((lack(part, 1), true));
        items.push((lack(part, length), true));
        // more missing than there is: lent empty
        items.push((lack(part, length + 1), true));
        items.push((lack(part, 65_535), true));
        items.push((fault(part, length), false));
    }
    for (item, good) in items {
        let expected = if good { "M 1\n" } else { "bad item\n" };
        assert_eq!(run_text(&format!("{item}\nM")), expected, "{item}");
    }
}

#[test]
fn a_fault_ends_the_run() {
    let parts = Parts::default();
    let last = |(part, length): (usize, &u32)| {
        format!("X {part:02X} {:08X} 80", (length - 1).swap_bytes())
    };
    let mut items: Vec<String> = parts.lengths().iter().enumerate().map(last).collect();
    items.push("X 00 00000000 00".into());
    items.push(format!("X {} 00000000 01", store_part(0)));
    items.push(format!("X {} FFFF0000 01", store_part(4)));
    for item in items {
        let script = script_of(&format!("M\n{item}\nE"));
        let mut output = Vec::new();
        let end = run(&script, &parts, &mut output).expect("memory takes all");
        assert_eq!((end, &output[..]), (End::Fault, &b"M 0 0 0\n"[..]));
    }
}

#[test]
fn parts_can_be_given() {
    let parts = Parts::parse("10,65536").expect("lengths");
    assert_eq!(parts.lengths(), [10, 65_536]);
    let print = |text: &str| {
        let mut output = Vec::new();
        run(&script_of(text), &parts, &mut output).expect("memory takes all");
        String::from_utf8(output).expect("a text")
    };
    assert_eq!(print("T 00 0A00\nM"), "M 1\n");
    assert_eq!(print("T 00 0B00\nM"), "M 1\n");
    assert_eq!(print("T 01 FFFF\nM"), "M 1\n");
    assert_eq!(print("T 02 0100\nM"), "M 1\n");
    assert_eq!(print("T 07 0100\nM"), "bad item\n");
    assert_eq!(print("X 01 00000100 01\nM"), "bad item\n");
    for text in ["", "0", "1,", ",1", "65537", "x", "1 2", "-1"] {
        assert!(Parts::parse(text).is_err(), "{text}");
    }
    assert!(Parts::parse(&["1"; 251].join(",")).is_ok());
    assert!(Parts::parse(&["1"; 252].join(",")).is_err());
}

/// The item told is the one whose line differs, silent ones aside.
#[test]
fn differences_pass_over_silent_items() {
    let script = script_of("M\nT 00 0100\nT 00 0100\nS\nE");
    let told =
        |ours: &str, theirs: &str| difference(&script, SILENT, ours.as_bytes(), theirs.as_bytes());
    assert_eq!(
        told("M 0 0 0\nS 1\nE 0 0 0\n", "M 0 0 0\nS 1\nE 0 0 0\n"),
        None
    );
    assert_eq!(
        told("M 0 0 0\nS 1\n", "M 0 0 0\nS 0\n").as_deref(),
        Some("item 4 S \n  expected: S 1\\n\n  printed:  S 0\\n")
    );
    assert_eq!(
        told("M 0 0 0\n", "M 1\n").as_deref(),
        Some("item 1 M \n  expected: M 0 0 0\\n\n  printed:  M 1\\n")
    );
    assert_eq!(
        told("M 0 0 0\nS 1\nE 0 0 0\n", "M 0 0 0\nS 1\n").as_deref(),
        Some("item 5 E \n  expected: E 0 0 0\\n\n  printed:  (no line)")
    );
}

#[test]
fn text_form() {
    assert_eq!(
        script_of("# all kinds\nE\nD 2e\nM # mark\nB 0\t1 0 0 00 00\n  S\n"),
        hex("45 0000 44 0100 2E 4D 0000 42 0400 01000000 53 0000")
    );
    for text in ["R 00", "P", "e", "D0", "D 0", "W xx"] {
        assert!(second::hex::script(KINDS, text).is_err(), "{text}");
    }
}
