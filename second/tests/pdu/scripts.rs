//! The script format, its text form, and how differences are told.

use super::{hex, run, run_text, script_of};
use second::compare::difference;
use second::pdu::{write, Record};
use second::script::pdu::{run_with, WriteFn, Writers};

const HANDSHAKE: &str = "52 0800 0500 0800 B11D0000";
const GRANTED: &str = "R 0 type=0005 build=7601\n";

#[test]
fn an_empty_script_prints_nothing() {
    assert_eq!(run(&[]), "");
}

#[test]
fn cut_items_are_bad() {
    for cut in [
        "52",
        "50",
        "52 08",
        "52 0100",
        "52 0800 0500 0800 B11D00",
        "50 FFFF 0000",
    ] {
        let script = hex(&format!("{HANDSHAKE} {cut}"));
        assert_eq!(run(&script), format!("{GRANTED}bad item\n"), "{cut}");
    }
}

#[test]
fn unknown_kinds_are_bad() {
    for kind in (0..=u8::MAX).filter(|kind| !b"RPrpKE".contains(kind)) {
        let script = [&[kind, 0, 0][..], &hex(HANDSHAKE)].concat();
        assert_eq!(run(&script), "bad item\n");
    }
}

#[test]
fn a_bad_item_ends_the_run() {
    let script = hex(&format!("{HANDSHAKE} 50 0000 {HANDSHAKE}"));
    assert_eq!(run(&script), format!("{GRANTED}bad item\n"));
}

#[test]
fn write_items_without_a_listed_form_are_bad() {
    for payload in [
        "",
        "10",
        "1000",
        "1000 05",
        "1000 0500",
        // Types that are not listed.
        "1000 0700 00000000",
        "1000 0D00 00000000",
        "1000 1400 00000000 00000000",
        // Numbers that are no setting; a setting with what another carries.
        "1000 0300 00000000",
        "1000 0300 99000000 00",
        "1000 0300 25000100 00",
        "1000 0300 25000000 0000",
        "1000 0300 2F000000 00",
        "1000 0300 250000",
        "1000 0300 43000000 00000000 0200 41",
        "1000 0005 00000000",
        // Fields cut or too many.
        "1000 0500 000000",
        "1000 0500 00000000 00",
        "1000 0200 00000000",
        "1000 0900 00000000 0100 0100 0000 0000",
        // Strings that do not fill.
        "1000 0100 0000 0200 0000 0000 41",
        "1000 0100 0000 0200 0000 0000 414243",
        "1000 0100 0000 0280 0080 0000 4142",
        "1000 0F00 00000000 0200 41",
        "1000 0F00 00000000 0000 41",
        "1000 8000 0000 0000 00000000 0200 41",
        "1000 8000 0000 0000 00000000 0000 0100 41",
        // Memory over 17,408.
        "0144 0500 00000000",
        "FFFF 0500 00000000",
    ] {
        assert_eq!(run_text(&format!("P {payload}")), "bad item\n", "{payload}");
    }
    assert_eq!(run_text("P 0044 0500 00000000"), "P 0 0500080000000000\n");
    assert_eq!(run_text("P 0000 0500 00000000"), "P 14\n");
}

#[test]
fn a_record_to_be_written_is_judged_by_the_call() {
    let mut text = "P 0044 0F00 01000000 0902 ".to_string();
    text += &"41".repeat(521);
    assert_eq!(run_text(&text), "P 8\n");
    assert_eq!(run_text("P 0000 0200 01000000 02"), "P 8\n");
    assert_eq!(run_text("P 0000 0100 0000 0000 0000 0000"), "P 8\n");
}

fn touches_on_refusal(_: &Record<'_>, out: &mut [u8]) -> Result<usize, u8> {
    if let Some(last) = out.last_mut() {
        *last = 0;
    }
    Err(8)
}

fn touches_past_the_end(record: &Record<'_>, out: &mut [u8]) -> Result<usize, u8> {
    let size = write(record, out)?;
    if let Some(next) = out.get_mut(size) {
        *next = 0;
    }
    Ok(size)
}

fn says_too_much(_: &Record<'_>, out: &mut [u8]) -> Result<usize, u8> {
    Ok(out.len() + 1)
}

#[test]
fn changed_output_memory_ends_the_run() {
    let text = "P 0800 0500 00000000\nP 0900 0500 00000000\nR\nR";
    let script = script_of(text).expect("a text form");
    let print = |plain: WriteFn| {
        let mut output = Vec::new();
        let writers = Writers {
            plain,
            counter: says_too_much,
        };
        run_with(writers, &script, &mut output).expect("memory takes all");
        String::from_utf8(output).expect("a text")
    };
    let granted = "P 0 0500080000000000\n";
    assert_eq!(print(write), format!("{granted}{granted}R 2\nR 2\n"));
    assert_eq!(print(touches_on_refusal), "output memory changed\n");
    assert_eq!(print(says_too_much), "output memory changed\n");
    assert_eq!(
        print(touches_past_the_end),
        format!("{granted}output memory changed\n")
    );
}

#[test]
fn both_writers_are_called() {
    let script = script_of("P 0800 0500 00000000\np 0800 0500 00000000").expect("a text form");
    let mut output = Vec::new();
    let writers = Writers {
        plain: |_, _| Err(8),
        counter: |_, _| Err(20),
    };
    run_with(writers, &script, &mut output).expect("memory takes all");
    assert_eq!(output, b"P 8\np 20\n");
}

#[test]
fn text_form() {
    let text = "\n  # a comment\nR 05 00 # R 1\n\tP  aB\tcD0 1\r\nR\n R #\n";
    let script = script_of(text);
    assert_eq!(
        script,
        Ok(hex("52 0200 0500 50 0300 ABCD01 52 0000 52 0000"))
    );
}

#[test]
fn faults_in_the_text_form_are_told_with_their_line() {
    for (text, line) in [
        ("R 0", 1),
        ("R 00\nZ 00", 2),
        ("\n\nR 0g", 3),
        ("R00", 1),
        ("k 00", 1),
        ("é", 1),
    ] {
        let fault = script_of(text).expect_err("a fault");
        assert!(fault.starts_with(&format!("line {line}: ")), "{fault}");
    }
    assert!(script_of(&format!("R {}", "00".repeat(65_535))).is_ok());
    assert!(script_of(&format!("R {}", "00".repeat(65_536))).is_err());
}

#[test]
fn the_first_difference_is_told_with_its_item() {
    let script = hex("52 0000 50 0100 AB 52 02");
    let told =
        |ours: &str, theirs: &str| difference(&script, b"", ours.as_bytes(), theirs.as_bytes());
    assert_eq!(told("R 2\nR 3\n", "R 2\nR 3\n"), None);
    assert_eq!(
        told("R 2\nP 8\n", "R 2\nP 14\n").as_deref(),
        Some("item 2 P ab\n  expected: P 8\\n\n  printed:  P 14\\n")
    );
    assert_eq!(
        told("R 2\nP 8\nbad item\n", "R 2\nP 8\n").as_deref(),
        Some("item 3 (cut) 5202\n  expected: bad item\\n\n  printed:  (no line)")
    );
    assert_eq!(
        told("R 2\n", "R 2").as_deref(),
        Some("item 1 R \n  expected: R 2\\n\n  printed:  R 2")
    );
}
