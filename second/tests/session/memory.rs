//! Memory: how the store is lent, and what `Z` prints of it.

use super::{run_text, script_of, store_part};
use second::script::dump::told;
use second::script::parts::Parts;

/// What the desktop state of an emptied table prints after its number's letter.
const DESKTOP: &str = " 0 0 0 active=0 hooked=0 syncing=0 stack= shown=0 pixels=0";

/// A part of the store lent shorter: a broken place does no harm, a place that is missing
/// is refused for, and the shortage is for one call.
#[test]
fn parts_of_the_store_lent_shorter() {
    let run = |text: &str| {
        let named = (0..5).fold(text.to_string(), |text, part| {
            text.replace(&format!("P{part}"), &store_part(part))
        });
        run_text(&named).replace(DESKTOP, " 0")
    };
    let lend = "L 00c60000 7f100000 00000000 00000000 00000000\nE\n";
    for (items, lines) in [
        ("T P1 0100\nS", "S 0\n"),
        ("T P1 ffff\nS", "S 0\n"),
        ("T P2 0100\nS", "S 0\n"),
        ("T P0 0100\nS\nS", "S 1\nS 0\n"),
        ("T P0 ffff\nS\nS", "S 1\nS 0\n"),
        ("T P0 0100\nV 0000\nS\nS", "V 0 0 bodies=\nS 1\nS 0\n"),
        ("T P0 0100\nE\nS", "E 1\nS 0\n"),
        // The last one before the call counts.
        ("T P0 0100\nT P1 0100\nS", "S 0\n"),
        ("T P1 0100\nT P0 0100\nS", "S 1\n"),
        ("T 00 0100\nT P1 0100\nS", "S 0\n"),
    ] {
        assert_eq!(
            run(&format!("{lend}{items}")),
            format!("E 0 0 0\n{lines}"),
            "{items}"
        );
    }
    // At first the parts have 15, 15, 15, 15 and 4 places, to the byte.
    for (items, lines) in [
        ("T P4 0100\nS\nS", "S 1\nS 0\n"),
        ("T P0 0100\nS\nS", "S 1\nS 0\n"),
        (
            "T P4 0100\nE\nS\nT P4 0100\nS\nT P4 8110\nS",
            "E 0 0 0\nS 0\nS 0\nS 1\n",
        ),
        ("T P4 0042\nS\nT P4 0000\nS", "S 1\nbad item\n"),
        ("T P4 ffff\nE\nS", "E 0 0 0\nS 0\n"),
    ] {
        assert_eq!(run(items), lines, "{items}");
    }
}

#[test]
fn memory_is_printed_by_its_size() {
    let size = Parts::default().size();
    assert_eq!(
        run_text("Z\nL 00c60000 7f100000 00000000 00000000 00000000\nT 00 0100\nZ\nS\n"),
        format!(
            "Z {} bytes\nZ {} bytes\nS 1\n",
            size + 64 * 4_224,
            size + 12 * 4_224
        )
    );
    let most = run_text(&format!("L {}\nZ\n", "00000100 ".repeat(5)));
    assert_eq!(most, format!("Z {} bytes\n", size + 64 * 4_224));
    assert_eq!(
        run_text("L 01000100 00000000 00000000 00000000 00000000"),
        "bad item\n"
    );
}

/// Another program's memory is told by its size, and by what must not have changed.
#[test]
fn memory_that_changed() {
    let parts = Parts::parse("2,1").expect("lengths");
    let lend = "L 00c60000 00000000 80100000 00000000 00000000";
    let size = 3 + 13 * 4_224;
    let memory = |changed: usize| {
        let mut bytes = vec!["00"; size];
        if changed < size {
            bytes[changed] = "a1";
        }
        format!("Z {}\n", bytes.concat())
    };
    let same = usize::MAX;
    let told = |between: &str, line: &str, changed: usize| {
        let script = script_of(&format!(
            "L 00c60000 00000000 00000000 00000000 00000000\nE\n{lend}\nZ\n{between}\nZ"
        ));
        let printed = format!("E 0 0 0\n{}{line}{}", memory(same), memory(changed));
        let told = told(&script, &parts, printed.as_bytes());
        let told = String::from_utf8(told).expect("a text");
        let lines: Vec<&str> = told.lines().collect();
        assert_eq!(lines[1], format!("Z {size} bytes"));
        lines[lines.len() - 1].to_string()
    };
    let alike = format!("Z {size} bytes");
    let other = |at: usize| format!("Z {size} bytes, and byte {at} is not as it was");
    // Refused calls and lookups change nothing.
    for (between, line) in [("S", "S 0 0 0\n"), ("D", "D 2\n"), ("B 01000000", "B 13\n")] {
        assert_eq!(told(between, line, same), alike);
        assert_eq!(told(between, line, 1), other(1));
        assert_eq!(told(between, line, size - 1), other(size - 1));
    }
    // Others change no place past those that were fixed.
    for (between, line) in [("M", "M 0 0 0\n"), ("D 2E070002000004", "D 0 1 7\n")] {
        assert_eq!(told(between, line, 1), alike);
        assert_eq!(told(between, line, 2 + 12 * 4_224), alike);
        assert_eq!(told(between, line, 3 + 12 * 4_224), other(3 + 12 * 4_224));
    }
    assert_eq!(told("E", "E 0 0 0\n", size - 1), alike);
    assert_eq!(told("X 02 00000000 01", "", size - 1), alike);
    assert_eq!(told("X 00 00000000 01", "", 0), alike);
    assert_eq!(told("X 00 00000000 01", "", size - 1), other(size - 1));
    assert_eq!(told(lend, "", 0), alike);
}

/// What is no memory stays as it was printed, and so do lines past the script.
#[test]
fn lines_that_are_no_memory() {
    let parts = Parts::default();
    let script = script_of("Z\nM\nZ");
    for printed in [
        "Z 1 bytes\nM 0 0 0\nZ 0A\n",
        "Z\nM 0 0 0\nZ 0",
        "",
        "bad item\nmore\n\n",
        "Z g0\n",
    ] {
        let told = told(&script, &parts, printed.as_bytes());
        assert_eq!(told, printed.as_bytes());
    }
    let told = told(&script, &parts, b"Z 00ff\nM 0 0 0\nZ \n");
    assert_eq!(told, b"Z 2 bytes\nM 0 0 0\nZ 0 bytes\n");
}
