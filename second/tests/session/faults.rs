//! Faults in the state memory: the scripts, and what is found in an output.

use super::{common, script_of, store_part};
use second::fault::{check, Met, Tally};
use second::generate::fault::{script, Faulty};
use second::script::parts::{Parts, FIRST_LENGTHS};
use second::script::session::{call, Call, Session};
use second::script::take_item;

/// The calls of a script, all of which have a listed form.
fn calls(script: &[u8]) -> Vec<Call<'_>> {
    let mut calls = Vec::new();
    let mut rest = script;
    while !rest.is_empty() {
        let (item, tail) = take_item(rest).expect("a whole item");
        calls.push(call(item, &Parts::default()).expect("a good item"));
        rest = tail;
    }
    calls
}

#[test]
fn the_same_seed_gives_the_same_script() {
    for seed in [0, 1, 19, u64::MAX] {
        let make = |seed| script(seed, 100, &Parts::default());
        assert_eq!(make(seed), make(seed));
        assert_ne!(make(seed), make(seed ^ 1));
    }
}

#[test]
fn faults_stand_before_the_last_emptying() {
    let (mut before, mut faults) = (0, 0);
    for seed in 0..100 {
        let Faulty { script, last_part } = script(seed, 60, &Parts::default());
        let (first, last) = script.split_at(last_part);
        let first = calls(first);
        before += first.len();
        let is_fault = |call: &&Call<'_>| matches!(call, Call::Fault | Call::FaultStore(..));
        faults += first.iter().filter(is_fault).count();
        let last = calls(last);
        assert_eq!(last[..2], [Call::Lend(FIRST_LENGTHS), Call::Empty]);
        assert!(!last.iter().any(|call| is_fault(&call)));
        // The emptying is lent the whole.
        let end = first.iter().rev().find(|call| !is_fault(call));
        let is_short = matches!(end, Some(Call::Shorten | Call::ShortenStore(..)));
        assert!(!is_short, "seed {seed}");
    }
    assert!((before / 14..before / 8).contains(&faults), "{faults}");
}

/// A fault is aimed, or anywhere; each changes a bit, in the store of what is lent.
#[test]
fn faults_are_in_every_part() {
    let parts = Parts::default();
    let state = parts.lengths().len();
    let (mut aimed, mut elsewhere) = ([0; 32], [0; 32]);
    let figures = parts.figures().expect("known parts");
    let (mut stores_alone, mut figures_alone) = (0, 0);
    for seed in 0..200 {
        let faulty = script(seed, 60, &parts);
        let mut session = Session::default();
        let (mut in_state, mut in_store, mut in_figures) = (0, 0, 0);
        let mut rest = faulty.script.as_slice();
        while let Some((item, tail)) = take_item(rest) {
            if let (b'X', &[part, a, b, c, d, value]) = (item.kind, item.payload) {
                let offset = u32::from_le_bytes([a, b, c, d]);
                let part = usize::from(part);
                let length = match part.checked_sub(state) {
                    None => parts.lengths()[part],
                    Some(part) => session.lengths()[part],
                };
                assert!(value > 0 && offset < length);
                let count = if offset < 500 {
                    &mut aimed
                } else {
                    &mut elsewhere
                };
                count[part] += 1;
                in_state += u32::from(part < state);
                in_store += u32::from(part >= state);
                in_figures += u32::from(part == 0 && figures.contains(&offset));
            }
            session.make(&call(item, &parts).expect("a good item"));
            rest = tail;
        }
        stores_alone += u32::from(in_state == 0 && in_store > 0);
        figures_alone += u32::from(in_figures > 0 && in_figures == in_state + in_store);
    }
    assert!(aimed[0] > 50 && aimed[state - 1] > 50, "{aimed:?}");
    assert!(elsewhere[1..state].iter().all(|&n| n > 10), "{elsewhere:?}");
    let in_store = |part: usize| aimed[part] + elsewhere[part];
    assert!(
        (state..state + 5).all(|part| in_store(part) > 10),
        "{elsewhere:?}"
    );
    assert!(stores_alone > 5, "{stores_alone}");
    assert!(figures_alone > 5, "{figures_alone}");
}

const FIRST: &str = "D 2E0700 02000004\nX 00 00000000 01\nS\nX 01 05000000 FF\n\
                     W 01000000\nB 01000000\nT 01 0100\nM\nT 00 0100\nE\n";
const LAST: &str = "E\nM\nW 01000000\n";

/// What may be printed for these.
const PRINTED: &str = "D 0 1 7\nS 1\nW 9\nB 0 0 0\nM 1\nE 1\nE 0 0 0\nM 0 0 0\nW 9\n";

fn checked(printed: &str) -> Result<Met, String> {
    let faulty = Faulty {
        script: script_of(&[FIRST, LAST].concat()),
        last_part: script_of(FIRST).len(),
    };
    check(&faulty, &Parts::default(), printed.as_bytes())
}

#[test]
fn a_good_output() {
    let met = Met {
        items: 13,
        faults: 2,
        lent_short: 2,
        unfit: 1,
        granted_after_fault: 1,
        ..Met::default()
    };
    assert_eq!(checked(PRINTED), Ok(met));
    // A fault may leave any of the listed numbers.
    for (line, other) in [
        ("S 1", "S 0 9 9 active=7 hooked=1 syncing=0 stack="),
        ("W 9\nB", "W 1\nB"),
        ("B 0 0 0", "B 13"),
    ] {
        assert!(checked(&PRINTED.replacen(line, other, 1)).is_ok());
    }
}

#[test]
fn a_bad_output_is_found() {
    for (line, other, told) in [
        ("D 0 1 7", "D 13", "item 1 D 2e070002000004"),
        // Before a fault the book is known.
        ("D 0 1 7", "D 12", "the book: D 0 1 7"),
        ("D 0 1 7", "S 0 1 7", "item 1 D"),
        ("D 0 1 7", "D 0", "item 1 D"),
        ("S 1", "S 1 0 0", "item 3 S"),
        ("S 1", "S 9", "item 3 S"),
        ("W 9", "W 10", "item 5 W 01000000"),
        ("B 0 0 0", "B 9", "item 6 B 01000000"),
        ("B 0 0 0", "bad item", "item 6 B 01000000"),
        ("M 1", "M 0 0 0", "item 8 M"),
        ("E 1", "E 0 0 0", "item 10 E"),
        ("E 0 0 0", "E 1", "item 11 E"),
        ("E 0 0 0", "E 0 1 7", "item 11 E"),
        ("M 0 0 0", "M 1", "item 12 M"),
        ("M 0 0 0\nW 9", "M 0 0 0\nW 1", "item 13 W 01000000"),
        ("M 0 0 0\nW 9\n", "M 0 0 0\n", "(no line)"),
        ("M 0 0 0\nW 9\n", "M 0 0 0\nW 9", "item 13 W"),
        ("M 0 0 0\nW 9\n", "M 0 0 0\nW 9\nW 9\n", "after all items"),
        ("M 0 0 0\nW 9\n", "(signal: 6)\n", "item 12 M"),
    ] {
        let printed = PRINTED.replacen(line, other, 1);
        assert_ne!(printed, PRINTED);
        let text = checked(&printed).expect_err(other);
        assert!(text.contains(told), "{other}: {text}");
    }
}

const PICTURE: &str = "D 2E0B00 00000011 58000100\n\
    D 2E1A00 00000041 58000100 0000 00 20 0100 0100 0100 0200 A1 B1B2\n";

/// After a fault in the store alone, lines may differ in the bytes of pictures.
#[test]
fn faults_in_the_store_change_pictures_alone() {
    let items = format!(
        "{PICTURE}X {} 00000000 01\nW 58000100\nC 0000 00\nM\nE\nM\n",
        store_part(0)
    );
    let script = script_of(&items);
    let faulty = Faulty {
        last_part: script.len(),
        script,
    };
    let window =
        "W 0 2 37 id=65624 owner=0 style=0 ext=0 show=0 title= client=0,0 client_size=0,0 \
        margin_x=0,0 margin_y=0,0 rp=0 root=0 offset=0,0 delta=0,0 size=0,0 rects= visible=0,0 vis_rects= \
        overlay_text= taskbar=0 server_z=0 app_bar=0 edge=0 \
        small=32,1,1,a1,,b1b2 big=none overlay=none pixels=0";
    let cell = "C 0 2 37 bpp=32 width=1 height=1 mask=a1 table= color=b1b2";
    let printed = format!("D 0 1 11\nD 0 2 37\n{window}\n{cell}\nM 0 0 0\nE 0 0 0\nM 0 0 0\n");
    let checked = |old: &str, new: &str| {
        assert!(printed.contains(old), "{old}");
        check(
            &faulty,
            &Parts::default(),
            printed.replacen(old, new, 1).as_bytes(),
        )
    };
    let met = checked("D", "D").expect("a good output");
    assert_eq!((met.store_faults, met.granted_after_store_fault), (1, 3));
    assert_eq!(met.granted_after_fault, 0);
    for (old, new) in [
        ("a1,,b1b2", "a0,,b1b2"),
        ("a1,,b1b2", "00,,ffff"),
        ("color=b1b2", "color=b3b2"),
        ("mask=a1", "mask=a2"),
    ] {
        assert!(checked(old, new).is_ok(), "{new}");
    }
    for (old, new) in [
        ("small=32,1,1", "small=32,1,2"),
        ("small=32,1,1,a1,,b1b2", "small=none"),
        ("big=none", "big=32,1,1,a1,,b1b2"),
        ("a1,,b1b2", "a1,b1,b2"),
        ("a1,,b1b2", "a1,,b1"),
        ("rp=0", "rp=1"),
        ("pixels=0", "pixels=1"),
        ("bpp=32", "bpp=24"),
        ("color=b1b2", "color="),
        ("M 0 0 0", "M 1"),
        ("D 0 2 37", "D 17"),
    ] {
        assert!(checked(old, new).is_err(), "{new}");
    }
}

/// What is lent too little is known after any fault; the number that was fixed is not.
#[test]
fn a_store_lent_too_short_after_a_fault() {
    let lend = |places: u32| {
        let length = (places * 4_224).swap_bytes();
        format!("L {length:08X} 00000000 00000000 00000000 00000000\n")
    };
    let text = format!("X 00 00000000 01\n{}S\n{}S\nE\nM\nZ\n", lend(11), lend(12));
    let script = script_of(&text);
    let faulty = Faulty {
        last_part: script.len(),
        script,
    };
    let parts = Parts::parse("1").expect("a length");
    let memory = "00".repeat(1 + 12 * 4_224);
    let check = |lines: &str| check(&faulty, &parts, format!("{lines}\nZ {memory}\n").as_bytes());
    let state = "S 0 0 0 active=0 hooked=0 syncing=0 stack= shown=0 pixels=0";
    assert!(check("S 1\nS 1\nE 0 0 0\nM 0 0 0").is_ok());
    assert!(check(&format!("S 1\n{state}\nE 0 0 0\nM 0 0 0")).is_ok());
    assert!(check(&format!("{state}\nS 1\nE 0 0 0\nM 0 0 0")).is_err());
    assert!(check("S 1\nS 1\nE 1\nM 1").is_err());
    assert!(check("S 1\nS 1\nE 0 0 0\nM 0 0 0\nZ 00").is_err());
}

#[test]
fn a_run_without_faults_met_does_not_hold() {
    let met = checked(PRINTED).expect("a good output");
    let tally = Tally {
        scripts: 1,
        wrong: 0,
        met,
    };
    assert!(tally.holds());
    assert!(!Tally { wrong: 1, ..tally }.holds());
    let met = Met { unfit: 0, ..met };
    assert!(!Tally { met, ..tally }.holds());
    let met = Met {
        granted_after_fault: 0,
        ..tally.met
    };
    assert!(!Tally { met, ..tally }.holds());
    let met = Met {
        store_faults: 1,
        ..tally.met
    };
    assert!(!Tally { met, ..tally }.holds());
    let met = Met {
        figure_faults: 1,
        ..tally.met
    };
    assert!(!Tally { met, ..tally }.holds());
    assert!(!Tally::default().holds());
}

/// The second program ends at the first fault, so its lines are too few.
#[cfg(unix)]
#[test]
fn a_program_that_ends_at_a_fault() {
    let line = format!("exec '{}' session 2>&-", env!("CARGO_BIN_EXE_second"));
    let path = common::program::program("session-ends", &line);
    let path = path.to_str().expect("a path");
    let output = common::second(&["fault-session", path, "15", "24", "60"], b"");
    let text = String::from_utf8(output.stdout).expect("a text");
    assert_eq!(text.matches("\n  printed:  (no line)\n").count(), 10);
    assert!(text.ends_with("\nran 10 scripts, 0 items, 0 faults: 10 wrong\n"));
    assert_eq!(output.status.code(), Some(1));
}
