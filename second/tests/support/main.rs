//! For those who look at a case: an update imported, answers in words, unfit input.

#[allow(dead_code)] // other tests use the rest
#[path = "../common/mod.rs"]
mod common;

use std::fs;
use std::path::PathBuf;

use common::{hex, second};
use second::book::{Book, ORDERS_ROOM};
use second::script::take_item;
use second::support::explain::explain;
use second::support::import;

/// A window with the title "A", one with a bad show state, a desktop order, and a cut one.
fn update() -> Vec<u8> {
    hex(
        "2E0F0004000011 58000100 0200 4100 2E0C0010000001 58000100 04 \
         2E070002000004 2E0B00000000115800",
    )
}

/// The items of a script, each its letter and payload.
fn items(script: &[u8]) -> Vec<(char, Vec<u8>)> {
    let mut items = Vec::new();
    let mut rest = script;
    while let Some((item, tail)) = take_item(rest) {
        items.push((item.kind.into(), item.payload.to_vec()));
        rest = tail;
    }
    assert!(rest.is_empty());
    items
}

fn letters(script: &[u8]) -> String {
    items(script).iter().map(|(kind, _)| *kind).collect()
}

#[test]
fn an_update_is_cut_and_looked_at() {
    let script = second(&["update-to-script"], &update());
    assert!(script.status.success());
    assert_eq!(letters(&script.stdout), "DSIWDDSIWD");
    let orders: Vec<u8> = items(&script.stdout)
        .into_iter()
        .filter(|(kind, _)| *kind == 'D')
        .flat_map(|(_, order)| order)
        .collect();
    assert_eq!(orders, update());
    let ids = items(&script.stdout)[3].1.clone();
    assert_eq!(ids, hex("58000100"));
}

#[test]
fn an_update_as_hex() {
    let text = b"2E0F0004000011 58000100 # a window\n\n  0200 4100\n";
    let script = second(&["update-to-script", "--hex"], text);
    assert_eq!(letters(&script.stdout), "DSIW");
    let fault = second(&["update-to-script", "--hex"], b"2E\n2\n");
    assert_eq!(fault.status.code(), Some(2));
    assert_eq!(
        fault.stderr,
        b"second: input: line 2: a byte has two hex digits\n"
    );
}

/// An order that finds no room is marked for; one longer than an item is cut.
#[test]
fn long_updates() {
    let order = hex("2E070002000004");
    let script = import::script(&order.repeat(ORDERS_ROOM + 1));
    assert_eq!(letters(&script), "DSI".repeat(ORDERS_ROOM) + "MDSI");
    let script = import::script(&[0x2E; 70_000]);
    assert_eq!(items(&script)[0].1.len(), 0x2E2E);
    let mut long = vec![0x2E, 1, 0];
    long.resize(70_000, 0);
    assert_eq!(items(&import::script(&long))[0].1.len(), 65_535);
    assert!(import::script(&[]).is_empty());
}

/// Icons are looked up by both ids.
#[test]
fn notification_icons_are_looked_at() {
    let script = import::script(&hex("2E0F0000000012 07000000 09000000"));
    assert_eq!(items(&script)[3], ('N', hex("07000000 09000000")));
}

fn explained(script: &[u8]) -> Result<String, String> {
    let output = second(&["session"], script).stdout;
    explain(script, &String::from_utf8(output).expect("a text"))
}

#[test]
fn answers_in_words() {
    let text = explained(&import::script(&update())).expect("an explanation");
    let lines: Vec<&str> = text.lines().collect();
    assert_eq!(
        lines[0],
        "1: deliver 15 bytes: window 65624 new title=\"A\""
    );
    assert_eq!(lines[1], "    done; 1 orders, 15 bytes after the mark");
    assert_eq!(lines[4], "3: list windows and notification icons");
    assert_eq!(lines[5], "    windows=65624 icons=");
    assert_eq!(lines[6], "4: look up window 65624");
    assert!(lines[7].starts_with("    id=65624 owner=0 "));
    assert!(lines[7].contains(" title=\"A\" "));
    assert_eq!(lines[8], "5: deliver 12 bytes: window 65624 show=4");
    let refused =
        "    refused, 8: a field's number is outside its allowed set (show=4, not 0, 2, 3 or 5)";
    assert_eq!(lines[9], refused);
    assert_eq!(lines[10], "6: deliver 7 bytes: desktop hooked=1");
    let cut = "10: deliver 9 bytes: first byte 2E, OrderSize 11, FieldsPresentFlags 11000000";
    assert_eq!(lines[18], cut);
    let refused = "    refused, 3: declared length differs from the bytes given";
    assert_eq!(lines[19], refused);
    assert_eq!(lines.len(), 20);
}

/// Every kind of item and order, offsets below zero, texts that are none, pictures.
#[test]
fn all_kinds_in_words() {
    let text = "E\nM\nB 05000000\nC 020001\nN 0700000009000000\nT 00 0100\nS\n\
        D 2E0B0004000001 07000000\n\
        D 2E130000080011 07000000 9CFFFFFF 00000080\n\
        W 07000000\n\
        D 2E25000000004107000000 02000120 0200 0100 0100 0800 C0 0102030405060708\n\
        D 2E20000000004107000000 02000120 0200 0100 0100 0800 C0 0102030405060708\n\
        C 020001\n\
        D 2E30000F000092 07000000 09000000 04000000 0400 00D84100 01000000 02000000 0200 4200 0200 0A00 03000000 020001\n\
        N 0700000009000000\n\
        D 2E0F0000000022 07000000 09000000\nD 2E0B000000002107000000\n\
        D 2E10003A000004 07000000 01 07000000\n\
        D 2E070001000004\nU 05000000 2E070001000004 2E05\nT 00 0100\nU 00000000\n";
    let script = second(&["hex-session"], text.as_bytes()).stdout;
    let text = explained(&script).expect("an explanation");
    for line in [
        "1: empty",
        "2: mark",
        "3: step back 5",
        "    refused, 13: more steps back than stand after the mark",
        "4: look up cell 1/2",
        "    refused, 9: the id must be in the table and isn't, or must not be and is",
        "6: lend the next call too little",
        "    refused, 1: lent state memory is shorter than needed, or not well formed",
        "9: deliver 19 bytes: window 7 new offset=-100,-2147483648",
        "12: deliver 32 bytes: window 7 small icon into cell 1/2, 2 by 1, 32 bits",
        "    bpp=32 width=2 height=1 mask=1 bytes #450b2edf table=0 bytes color=8 bytes #2804678d",
        "16: deliver 15 bytes: notification icon 7/9 deleted",
        "17: deliver 11 bytes: window 7 deleted",
        "19: deliver 7 bytes: desktop none",
        "20: update of 9 bytes, up to 5 orders",
        "  - 7 bytes: desktop none",
        "  - 2 bytes: 2 bytes, fewer than a header has",
        "    1 orders of 7 bytes granted; the next is refused, 2: fewer than 4 bytes (PDU) or 7 bytes (order); 8 orders, 155 bytes after the mark",
    ] {
        assert!(text.lines().any(|told| told == line), "{line}\n{text}");
    }
    assert!(text.contains(" offset=-100,-2147483648 "), "{text}");
    let notification = "notification icon 7/9 new version=4 tip=\"\u{FFFD}A\" timeout=1 flags=2 \
        text=\"B\" title=\"\u{FFFD}\" state=3 picture=icon of cell 1/2";
    assert!(text.contains(notification), "{text}");
}

/// What lends and looks at the store, and pictures.
#[test]
fn the_store_in_words() {
    let first = second::script::parts::Parts::default().first_of_store();
    let text = format!(
        "L 00c60000 7f100000 00000000 00000000 00000000\nE\n\
         D 2E0B000000001107000000\n\
         D 2E20000000004107000000 02000120 0200 0100 0100 0800 C0 0102030405060708\n\
         W 07000000\n\
         H 01 07000000 00000000 00 01000000 02000000\n\
         H 02 07000000 00000000 03 07000000 09000000\n\
         Z\nT {first:02X} 0100\nM\n"
    );
    let script = second(&["hex-session"], text.as_bytes()).stdout;
    let told = explained(&script).expect("an explanation");
    let lines: Vec<&str> = told.lines().collect();
    for line in [
        "1: lend a store of 12 places, in parts of 50688, 4223, 0, 0, 0 bytes",
        "6: look up whether the small icon of window 7 and cell 1/2 share a place",
        "    shared=1",
        "7: look up whether the big icon of window 7 and notification icon 7/9 share a place",
        "8: print the state memory and the store",
        "9: lend the next call part 0 of the store 1 bytes shorter",
    ] {
        assert!(lines.contains(&line), "{line}\n{told}");
    }
    let small = " small=(2 by 1, 32 bits, 9 bytes #13b396cf) big=none";
    assert!(told.contains(small), "{told}");
    // What rail_session prints for Z is told as its size too.
    let output = second(&["session"], &script).stdout;
    let output = String::from_utf8(output).expect("a text");
    let own = output
        .lines()
        .find(|line| line.starts_with("Z "))
        .expect("a line");
    let size = own.strip_prefix("Z ").expect("a size");
    let theirs = output.replace(own, "Z 00a1ff");
    assert!(told.contains(&format!("    {size}\n")));
    let told = explain(&script, &theirs).expect("an explanation");
    assert!(told.contains("\n    3 bytes\n"), "{told}");
    assert!(explain(&script, &output.replace(own, "Z 0")).is_err());
}

/// 17 has its words, alone and as the last number of an update.
#[test]
fn no_place_in_words() {
    let script = second(&["hex-session"], b"D\nU 01000000 2E\n").stdout;
    let told = explain(&script, "D 17\nU 17 1 11 1 11\n").expect("an explanation");
    assert!(told.contains("    refused, 17: every place is pointed at\n"));
    assert!(told.contains("; the next is refused, 17: every place is pointed at; "));
    for output in ["D 15\nU 0 0 0 0 0\n", "D 2\nU 16 0 0 0 0\n"] {
        assert!(explain(&script, output).is_err());
    }
}

/// Pictures of one form are told apart.
#[test]
fn pictures_that_changed() {
    let icon =
        |byte: &str| format!("D 2E18000000004107000000 02000120 0100 0100 0100 0000 {byte}\n");
    let text = format!("D 2E0B000000001107000000\n{}{}", icon("A1"), icon("A2"));
    let script = second(&["hex-session"], text.as_bytes()).stdout;
    let diff = second(&["diff", "2", "3"], &script).stdout;
    let diff = String::from_utf8(diff).expect("a text");
    let lines: Vec<&str> = diff.lines().collect();
    assert_eq!(lines.len(), 2, "{diff}");
    assert!(
        lines[0].starts_with("cell 1/2: mask=1 bytes #") && lines[0].contains(" became 1 bytes #")
    );
    assert!(
        lines[1].starts_with("window 7: small=(1 by 1, 32 bits, 1 bytes #"),
        "{diff}"
    );
}

/// Newer servers' fields: as carried, as looked up, outside their sets, and their names.
#[test]
fn newer_fields_in_words() {
    let text = "D 2E2000 C100C819 07000000 01000000 02000000 03000000 04000000 0200 4100 01\n\
        D 2E2300 C100C819 07000000 01000000 02000000 03000000 04000000 0200 4100 01 00 01 03\n\
        D 2E1700 00001041 07000000 0000 FF 20 0100 0100 0000 0000\n\
        W 07000000\n\
        H 04 07000000 00000000 00 00000000 00000000\n\
        D 2E0B00 00002001 07000000\n\
        D 2E1200 4100C801 07000000 0100 41 02 02 02 04\n";
    let script = second::hex::script(second::script::session::KINDS, text).expect("a text form");
    let told = explained(&script).expect("an explanation");
    let lines: Vec<&str> = told.lines().collect();
    let fields =
        "margin_x=1,2 margin_y=3,4 overlay_text=\"A\" taskbar=1 server_z=0 app_bar=1 edge=3";
    assert_eq!(
        lines[2],
        format!("2: deliver 35 bytes: window 7 new {fields}")
    );
    assert_eq!(
        lines[4],
        "3: deliver 23 bytes: window 7 overlay icon into cell 255/0, 1 by 1, 32 bits"
    );
    assert!(lines[7].contains(" overlay_text=\"A\" taskbar=1 server_z=0 app_bar=1 edge=3 "));
    assert!(lines[7].ends_with(" overlay=(1 by 1, 32 bits, 0 bytes) pixels=0"));
    let holder = "the overlay icon of window 7";
    assert_eq!(
        lines[8],
        format!("5: look up whether {holder} and cell 0/0 share a place")
    );
    assert_eq!(lines[10], "6: deliver 11 bytes: window 7 overlay=none");
    assert!(lines[13].ends_with(
        "(overlay_text of 1 bytes, not an even number up to 520; taskbar=2, not 0 or 1; \
         server_z=2, not 0 or 1; app_bar=2, not 0 or 1; edge=4, not 0 to 3)"
    ));
    let record = second(&["record"], &script).stdout;
    let listed = second(&["list-record"], &record).stdout;
    let listed = String::from_utf8(listed).expect("a text");
    assert!(
        listed.contains("|WINDOW_ORDER_FIELD_RESIZE_MARGIN_X|WINDOW_ORDER_FIELD_RESIZE_MARGIN_Y|")
    );
    assert!(listed.contains("|WINDOW_ORDER_ICON|WINDOW_ORDER_FIELD_ICON_OVERLAY\n"));
    assert!(listed.contains("|WINDOW_ORDER_FIELD_ICON_OVERLAY_NULL\n"));
}

/// Every refusal 8 of a delivery names a field, and of granted orders none is named.
#[test]
fn fields_outside_their_sets_are_named() {
    let mut named = 0;
    for seed in 0..40 {
        let script = second(&["gen-session", &seed.to_string(), "300"], b"").stdout;
        let told = explained(&script).expect("an explanation");
        let lines: Vec<&str> = told.lines().collect();
        for pair in lines.windows(2) {
            if pair[0].contains(": deliver ") && pair[1].starts_with("    refused, 8: ") {
                assert!(pair[1].ends_with(')'), "{pair:?}");
                named += 1;
            } else {
                assert!(!pair[1].starts_with("    refused") || !pair[1].contains(", not "));
            }
        }
    }
    assert!(named > 100, "{named}");
}

/// Generated scripts, which have every kind of order and refusal, are all told.
#[test]
fn generated_scripts_are_told() {
    for seed in ["0", "1", "2", "19"] {
        let script = second(&["gen-session", seed, "300"], b"").stdout;
        let output = second(&["session"], &script).stdout;
        let text = explain(&script, &String::from_utf8(output.clone()).expect("a text"));
        let told = text.expect("an explanation");
        let answers = told.lines().filter(|line| line.starts_with("    ")).count();
        let lines = output.iter().filter(|&&byte| byte == b'\n').count();
        assert_eq!(answers, lines);
    }
}

#[test]
fn script_and_output_that_part() {
    let script = import::script(&update());
    let output = String::from_utf8(second(&["session"], &script).stdout).expect("a text");
    let cut: String = output
        .lines()
        .take(2)
        .map(|line| format!("{line}\n"))
        .collect();
    assert_eq!(
        explain(&script, &cut),
        Err("the output ends before item 3 of the script".into())
    );
    let other = output.replacen('W', "N", 1);
    let fault = explain(&script, &other).expect_err("a fault");
    assert!(fault.starts_with("line 4 is not the answer to item 4 of the script: \"N 0 1 15"));
    let more = output + "M 0 0 0\n";
    let fault = explain(&script, &more).expect_err("a fault");
    assert!(fault.starts_with("line 11 is not the answer to item 11"));
    let spoiled = "D 15\n";
    assert!(explain(&script, spoiled).is_err());
}

#[test]
fn explaining_by_command_line() {
    let path = PathBuf::from(env!("CARGO_TARGET_TMPDIR")).join("explained-script");
    let script = import::script(&update());
    fs::write(&path, &script).expect("a file");
    let output = second(&["session"], &script).stdout;
    let path = path.to_str().expect("a name");
    let told = second(&["explain", path], &output);
    assert!(told.status.success() && told.stdout.starts_with(b"1: deliver 15 bytes"));
    let fault = second(&["explain", path], b"");
    assert_eq!(fault.status.code(), Some(2));
    let missing = second(&["explain", "no such file"], b"");
    assert_eq!(missing.status.code(), Some(2));
}

/// What is wrong with an input that is no script stands on standard error, and the
/// output is as before.
#[test]
fn unfit_input_is_named() {
    let usage = "usage: second session < script (second --help)\n";
    for (input, fault) in [
        (&update()[..], "item 1, at byte 0: 2E is no kind of item (E D U M B W N C S I H O V T X L Z). It may be a raw update: second update-to-script makes a script of it"),
        (b"M\0\0M\x01", "item 2, at byte 3: item M is cut"),
        (b"M\0\0B\x02\0\x01\0", "item 2, at byte 3: item B cannot carry these 2 bytes"),
    ] {
        let output = second(&["session"], input);
        assert!(output.stdout.ends_with(b"bad item\n"));
        let said = String::from_utf8(output.stderr).expect("a text");
        assert_eq!(said, format!("second: {fault}\n{usage}"));
    }
    let output = second(&["pdu"], b"R\x01\0\0P\x01\0\0");
    let said = String::from_utf8(output.stderr).expect("a text");
    let fault = "second: item 2, at byte 4: item P cannot carry these 1 bytes\n";
    assert_eq!(
        said,
        format!("{fault}usage: second pdu < script (second --help)\n")
    );
    assert!(second(&["session"], b"M\0\0").stderr.is_empty());
    assert!(second(&["pdu"], b"R\0\0").stderr.is_empty());
}

/// The help names the modes.
#[test]
fn help() {
    let help = String::from_utf8(second(&["--help"], b"").stdout).expect("a text");
    for name in ["second update-to-script [--hex]", "second explain SCRIPT"] {
        assert!(help.contains(name), "{name}");
    }
}

/// The book that imports agrees with the script run again.
#[test]
fn imported_orders_stand() {
    let mut book = Book::new();
    let script = import::script(&update());
    let granted = items(&script)
        .into_iter()
        .filter(|(kind, order)| *kind == 'D' && book.deliver(order).is_ok())
        .count();
    assert_eq!(granted, 2);
}

/// What docs/FORMATS.md shows of an explanation is what is told.
#[test]
fn the_documents_lines_are_told() {
    let document = include_str!("../../../docs/FORMATS.md");
    let update = include_bytes!("../../../tests/guide/update.txt");
    let script = second(&["update-to-script", "--hex"], update).stdout;
    let told = explained(&script).expect("an explanation");
    let shown: Vec<&str> = document
        .split("`explain` says among others:")
        .nth(1)
        .expect("the document shows some lines")
        .lines()
        .skip(2)
        .take_while(|line| !line.is_empty())
        .map(|line| &line[4..])
        .collect();
    assert_eq!(shown.len(), 4);
    for line in shown {
        assert!(told.lines().any(|told| told == line), "{line}");
    }
}

/// A script with a mark in it: a window; then its show state and a desktop order.
fn script_with_mark() -> Vec<u8> {
    let mut script = Vec::new();
    let mut add = |kind, payload: &[u8]| second::script::push_item(&mut script, kind, payload);
    add(b'D', &hex("2E0F0004000011 58000100 0200 4100"));
    add(b'M', &[]);
    add(b'D', &hex("2E0C0010000001 58000100 05"));
    add(b'D', &hex("2E070002000004"));
    script
}

#[test]
fn a_record_of_a_script_is_listed() {
    let record = second(&["record"], &script_with_mark());
    assert!(record.status.success());
    let head = "0200 12000000 0C000000 1E000000 07000000";
    let bodies = "2E0C0010000001 58000100 05 2E070002000004";
    assert_eq!(record.stdout, hex(&format!("{head} {bodies}")));

    // delivered to an emptied state, the window is not there
    let listed = second(&["list-record"], &record.stdout);
    assert_eq!(
        String::from_utf8(listed.stdout).unwrap(),
        "order offset size number kind ids flags\n\
         1 18 12 9 window 65624 WINDOW_ORDER_TYPE_WINDOW|WINDOW_ORDER_FIELD_SHOW\n\
         2 30 7 0 desktop - WINDOW_ORDER_TYPE_DESKTOP|WINDOW_ORDER_FIELD_DESKTOP_HOOKED\n"
    );

    // to the state at the mark it is
    let before = std::env::temp_dir().join(format!("second-record-{}", std::process::id()));
    fs::write(&before, &script_with_mark()[..18]).unwrap();
    let listed = second(
        &["list-record", "--after", before.to_str().unwrap()],
        &record.stdout,
    );
    fs::remove_file(&before).unwrap();
    let text = String::from_utf8(listed.stdout).unwrap();
    assert!(
        text.lines()
            .nth(1)
            .unwrap()
            .starts_with("1 18 12 0 window 65624 "),
        "{text}"
    );
}

#[test]
fn a_refused_record_is_told() {
    let listed = second(&["list-record"], &[1, 0]);
    assert_eq!(listed.status.code(), Some(1));
    assert!(listed.stdout.is_empty());
    let text = String::from_utf8(listed.stderr).unwrap();
    assert!(
        text.starts_with("second: refused, 18: fewer than 2 bytes"),
        "{text}"
    );
}

#[test]
fn bodies_that_are_no_orders_are_listed() {
    let record = hex("0300 1A000000 00000000 1A000000 07000000 21000000 0F000000 2E070000000003 2E0F00FFFFFF02 01000000 02000000");
    let listed = second(&["list-record"], &record);
    let text = String::from_utf8(listed.stdout).unwrap();
    let lines: Vec<&str> = text.lines().collect();
    assert_eq!(lines[1], "1 26 0 2 unknown - -");
    assert_eq!(
        lines[2],
        "2 26 7 4 unknown - WINDOW_ORDER_TYPE_WINDOW|WINDOW_ORDER_TYPE_NOTIFY"
    );
    let names = "WINDOW_ORDER_TYPE_NOTIFY|WINDOW_ORDER_FIELD_NOTIFY_VERSION|\
                 WINDOW_ORDER_FIELD_NOTIFY_TIP|WINDOW_ORDER_FIELD_NOTIFY_INFO_TIP|\
                 WINDOW_ORDER_FIELD_NOTIFY_STATE|00FFFFF0";
    assert_eq!(lines[3], format!("3 33 15 5 notification 1/2 {names}"));
}
