//! The text of lookups, with distinct values in every field.

use super::run_text;

#[test]
fn a_window() {
    let text = "\
D 2E7F00 1EDF0711 58000100 01000000 02000000 03000000 05 0400 41004200 04000000 05000000 06000000 07000000 01 \
  08000000 09000000 0A000000 0B000000 0C000000 0D000000 0E000000 \
  0200 0100020003000400 FFFF060007000800 0F000000 FFFFFFFF 0300 0900080007000600 0500040003000200 0100000000000080
D 2E18 00 00200041 58000100 0500 01 18 0200 0300 0100 0000 99
D 2E0E00 00000081 58000100 0500 01
W 58000100
W 57000100";
    let output = run_text(text);
    let lines: Vec<&str> = output.lines().collect();
    assert_eq!(
        lines,
        [
            "D 0 1 127",
            "D 0 2 151",
            "D 0 3 165",
            "W 0 3 165 id=65624 owner=1 style=2 ext=3 show=5 title=41004200 client=4,5 \
             client_size=6,7 margin_x=0,0 margin_y=0,0 rp=1 root=8 offset=9,10 delta=11,12 size=13,14 \
             rects=1,2,3,4;65535,6,7,8 visible=15,-1 \
             vis_rects=9,8,7,6;5,4,3,2;1,0,0,32768 overlay_text= taskbar=0 server_z=0 app_bar=0 edge=0 small=24,2,3,99,, big=24,2,3,99,, overlay=none \
             pixels=0",
            "W 9",
        ]
    );
}

#[test]
fn small_big_and_overlay_icons() {
    let text = "\
D 2E0B00 00000011 58000100
D 2E1700 00000041 58000100 0200 00 20 0100 0100 0000 0000
W 58000100
D 2E1700 00200041 58000100 0400 01 20 0100 0100 0000 0000
D 2E1700 00001041 58000100 0500 01 20 0200 0100 0000 0000
W 58000100";
    let output = run_text(text);
    let ends: Vec<&str> = output
        .lines()
        .filter_map(|line| line.split_once("edge=0 "))
        .map(|(_, end)| end)
        .collect();
    assert_eq!(
        ends,
        [
            "small=32,1,1,,, big=none overlay=none pixels=0",
            "small=32,1,1,,, big=32,1,1,,, overlay=32,2,1,,, pixels=0"
        ]
    );
}

#[test]
fn a_notification_icon() {
    let text = "\
D 2E4600 0F000052 58000100 07000000 03000000 0200 4100 04000000 05000000 0400 42004300 0600 440045004600 06000000 \
  0300 00 08 0200 0300 0400 0100 0200 AA BBBBBBBB CCDD
N 58000100 07000000
C 0300 00
N 07000000 58000100
N 58000100 06000000";
    let output = run_text(text);
    let lines: Vec<&str> = output.lines().collect();
    assert_eq!(
        lines,
        [
            "D 0 1 70",
            "N 0 1 70 window=65624 icon=7 version=3 tip=4100 timeout=4 flags=5 text=42004300 \
             title=440045004600 state=6 picture=8,2,3,aa,bbbbbbbb,ccdd",
            "C 0 1 70 bpp=8 width=2 height=3 mask=aa table=bbbbbbbb color=ccdd",
            "N 9",
            "N 9",
        ]
    );
}

/// Every cell is told apart; those outside the caches meet 9.
#[test]
fn cells() {
    let mut text = "D 2E0B00 00000011 58000100\n".to_string();
    let mut expected = Vec::new();
    for cache in 0..2 {
        for entry in 0..6 {
            let side = 1 + 6 * cache + entry;
            text += &format!(
                "D 2E1700 00000041 58000100 {entry:02X}00 {cache:02X} 10 {side:02X}00 0100 0000 0000\n"
            );
            expected.push(format!("bpp=16 width={side} height=1 mask= table= color="));
        }
    }
    for cache in 0..2 {
        for entry in 0..6 {
            text += &format!("C {entry:02X}00 {cache:02X}\n");
        }
    }
    text += "C 0600 00\nC 0001 00\nC 0000 02\nC 0000 FF\nC FFFF 01\n";
    let output = run_text(&text);
    let found: Vec<&str> = output
        .lines()
        .filter_map(|line| line.strip_prefix("C 0 13 287 "))
        .collect();
    assert_eq!(found, expected);
    assert!(output.ends_with("C 9\nC 9\nC 9\nC 9\nC 9\n"));
}

#[test]
fn the_desktop_state() {
    let text = "\
S
D 2E1C00 3A000004 01000000 04 FFFFFFFF 03000000 02000000 03000000
S
D 2E0700 04000004
S
M
S";
    assert_eq!(
        run_text(text),
        "S 0 0 0 active=0 hooked=0 syncing=0 stack= shown=0 pixels=0\n\
         D 0 1 28\n\
         S 0 1 28 active=1 hooked=1 syncing=1 stack=4294967295,3,2,3 shown=0 pixels=0\n\
         D 0 2 35\n\
         S 0 2 35 active=1 hooked=1 syncing=0 stack=4294967295,3,2,3 shown=0 pixels=0\n\
         M 0 0 0\n\
         S 0 0 0 active=1 hooked=1 syncing=0 stack=4294967295,3,2,3 shown=0 pixels=0\n"
    );
}
