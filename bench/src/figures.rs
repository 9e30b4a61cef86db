//! The figure at the mark: instructions of counting it, and of reading it where it is
//! stored, by callgrind.
//!
//! A call that finds no room validates the memory and ends there. The validation counts the
//! pixels of windows that are shown, so that what it takes more than that of the same
//! windows hidden is the counting; what a granted call takes more is the reading.

use std::env;
use std::hint::black_box;

use rail::{Figure, Memory};

use crate::callgrind;

/// Calls that are counted together.
const CALLS: u64 = 200;
/// What counting 32 windows with 4 disjoint rectangles each may cost.
const AIM: i64 = 12_000;

/// Windows, rectangles of each, and how these lie.
const SORTS: [(usize, usize, &str); 8] = [
    (0, 0, "apart"),
    (1, 1, "apart"),
    (1, 2, "stairs"),
    (32, 0, "apart"),
    (32, 1, "apart"),
    (32, 4, "apart"),
    (32, 16, "apart"),
    (32, 16, "stairs"),
];

/// Prints the table. It fails where the aim is missed.
pub fn run() -> Result<(), String> {
    println!("| Windows | Rectangles of each | | Hidden: validated, and 14 | Shown: validated, and 14 | Counting (32 windows with 4 apart: aim {AIM}) | Granted | Reading |");
    println!("|---:|---:|---|---:|---:|---:|---:|---:|");
    let mut is_missed = false;
    for (windows, rectangles, lie) in SORTS {
        let call = |what| instructions(windows, rectangles, lie, what);
        let (hidden, refused, granted) = (call("hidden")?, call("refused")?, call("granted")?);
        let (counting, reading) = (refused - hidden, granted - refused);
        println!("| {windows} | {rectangles} | {lie} | {hidden} | {refused} | {counting} | {granted} | {reading} |");
        is_missed |= (windows, rectangles) == (32, 4) && counting > AIM;
    }
    println!();
    println!("Instructions per call, counted by callgrind inside the entry point with all that it calls.");
    if is_missed {
        return Err("the aim is missed".into());
    }
    Ok(())
}

fn instructions(windows: usize, rectangles: usize, lie: &str, what: &str) -> Result<i64, String> {
    let program = env::current_exe().map_err(|error| format!("own program: {error}"))?;
    let [windows, rectangles, calls] =
        [windows as u64, rectangles as u64, CALLS].map(|n| n.to_string());
    let words = ["figure-one", &windows, &rectangles, lie, what, &calls];
    let total = callgrind::count_within("rail_figure", &program, &words)?.total;
    Ok((total / CALLS) as i64)
}

/// A new window of a show state with so many rectangles: apart in rows of 4, or each over
/// the one before it.
fn window(id: u8, show: u8, rectangles: usize, lie: &str) -> Vec<u8> {
    let size = 14 + 8 * rectangles as u8;
    let mut order = vec![0x2E, size, 0, 0x10, 2, 0, 0x11, id, 0, 0, 0, show];
    order.extend([rectangles as u8, 0]);
    for index in 0..rectangles as u16 {
        let (left, top, side) = match lie {
            "apart" => (20 * (index % 4), 20 * (index / 4), 10),
            _ => (5 * index, 5 * index, 10),
        };
        for number in [left, top, left + side, top + side] {
            order.extend(number.to_le_bytes());
        }
    }
    order
}

/// `bench figure-one`: the calls that callgrind counts.
pub fn one(
    windows: &str,
    rectangles: &str,
    lie: &str,
    what: &str,
    calls: &str,
) -> Result<(), String> {
    let number = |text: &str| {
        text.parse::<usize>()
            .map_err(|_| format!("`{text}` is no number"))
    };
    let (windows, rectangles, calls) = (number(windows)?, number(rectangles)?, number(calls)?);
    let mut memory = Memory::new();
    let mut lent = memory.lend();
    lent.reset().map_err(|refusal| refusal.to_string())?;
    let show = if what == "hidden" { 0 } else { 5 };
    for id in 0..windows {
        let done = lent.deliver(&window(id as u8, show, rectangles, lie));
        done.map_err(|refusal| refusal.to_string())?;
    }
    lent.checkpoint().map_err(|refusal| refusal.to_string())?;
    let view = memory.view();
    let has_room = what == "granted";
    let mut out = vec![0; if has_room { Figure::SIZE } else { 1 }];
    for _ in 0..calls {
        let is_granted = black_box(view).figure_bytes(&mut out).is_ok();
        if black_box(is_granted) != has_room {
            return Err(format!("`{what}` was answered otherwise"));
        }
    }
    Ok(())
}
