//! Files of a state with a figure that is not the one which its windows have.

use super::states::window_at;
use crate::figure;
use crate::generate::random::Random;
use crate::memory::figures::{COUNT_SIZE, PIXELS_AT, PIXELS_SIZE, SHOWN_AT, SHOWN_SIZE};
use crate::memory::FIGURES_AT;
use crate::order::rules::RECT_SIZE;
use crate::table::{rects, WINDOWS};

/// The rules of figures that a file can break, each alone. The last three keep the totals
/// those of the slots, so that only the records tell.
pub const RULES: [&str; 8] = [
    "a slot's pixels",
    "pixels kept for a hidden window",
    "a free slot that is not 0",
    "windows shown",
    "pixels in all",
    "an area and the sum wrong alike",
    "a shown window left out of all",
    "a hidden window counted in all",
];

/// Where the totals stand in a file.
const SHOWN: usize = FIGURES_AT + SHOWN_AT;
const PIXELS: usize = FIGURES_AT + PIXELS_AT;

/// Where the pixels of a slot stand in a file.
fn at(slot: usize) -> usize {
    FIGURES_AT + COUNT_SIZE * slot
}

/// The number in so many bytes.
fn number(file: &[u8], at: usize, size: usize) -> u64 {
    let bytes = &file[at..][..size];
    bytes.iter().rev().fold(0, |n, &b| n << 8 | u64::from(b))
}

/// Adds to the number in so many bytes, and drops what they have no room for.
fn add(file: &mut [u8], at: usize, size: usize, more: i64) {
    let sum = number(file, at, size).wrapping_add_signed(more);
    file[at..at + size].copy_from_slice(&sum.to_le_bytes()[..size]);
}

/// Adds to what is told of all windows.
fn add_totals(file: &mut [u8], windows: i64, pixels: i64) {
    add(file, SHOWN, SHOWN_SIZE, windows);
    add(file, PIXELS, PIXELS_SIZE, pixels);
}

/// Changes a bit of the bytes from an offset on.
fn change(file: &mut [u8], from: usize, length: usize, random: &mut Random) {
    file[from + random.below(length)] ^= 1 << random.below(8);
}

/// Whether the window in a slot is shown, by its record.
fn is_shown(file: &[u8], slot: usize) -> bool {
    file[window_at(slot) + 14] != 0
}

/// The pixels of its visibility rectangles, shown or not.
fn area(file: &[u8], slot: usize) -> i64 {
    let list = window_at(slot) + 736;
    let count = number(file, list, 2) as usize;
    figure::area(&rects(&file[list + 2..][..RECT_SIZE * count])).into()
}

/// Breaks a rule in a file with these used slots of windows; none where it has nothing of
/// the sort.
pub fn breaks(file: &mut [u8], rule: &str, used: &[usize], random: &mut Random) -> Option<()> {
    let mut one = |list: Vec<usize>| (!list.is_empty()).then(|| random.pick(&list));
    let free = one((0..WINDOWS).filter(|slot| !used.contains(slot)).collect());
    let slots = used.iter().copied();
    let (shown, hidden): (Vec<_>, Vec<_>) = slots.partition(|&slot| is_shown(file, slot));
    let kept = hidden.iter().copied();
    let kept = one(kept.filter(|&slot| area(file, slot) > 0).collect());
    let (slot, shown, hidden) = (one(used.to_vec()), one(shown), one(hidden));
    match rule {
        "a slot's pixels" => change(file, at(slot?), COUNT_SIZE, random),
        "pixels kept for a hidden window" => {
            let area = area(file, kept?);
            add(file, at(kept?), COUNT_SIZE, area);
        }
        "a free slot that is not 0" => change(file, at(free?), COUNT_SIZE, random),
        "windows shown" => add_totals(file, random.pick(&[1, -1, 1 << 8, 1 << 31]), 0),
        "pixels in all" => change(file, PIXELS, PIXELS_SIZE, random),
        "an area and the sum wrong alike" => {
            let count = at(shown?);
            let step = match number(file, count, COUNT_SIZE) {
                0 => 1,
                _ => -1,
            };
            add(file, count, COUNT_SIZE, step);
            add_totals(file, 0, step);
        }
        "a shown window left out of all" => {
            let area = area(file, shown?);
            add(file, at(shown?), COUNT_SIZE, -area);
            add_totals(file, -1, -area);
        }
        "a hidden window counted in all" => {
            let area = area(file, hidden?);
            add(file, at(hidden?), COUNT_SIZE, area);
            add_totals(file, 1, area);
        }
        _ => unreachable!("a rule of the list"),
    }
    Some(())
}
