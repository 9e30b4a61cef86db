//! The figures behind the index: for each slot of a window its pixels, 0 where it is hidden
//! or the slot is free; then how many windows are shown, and their pixels. The windows
//! settle every byte.

use super::FIGURES_SIZE;
use crate::figure::{self, Figure};
use crate::table::{Window, WINDOWS};

/// The bytes of a slot's pixels.
pub const COUNT_SIZE: usize = 4;
/// Where among the figures the totals stand, and their bytes.
pub const SHOWN_AT: usize = COUNT_SIZE * WINDOWS;
pub const SHOWN_SIZE: usize = 4;
pub const PIXELS_AT: usize = SHOWN_AT + SHOWN_SIZE;
pub const PIXELS_SIZE: usize = 8;

/// The figures that windows call for.
#[derive(Default)]
pub struct Figures {
    counts: [u32; WINDOWS],
    totals: Figure,
}

impl Figures {
    /// A window stands in a slot.
    pub fn add(&mut self, slot: usize, window: &Window) {
        let count = figure::of_window(window);
        self.counts[slot] = count;
        self.totals.windows += usize::from(figure::is_shown(window));
        self.totals.pixels += u64::from(count);
    }

    /// All of them as bytes.
    pub fn bytes(&self) -> [u8; FIGURES_SIZE] {
        let mut bytes = [0; FIGURES_SIZE];
        let counts = self.counts.map(u32::to_le_bytes);
        bytes[..SHOWN_AT].copy_from_slice(counts.as_flattened());
        let shown = (self.totals.windows as u32).to_le_bytes();
        bytes[SHOWN_AT..PIXELS_AT].copy_from_slice(&shown);
        bytes[PIXELS_AT..].copy_from_slice(&self.totals.pixels.to_le_bytes());
        bytes
    }
}
