//! Window orders with every combination of the flags that only newer servers set.

use super::slot::WINDOW_FIELDS;
use super::Writer;
use crate::order::flags;

impl Writer<'_> {
    /// The order with the next combination, for a listed window or a new one; the window
    /// is looked up after some. Few have more than that: other fields, or an icon, with
    /// which all but the overlay icon's flag clash.
    pub(super) fn next_combination(&mut self) -> (u8, Vec<u8>) {
        if self.room_is_low() {
            return (b'M', Vec::new());
        }
        let newer = spread(self.combination);
        self.combination = self.combination.wrapping_add(1);
        let mut maker = self.maker();
        let more = match maker.random.below(18) {
            0 => flags::ICON | maker.icon_bits(),
            1 => flags::CACHED_ICON | maker.icon_bits(),
            2..=4 => maker.some_of(&WINDOW_FIELDS),
            _ => 0,
        };
        let listed = maker.random.chance(75);
        let (id, new) = match maker.listed_window().filter(|_| listed) {
            Some(id) => (id, 0),
            None => (maker.absent_window(), flags::NEW),
        };
        let draft = maker.draft(flags::WINDOW | newer | more | new, &[id], &[]);
        let order = draft.order(&mut self.random);
        if self.random.chance(25) {
            self.pending.push(super::window_lookup(id));
        }
        (b'D', order)
    }
}

/// The number of the first combination in the script of a seed: those of seeds that follow
/// one another lie apart.
pub(super) fn first_of(seed: u64) -> u32 {
    (seed as u32).wrapping_mul(0x9E37_79B9) >> (u32::BITS - flags::NEWER.count_ones())
}

/// The low bits of a number as the newer servers' flags.
fn spread(number: u32) -> u32 {
    let mut flags = 0;
    let mut at = 0;
    for shift in 0..u32::BITS {
        let bit = 1 << shift;
        if flags::NEWER & bit != 0 {
            flags |= (number >> at & 1) << shift;
            at += 1;
        }
    }
    flags
}
