//! The desktop state.

use alloc::vec::Vec;

use super::reader::Reader;
use crate::figure::Figure;
use crate::ids::WindowId;

/// The desktop state as the table has it.
#[derive(Clone, Debug, Default, PartialEq, Eq)]
#[non_exhaustive]
pub struct Desktop {
    /// Whether the desktop is hooked.
    pub hooked: bool,
    /// Whether the server has begun to tell its windows and has not ended yet.
    pub syncing: bool,
    /// The active window (ActiveWindowId); 0 for none.
    pub active_window: WindowId,
    /// Window ids from the topmost window down (WindowIds), listed or not.
    pub z_order: Vec<WindowId>,
    /// How much of the windows is visible now, orders since the checkpoint included. The
    /// lookup counts it anew, window by window through these orders.
    pub figure: Figure,
}

impl Desktop {
    /// The bytes in which a lookup hands it out.
    pub const SIZE: usize = Self::FIELDS + Figure::SIZE;
    /// Those before the figure.
    const FIELDS: usize = 263;
    /// The most ids of the stacking list.
    const IDS: usize = 64;

    pub(crate) fn of(bytes: &[u8; Self::SIZE]) -> Self {
        let mut from = Reader(bytes);
        Self {
            hooked: from.yes(),
            syncing: from.yes(),
            active_window: from.window_id(),
            z_order: from.window_ids(Self::IDS),
            figure: from.figure(),
        }
    }
}

#[cfg(test)]
mod tests {
    use super::*;
    use crate::ffi;

    #[test]
    fn size_is_the_librarys() {
        assert_eq!(ffi::size(6), Desktop::SIZE as u32);
    }

    /// Every field at its place in the layout.
    #[test]
    fn fields_by_place() {
        let mut bytes = [0; Desktop::SIZE];
        bytes[1] = 1;
        bytes[2..6].copy_from_slice(&[1, 2, 3, 4]);
        bytes[6..11].copy_from_slice(&[64, 5, 0, 0, 0]);
        bytes[259..263].copy_from_slice(&[6, 0, 0, 0]);
        bytes[263..].copy_from_slice(&[32, 0, 0, 0, 7, 0, 0, 0, 9, 0, 0, 0]);
        let desktop = Desktop::of(&bytes);
        assert_eq!((desktop.hooked, desktop.syncing), (false, true));
        assert_eq!(desktop.active_window, WindowId(0x0403_0201));
        assert_eq!(desktop.z_order.len(), 64);
        assert_eq!(desktop.z_order.first(), Some(&WindowId(5)));
        assert_eq!(desktop.z_order.last(), Some(&WindowId(6)));
        let figure = Figure {
            windows: 32,
            pixels: 0x0009_0000_0007,
        };
        assert_eq!(desktop.figure, figure);
    }
}
