//! What has a picture.

use super::CacheCell;
use crate::ids::{NotifyIconId, WindowId};

/// The bytes in which a lookup hands out whether two holders share a place.
pub(crate) const SHARED_SIZE: usize = 1;

/// What can have a picture of the store.
#[derive(Clone, Copy, Debug, PartialEq, Eq, Hash, PartialOrd, Ord)]
#[non_exhaustive]
pub enum Holder {
    /// A cell of the icon cache.
    Cell(CacheCell),
    /// The small icon of a window.
    SmallIcon(WindowId),
    /// The big icon of a window.
    BigIcon(WindowId),
    /// A notification icon.
    NotificationIcon(WindowId, NotifyIconId),
    /// The overlay icon of a window.
    OverlayIcon(WindowId),
}

impl Holder {
    /// Its kind and two numbers, as the library takes them.
    pub(crate) fn numbers(self) -> (u8, u32, u32) {
        match self {
            Holder::Cell(cell) => (0, cell.cache_id.into(), cell.cache_entry.into()),
            Holder::SmallIcon(window) => (1, window.0, 0),
            Holder::BigIcon(window) => (2, window.0, 0),
            Holder::NotificationIcon(window, icon) => (3, window.0, icon.0),
            Holder::OverlayIcon(window) => (4, window.0, 0),
        }
    }
}

impl From<CacheCell> for Holder {
    fn from(cell: CacheCell) -> Self {
        Self::Cell(cell)
    }
}
