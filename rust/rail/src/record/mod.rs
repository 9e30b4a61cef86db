//! Records that lookups hand out, from bytes with each field at its place.

mod desktop;
pub(crate) mod holder;
pub(crate) mod lists;
mod notification;
mod picture;
mod reader;
mod window;

pub use desktop::Desktop;
pub use holder::Holder;
pub use notification::NotificationIcon;
pub use picture::Picture;
pub use window::{ShowState, Window};

/// A rectangle in window coordinates, its sides in any relation.
#[derive(Clone, Copy, Debug, Default, PartialEq, Eq, Hash)]
pub struct Rectangle {
    /// The left side.
    pub left: u16,
    /// The upper side.
    pub top: u16,
    /// The right side.
    pub right: u16,
    /// The lower side.
    pub bottom: u16,
}

/// An offset on the desktop, or between two places on it.
#[derive(Clone, Copy, Debug, Default, PartialEq, Eq, Hash)]
pub struct Point {
    /// To the right.
    pub x: i32,
    /// Downwards.
    pub y: i32,
}

/// A width and a height.
#[derive(Clone, Copy, Debug, Default, PartialEq, Eq, Hash)]
pub struct Size {
    /// The width.
    pub width: u32,
    /// The height.
    pub height: u32,
}

/// Widths at the four sides of a window.
#[derive(Clone, Copy, Debug, Default, PartialEq, Eq, Hash)]
pub struct Margins {
    /// At the left side.
    pub left: u32,
    /// At the right side.
    pub right: u32,
    /// At the upper side.
    pub top: u32,
    /// At the lower side.
    pub bottom: u32,
}

/// A cell of the icon cache: there are 2 caches of 6 cells.
#[derive(Clone, Copy, Debug, Default, PartialEq, Eq, Hash, PartialOrd, Ord)]
pub struct CacheCell {
    /// The cache.
    pub cache_id: u8,
    /// The cell's number in it.
    pub cache_entry: u16,
}

impl CacheCell {
    /// The caches.
    pub const CACHES: u8 = 2;
    /// The cells of a cache.
    pub const ENTRIES: u16 = 6;

    /// All cells that there are.
    pub fn all() -> impl Iterator<Item = CacheCell> {
        (0..Self::CACHES).flat_map(|cache_id| {
            (0..Self::ENTRIES).map(move |cache_entry| CacheCell {
                cache_id,
                cache_entry,
            })
        })
    }
}
