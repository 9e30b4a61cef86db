//! The table that orders change: windows, notification icons, pictures, desktop.

mod change;
mod store;

pub(crate) use change::rects;
pub use change::{brings_icon, number, setting};
pub use store::{Holder, Store, FEWEST_PLACES, MOST_PLACES, PLACE_SIZE};

use std::collections::BTreeMap;

use crate::ids::{NotifyIconId, WindowId};
use crate::order::rules::{CACHES, CELLS};
use crate::order::CellPlace;

/// The most windows.
pub const WINDOWS: usize = 32;
/// The most notification icons.
pub const NOTIFICATION_ICONS: usize = 16;

/// A table. The default is an emptied one, with the most places.
#[derive(Clone, Debug, PartialEq, Eq)]
pub struct Table {
    windows: BTreeMap<WindowId, Window>,
    icons: BTreeMap<(WindowId, NotifyIconId), NotificationIcon>,
    store: Store,
    places: usize,
    desktop: Desktop,
}

impl Default for Table {
    fn default() -> Self {
        Self::with_places(MOST_PLACES)
    }
}

/// A window. The default has all fields zero or empty. Its pictures are in the store.
#[derive(Clone, Debug, Default, PartialEq, Eq)]
#[allow(missing_docs)]
pub struct Window {
    pub owner: WindowId,
    pub style: u32,
    pub extended_style: u32,
    pub show_state: u8,
    pub title: Vec<u8>,
    pub client_offset: (i32, i32),
    pub client_size: (u32, u32),
    /// Left and right.
    pub margin_x: (u32, u32),
    /// Top and bottom.
    pub margin_y: (u32, u32),
    pub rp_content: u8,
    pub root_parent: WindowId,
    pub window_offset: (i32, i32),
    pub client_delta: (i32, i32),
    pub window_size: (u32, u32),
    pub window_rects: Vec<Rect>,
    pub visible_offset: (i32, i32),
    pub visibility_rects: Vec<Rect>,
    pub overlay_text: Vec<u8>,
    pub taskbar: u8,
    pub server_z: u8,
    pub app_bar: u8,
    pub edge: u8,
}

/// A rectangle, its sides in any relation.
#[derive(Clone, Copy, Debug, PartialEq, Eq)]
#[allow(missing_docs)]
pub struct Rect {
    pub left: u16,
    pub top: u16,
    pub right: u16,
    pub bottom: u16,
}

/// A notification icon. The default has all fields zero or empty. Its picture is in the
/// store.
#[derive(Clone, Debug, Default, PartialEq, Eq)]
#[allow(missing_docs)]
pub struct NotificationIcon {
    pub version: u32,
    pub tip: Vec<u8>,
    pub balloon_timeout: u32,
    pub balloon_flags: u32,
    pub balloon_text: Vec<u8>,
    pub balloon_title: Vec<u8>,
    pub state: u32,
}

/// A picture, as a filled cell holds it.
#[derive(Clone, Debug, PartialEq, Eq)]
#[allow(missing_docs)]
pub struct Cell {
    pub bits_per_pixel: u8,
    pub width: u16,
    pub height: u16,
    pub mask: Vec<u8>,
    pub color_table: Vec<u8>,
    pub color: Vec<u8>,
}

/// The desktop state.
#[derive(Clone, Debug, Default, PartialEq, Eq)]
#[allow(missing_docs)]
pub struct Desktop {
    pub active: WindowId,
    pub hooked: bool,
    pub syncing: bool,
    pub stack: Vec<WindowId>,
}

impl Table {
    /// An emptied table whose pictures have so many places.
    pub fn with_places(places: usize) -> Self {
        Self {
            windows: BTreeMap::new(),
            icons: BTreeMap::new(),
            store: Store::default(),
            places,
            desktop: Desktop::default(),
        }
    }

    /// A table put together of its parts; each picture with those that point at it.
    pub(crate) fn of_parts(
        places: usize,
        windows: BTreeMap<WindowId, Window>,
        icons: BTreeMap<(WindowId, NotifyIconId), NotificationIcon>,
        pictures: Vec<(Vec<Holder>, Cell)>,
        desktop: Desktop,
    ) -> Self {
        let mut store = Store::default();
        for (holders, picture) in pictures {
            store.take(&holders, picture);
        }
        Self {
            windows,
            icons,
            store,
            places,
            desktop,
        }
    }

    /// How many places its pictures have.
    pub fn places(&self) -> usize {
        self.places
    }

    /// Its pictures.
    pub fn store(&self) -> &Store {
        &self.store
    }

    /// The picture that a holder shows, if it points at one.
    pub fn shown(&self, holder: Holder) -> Option<&Cell> {
        self.store.shown(holder)
    }

    /// A window, if its id is in the table.
    pub fn window(&self, id: WindowId) -> Option<&Window> {
        self.windows.get(&id)
    }

    /// A notification icon, if its two ids are in the table.
    pub fn icon(&self, window: WindowId, icon: NotifyIconId) -> Option<&NotificationIcon> {
        self.icons.get(&(window, icon))
    }

    /// What a cell holds, if it exists and is filled.
    pub fn cell(&self, place: CellPlace) -> Option<&Cell> {
        self.shown(place.into())
    }

    /// The desktop state.
    pub fn desktop(&self) -> &Desktop {
        &self.desktop
    }

    /// The ids of all windows.
    pub fn window_ids(&self) -> impl Iterator<Item = WindowId> + '_ {
        self.windows.keys().copied()
    }

    /// The ids of all notification icons.
    pub fn icon_ids(&self) -> impl Iterator<Item = (WindowId, NotifyIconId)> + '_ {
        self.icons.keys().copied()
    }

    /// The places of all filled cells.
    pub fn filled_cells(&self) -> impl Iterator<Item = CellPlace> + '_ {
        (0..CACHES as u8)
            .flat_map(|cache| (0..CELLS as u16).map(move |entry| CellPlace { cache, entry }))
            .filter(|&place| self.cell(place).is_some())
    }
}
