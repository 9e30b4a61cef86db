//! Windowing alternate secondary orders: what they carry, and judging them.
//!
//! Strings, rectangles and lists are parts of the order's bytes.

pub mod fields;
pub mod flags;
mod read;
pub mod rules;

pub use read::{decode, judge};

use crate::ids::{NotifyIconId, WindowId};

/// One order.
#[derive(Clone, Copy, Debug, PartialEq, Eq)]
pub enum Order<'a> {
    /// About a window.
    Window(WindowOrder<'a>),
    /// About a notification icon.
    Notification(NotificationOrder<'a>),
    /// About the desktop.
    Desktop(DesktopOrder<'a>),
}

/// An order about a window.
#[derive(Clone, Copy, Debug, PartialEq, Eq)]
#[allow(missing_docs)]
pub struct WindowOrder<'a> {
    pub window_id: WindowId,
    pub change: WindowChange<'a>,
}

/// What becomes of a window.
#[derive(Clone, Copy, Debug, PartialEq, Eq)]
pub enum WindowChange<'a> {
    /// It is new, with these fields.
    New(WindowFields<'a>),
    /// These fields of it change.
    Update(WindowFields<'a>),
    /// It goes.
    Delete,
    /// One of its icons changes; whether the order says new is not kept.
    Picture {
        /// Which one.
        which: WindowIcon,
        /// The icon.
        picture: Picture<'a>,
    },
}

/// The icons of a window.
#[derive(Clone, Copy, Debug, PartialEq, Eq)]
#[allow(missing_docs)]
pub enum WindowIcon {
    Small,
    Big,
    Overlay,
}

/// The fields of a window that an order carries.
#[derive(Clone, Copy, Debug, Default, PartialEq, Eq)]
#[allow(missing_docs)]
pub struct WindowFields<'a> {
    pub owner: Option<WindowId>,
    /// Style and extended style.
    pub style: Option<(u32, u32)>,
    pub show_state: Option<u8>,
    pub title: Option<&'a [u8]>,
    pub client_offset: Option<(i32, i32)>,
    pub client_size: Option<(u32, u32)>,
    /// Left and right.
    pub margin_x: Option<(u32, u32)>,
    /// Top and bottom.
    pub margin_y: Option<(u32, u32)>,
    pub rp_content: Option<u8>,
    pub root_parent: Option<WindowId>,
    pub window_offset: Option<(i32, i32)>,
    pub client_delta: Option<(i32, i32)>,
    pub window_size: Option<(u32, u32)>,
    /// Rectangles of 8 bytes each.
    pub window_rects: Option<&'a [u8]>,
    pub visible_offset: Option<(i32, i32)>,
    /// Rectangles of 8 bytes each.
    pub visibility_rects: Option<&'a [u8]>,
    pub overlay_text: Option<&'a [u8]>,
    pub taskbar: Option<u8>,
    pub server_z: Option<u8>,
    pub app_bar: Option<u8>,
    pub edge: Option<u8>,
    /// The overlay icon is none from now on.
    pub overlay_none: bool,
}

/// An order about a notification icon.
#[derive(Clone, Copy, Debug, PartialEq, Eq)]
#[allow(missing_docs)]
pub struct NotificationOrder<'a> {
    pub window_id: WindowId,
    pub notify_icon_id: NotifyIconId,
    pub change: NotificationChange<'a>,
}

/// What becomes of a notification icon.
#[derive(Clone, Copy, Debug, PartialEq, Eq)]
pub enum NotificationChange<'a> {
    /// It is new, with these fields.
    New(NotificationFields<'a>),
    /// These fields of it change.
    Update(NotificationFields<'a>),
    /// It goes.
    Delete,
}

/// The fields of a notification icon that an order carries.
#[derive(Clone, Copy, Debug, Default, PartialEq, Eq)]
#[allow(missing_docs)]
pub struct NotificationFields<'a> {
    pub version: Option<u32>,
    pub tip: Option<&'a [u8]>,
    pub balloon: Option<Balloon<'a>>,
    pub state: Option<u32>,
    pub picture: Option<Picture<'a>>,
}

/// A balloon.
#[derive(Clone, Copy, Debug, PartialEq, Eq)]
#[allow(missing_docs)]
pub struct Balloon<'a> {
    pub timeout: u32,
    pub flags: u32,
    pub text: &'a [u8],
    pub title: &'a [u8],
}

/// A picture that an order brings or names.
#[derive(Clone, Copy, Debug, PartialEq, Eq)]
pub enum Picture<'a> {
    /// It is carried, to be put into a cell.
    Icon(Icon<'a>),
    /// It is in a cell.
    Cached(CellPlace),
}

/// A cell by its cache and its entry there.
#[derive(Clone, Copy, Debug, PartialEq, Eq)]
#[allow(missing_docs)]
pub struct CellPlace {
    pub cache: u8,
    pub entry: u16,
}

/// A carried icon.
#[derive(Clone, Copy, Debug, PartialEq, Eq)]
#[allow(missing_docs)]
pub struct Icon<'a> {
    pub place: CellPlace,
    pub bits_per_pixel: u8,
    pub width: u16,
    pub height: u16,
    pub mask: &'a [u8],
    pub color_table: &'a [u8],
    pub color: &'a [u8],
}

/// An order about the desktop.
#[derive(Clone, Copy, Debug, PartialEq, Eq)]
pub enum DesktopOrder<'a> {
    /// It is not monitored.
    None,
    /// It is, with these fields.
    Monitored(DesktopFields<'a>),
}

/// What an order says of a monitored desktop.
#[derive(Clone, Copy, Debug, Default, PartialEq, Eq)]
pub struct DesktopFields<'a> {
    /// It is hooked now.
    pub hooked: bool,
    /// Syncing starts (yes) or ends (no).
    pub syncing: Option<bool>,
    /// The active window.
    pub active: Option<WindowId>,
    /// Window ids of 4 bytes each.
    pub stack: Option<&'a [u8]>,
}
