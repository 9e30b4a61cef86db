//! Windows.

use alloc::string::String;
use alloc::vec::Vec;

use super::reader::Reader;
use super::{Margins, Picture, Point, Rectangle, Size};
use crate::ids::WindowId;

/// How a window is shown.
#[derive(Clone, Copy, Debug, Default, PartialEq, Eq, Hash)]
#[repr(u8)]
#[non_exhaustive]
pub enum ShowState {
    /// 0: not at all.
    #[default]
    Hidden = 0,
    /// 2: minimized.
    Minimized = 2,
    /// 3: maximized.
    Maximized = 3,
    /// 5: in its place and size.
    Shown = 5,
}

impl ShowState {
    /// Its number in orders.
    pub fn number(self) -> u8 {
        self as u8
    }

    fn of(number: u8) -> Option<Self> {
        let all = [Self::Hidden, Self::Minimized, Self::Maximized, Self::Shown];
        all.into_iter().find(|state| state.number() == number)
    }
}

/// A window as the table has it. A field that no order has set is zero or empty.
#[derive(Clone, Debug, Default, PartialEq, Eq)]
#[non_exhaustive]
pub struct Window {
    /// The window that owns it (OwnerWindowId).
    pub owner: WindowId,
    /// The window style (Style).
    pub style: u32,
    /// The extended window style (ExtendedStyle).
    pub extended_style: u32,
    /// How it is shown (ShowState).
    pub show_state: ShowState,
    /// Where the client area begins on the screen (ClientOffsetX, ClientOffsetY).
    pub client_offset: Point,
    /// The size of the client area (ClientAreaWidth, ClientAreaHeight).
    pub client_size: Size,
    /// Whether a render plug-in uses it for client-side rendering (RPContent).
    pub rp_content: bool,
    /// Its top-level parent, or itself (RootParentHandle).
    pub root_parent: WindowId,
    /// Where the window begins on the screen (WindowOffsetX, WindowOffsetY).
    pub window_offset: Point,
    /// From the window's beginning to that of its client area (WindowClientDeltaX,
    /// WindowClientDeltaY).
    pub client_delta: Point,
    /// The window's size (WindowWidth, WindowHeight).
    pub window_size: Size,
    /// The window's geometry, in window coordinates (WindowRects).
    pub window_rects: Vec<Rectangle>,
    /// Where the visible region begins (VisibleOffsetX, VisibleOffsetY).
    pub visible_offset: Point,
    /// The visible region, in window coordinates (VisibilityRects).
    pub visibility_rects: Vec<Rectangle>,
    /// The small icon: the picture last given to the window, whatever its cell has now.
    pub small: Option<Picture>,
    /// The big icon, as the small one.
    pub big: Option<Picture>,
    /// The overlay icon of newer servers, as the small one; an order can take it away.
    pub overlay: Option<Picture>,
    /// The resize margins (WindowLeftResizeMargin, WindowRightResizeMargin,
    /// WindowTopResizeMargin, WindowBottomResizeMargin), of newer servers as what follows.
    pub resize_margins: Margins,
    /// The taskbar button, 0 or 1 (TaskbarButton).
    pub taskbar_button: bool,
    /// Stacking by the server, 0 or 1 (EnforceServerZOrder).
    pub enforce_server_z_order: bool,
    /// Application bar, 0 or 1 (AppBarState).
    pub app_bar: bool,
    /// The edge of the application bar, 0 to 3 (AppBarEdge).
    pub app_bar_edge: u8,
    /// The pixels of its visibility rectangles, those that several have counted once; 0 if
    /// it is hidden.
    pub pixels: u32,
    title: Vec<u16>,
    overlay_description: Vec<u16>,
}

impl Window {
    /// The bytes in which a lookup hands it out.
    pub const SIZE: usize =
        Self::FIELDS + 2 * Picture::SIZE + Self::NEWER + Picture::SIZE + Self::PIXELS;
    /// Those before its small and its big icon.
    const FIELDS: usize = 850;
    /// Those of newer servers' fields, before the overlay icon.
    const NEWER: usize = 544;
    /// Those of its pixels, behind all others.
    const PIXELS: usize = 4;
    /// The most bytes of a title, and of an overlay description.
    const TITLE: usize = 520;

    /// The title; what is no text in it becomes U+FFFD.
    pub fn title(&self) -> String {
        String::from_utf16_lossy(&self.title)
    }

    /// The title as the server gave it.
    pub fn title_utf16(&self) -> &[u16] {
        &self.title
    }

    /// The overlay description (OverlayDescription); what is no text in it becomes U+FFFD.
    pub fn overlay_description(&self) -> String {
        String::from_utf16_lossy(&self.overlay_description)
    }

    /// The overlay description as the server gave it.
    pub fn overlay_description_utf16(&self) -> &[u16] {
        &self.overlay_description
    }

    pub(crate) fn of(bytes: &[u8; Self::SIZE]) -> Self {
        let mut from = Reader(bytes);
        let shows_small = from.yes();
        let shows_big = from.yes();
        // Newer servers' fields stand behind all that were there before them.
        let mut newer = Reader(&bytes[Self::FIELDS + 2 * Picture::SIZE..]);
        let shows_overlay = newer.yes();
        newer.u8();
        Self {
            owner: from.window_id(),
            style: from.u32(),
            extended_style: from.u32(),
            show_state: ShowState::of(from.u8()).expect("a stored show state is a listed one"),
            title: from.text(Self::TITLE),
            client_offset: from.point(),
            client_size: from.size(),
            rp_content: from.yes(),
            root_parent: from.window_id(),
            window_offset: from.point(),
            client_delta: from.point(),
            window_size: from.size(),
            window_rects: from.rectangles(),
            visible_offset: from.point(),
            visibility_rects: from.rectangles(),
            small: from.picture(shows_small),
            big: from.picture(shows_big),
            resize_margins: newer.margins(),
            overlay_description: newer.text(Self::TITLE),
            taskbar_button: newer.yes(),
            enforce_server_z_order: newer.yes(),
            app_bar: newer.yes(),
            app_bar_edge: newer.u8(),
            overlay: newer.picture(shows_overlay),
            pixels: newer.u32(),
        }
    }
}

#[cfg(test)]
mod tests {
    use super::*;
    use crate::ffi;

    #[test]
    fn size_is_the_librarys() {
        assert_eq!(ffi::size(4), Window::SIZE as u32);
    }

    #[test]
    fn show_states() {
        let numbers: Vec<u8> = (0..=255).filter(|&n| ShowState::of(n).is_some()).collect();
        assert_eq!(numbers, [0, 2, 3, 5]);
    }

    /// A record with every field at its place in the layout.
    fn laid_out() -> [u8; Window::SIZE] {
        let fields: [(usize, &[u8]); 22] = [
            (0, &[1, 1]),
            (2, &[2, 0, 0, 0]),
            (6, &[6, 0, 0, 0, 10, 0, 0, 0, 5]),
            (15, &[4, 0, 0x41, 0, 0x00, 0xD8]),
            (537, &[1, 0, 0, 0, 0xFF, 0xFF, 0xFF, 0xFF]),
            (545, &[3, 0, 0, 0, 4, 0, 0, 0, 1]),
            (554, &[5, 0, 0, 0]),
            (558, &[6, 0, 0, 0, 7, 0, 0, 0]),
            (566, &[8, 0, 0, 0, 9, 0, 0, 0]),
            (574, &[10, 0, 0, 0, 11, 0, 0, 0]),
            (582, &[1, 0, 1, 0, 2, 0, 3, 0, 4, 0]),
            (712, &[12, 0, 0, 0, 13, 0, 0, 0]),
            (720, &[1, 0, 5, 0, 6, 0, 7, 0, 8, 0]),
            (850, &[24, 1, 0, 1, 0, 0, 0, 3, 0, 1, 2, 3]),
            (5_085, &[16, 1, 0, 2, 0, 1, 0, 0, 0, 9]),
            (9_320, &[1]),
            (9_322, &[14, 0, 0, 0, 15, 0, 0, 0]),
            (9_330, &[16, 0, 0, 0, 0, 0, 0, 0x80]),
            (9_338, &[2, 0, 0x42, 0]),
            (9_860, &[1, 0, 1, 3]),
            (9_864, &[32, 1, 0, 1, 0, 0, 0, 1, 0, 8]),
            (Window::SIZE - 4, &[1, 2, 3, 4]),
        ];
        let mut bytes = [0; Window::SIZE];
        for (at, field) in fields {
            bytes[at..at + field.len()].copy_from_slice(field);
        }
        bytes
    }

    fn rectangle(left: u16) -> Rectangle {
        let [top, right, bottom] = [left + 1, left + 2, left + 3];
        Rectangle {
            left,
            top,
            right,
            bottom,
        }
    }

    fn size(width: u32, height: u32) -> Size {
        Size { width, height }
    }

    fn picture(bits_per_pixel: u8, height: u16, mask: &[u8], color: &[u8]) -> Option<Picture> {
        Some(Picture {
            bits_per_pixel,
            width: 1,
            height,
            mask: mask.to_vec(),
            color_table: vec![],
            color: color.to_vec(),
        })
    }

    #[test]
    fn fields_by_place() {
        let window = Window {
            owner: WindowId(2),
            style: 6,
            extended_style: 10,
            show_state: ShowState::Shown,
            client_offset: Point { x: 1, y: -1 },
            client_size: size(3, 4),
            rp_content: true,
            root_parent: WindowId(5),
            window_offset: Point { x: 6, y: 7 },
            client_delta: Point { x: 8, y: 9 },
            window_size: size(10, 11),
            window_rects: vec![rectangle(1)],
            visible_offset: Point { x: 12, y: 13 },
            visibility_rects: vec![rectangle(5)],
            small: picture(24, 1, &[], &[1, 2, 3]),
            big: picture(16, 2, &[9], &[]),
            overlay: picture(32, 1, &[], &[8]),
            resize_margins: Margins {
                left: 14,
                right: 15,
                top: 16,
                bottom: 0x8000_0000,
            },
            taskbar_button: true,
            enforce_server_z_order: false,
            app_bar: true,
            app_bar_edge: 3,
            pixels: 0x0403_0201,
            title: vec![0x41, 0xD800],
            overlay_description: vec![0x42],
        };
        assert_eq!(Window::of(&laid_out()), window);
        assert_eq!(window.title(), "A\u{FFFD}");
        assert_eq!(window.title_utf16(), [0x41, 0xD800]);
        assert_eq!(window.overlay_description(), "B");
        assert_eq!(window.overlay_description_utf16(), [0x42]);
        for at in [0, 1, 9_320] {
            let mut bytes = laid_out();
            bytes[at] = 0;
            let found = Window::of(&bytes);
            let icons = [&found.small, &found.big, &found.overlay];
            assert_eq!(icons.map(Option::is_none), [at == 0, at == 1, at == 9_320]);
        }
    }
}
