//! The rules for number 8: which numbers the fields of an order may hold.

use super::{CellPlace, DesktopOrder, Icon, NotificationChange, NotificationFields};
use super::{Order, Picture, WindowChange, WindowFields};

/// The bytes of a rectangle.
pub const RECT_SIZE: usize = 8;
/// The bytes of an id in the stacking list.
pub const ID_SIZE: usize = 4;
/// The cache id of an icon that is not to be cached.
pub const NO_CACHE: u8 = 0xFF;

/// The most bytes of a window's title.
pub const TITLE_LIMIT: usize = 520;
/// The most bytes of a window's overlay description.
pub const OVERLAY_TEXT_LIMIT: usize = 520;
/// The most bytes of a tip.
pub const TIP_LIMIT: usize = 256;
/// The most bytes of a balloon's text.
pub const BALLOON_TEXT_LIMIT: usize = 510;
/// The most bytes of a balloon's title.
pub const BALLOON_TITLE_LIMIT: usize = 126;
/// The most rectangles of a list.
pub const RECTS_LIMIT: usize = 16;
/// The most ids of the stacking list.
pub const STACK_LIMIT: usize = 64;
/// The most bytes of an icon's mask, color table and color together.
pub const PICTURE_LIMIT: usize = 4_224;
/// The caches.
pub const CACHES: usize = 2;
/// The cells of a cache.
pub const CELLS: usize = 6;

/// Whether all numbers of an order are inside their sets.
pub fn allowed(order: &Order<'_>) -> bool {
    match order {
        Order::Window(order) => match &order.change {
            WindowChange::New(fields) | WindowChange::Update(fields) => window(fields),
            WindowChange::Delete => true,
            WindowChange::Picture { picture: shown, .. } => picture(shown),
        },
        Order::Notification(order) => match &order.change {
            NotificationChange::New(fields) | NotificationChange::Update(fields) => {
                notification(fields)
            }
            NotificationChange::Delete => true,
        },
        Order::Desktop(DesktopOrder::None) => true,
        Order::Desktop(DesktopOrder::Monitored(fields)) => {
            fields.stack.is_none_or(|ids| stack(ids.len() / ID_SIZE))
        }
    }
}

fn window(fields: &WindowFields<'_>) -> bool {
    let rects_allowed = |list: Option<&[u8]>| list.is_none_or(|list| rects(list.len() / RECT_SIZE));
    fields.show_state.is_none_or(show_state)
        && fields
            .title
            .is_none_or(|title| string(title.len(), TITLE_LIMIT))
        && fields.rp_content.is_none_or(yes_or_no)
        && rects_allowed(fields.window_rects)
        && rects_allowed(fields.visibility_rects)
        && fields
            .overlay_text
            .is_none_or(|text| string(text.len(), OVERLAY_TEXT_LIMIT))
        && fields.taskbar.is_none_or(yes_or_no)
        && fields.server_z.is_none_or(yes_or_no)
        && fields.app_bar.is_none_or(yes_or_no)
        && fields.edge.is_none_or(edge)
}

fn notification(fields: &NotificationFields<'_>) -> bool {
    fields.tip.is_none_or(|tip| string(tip.len(), TIP_LIMIT))
        && fields.balloon.is_none_or(|balloon| {
            string(balloon.text.len(), BALLOON_TEXT_LIMIT)
                && string(balloon.title.len(), BALLOON_TITLE_LIMIT)
        })
        && fields.picture.as_ref().is_none_or(picture)
}

fn picture(picture: &Picture<'_>) -> bool {
    match picture {
        Picture::Icon(icon) => {
            (icon.place.cache == NO_CACHE || cell(icon.place))
                && bits_per_pixel(icon.bits_per_pixel)
                && side(icon.width)
                && side(icon.height)
                && picture_size(icon.size())
        }
        Picture::Cached(place) => cell(*place),
    }
}

impl Icon<'_> {
    /// The bytes of mask, color table and color together.
    pub fn size(&self) -> usize {
        self.mask.len() + self.color_table.len() + self.color.len()
    }
}

/// A show state: hidden, minimized, maximized or shown.
pub fn show_state(number: u8) -> bool {
    matches!(number, 0 | 2 | 3 | 5)
}

/// RPContent, taskbar button, stacking by the server and application bar are 0 or 1.
pub fn yes_or_no(number: u8) -> bool {
    number <= 1
}

/// An application bar's edge is 0 to 3.
pub fn edge(number: u8) -> bool {
    number <= 3
}

/// A string has an even number of bytes, at most its limit.
pub fn string(length: usize, limit: usize) -> bool {
    length <= limit && length.is_multiple_of(2)
}

/// The number of rectangles in a list.
pub fn rects(count: usize) -> bool {
    count <= RECTS_LIMIT
}

/// The number of ids in the stacking list.
pub fn stack(count: usize) -> bool {
    count <= STACK_LIMIT
}

/// An icon's depth.
pub fn bits_per_pixel(number: u8) -> bool {
    matches!(number, 1 | 4 | 8 | 16 | 24 | 32)
}

/// An icon's width or height.
pub fn side(number: u16) -> bool {
    (1..=32).contains(&number)
}

/// The bytes of an icon's picture.
pub fn picture_size(size: usize) -> bool {
    size <= PICTURE_LIMIT
}

/// A cell that exists.
pub fn cell(place: CellPlace) -> bool {
    usize::from(place.cache) < CACHES && usize::from(place.entry) < CELLS
}
