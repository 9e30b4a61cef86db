//! What an order meets on a table, and what it makes of it.

use super::{Cell, Desktop, NotificationIcon, Rect, Table, Window};
use super::{Holder, NOTIFICATION_ICONS, WINDOWS};
use crate::ids::WindowId;
use crate::number::{NO_CELL, NO_PLACE, TABLE_FULL, WRONG_ID};
use crate::order::rules::{ID_SIZE, NO_CACHE, RECT_SIZE};
use crate::order::{CellPlace, DesktopFields, DesktopOrder, Icon, Order, Picture};
use crate::order::{NotificationChange, NotificationFields, NotificationOrder};
use crate::order::{WindowChange, WindowFields, WindowOrder};

/// The number that a judged order meets on a table: 9, 10, 11, 17, else 0.
pub fn number(table: &Table, order: &Order<'_>) -> u8 {
    let (listed, new, full) = match order {
        Order::Window(order) => {
            let listed = table.windows.contains_key(&order.window_id);
            let new = matches!(order.change, WindowChange::New(_));
            (listed, new, table.windows.len() >= WINDOWS)
        }
        Order::Notification(order) => {
            let ids = (order.window_id, order.notify_icon_id);
            let new = matches!(order.change, NotificationChange::New(_));
            let full = table.icons.len() >= NOTIFICATION_ICONS;
            (table.icons.contains_key(&ids), new, full)
        }
        Order::Desktop(_) => return 0,
    };
    let given = given(order);
    if listed == new {
        WRONG_ID
    } else if new && full {
        TABLE_FULL
    } else if given.is_some_and(|(_, picture)| is_of_empty_cell(table, &picture)) {
        NO_CELL
    } else if brings_icon(order).is_some_and(|setting| table.is_full_for(&setting)) {
        NO_PLACE
    } else {
        0
    }
}

/// Those that an order sets, if it brings an icon: its cell, where it names one, and last
/// its pointer.
pub fn brings_icon(order: &Order<'_>) -> Option<Vec<Holder>> {
    match given(order)? {
        (holder, Picture::Icon(icon)) => Some(setting(icon.place, holder)),
        (_, Picture::Cached(_)) => None,
    }
}

/// Those that an icon for a place and a pointer sets: with cache id FF, the pointer alone.
pub fn setting(place: CellPlace, pointer: Holder) -> Vec<Holder> {
    match place.cache {
        NO_CACHE => vec![pointer],
        _ => vec![place.into(), pointer],
    }
}

/// Who is given a picture by an order, and which.
fn given<'a>(order: &Order<'a>) -> Option<(Holder, Picture<'a>)> {
    match order {
        Order::Window(order) => match order.change {
            WindowChange::Picture { which, picture } => {
                Some((Holder::icon(order.window_id, which), picture))
            }
            WindowChange::New(_) | WindowChange::Update(_) | WindowChange::Delete => None,
        },
        Order::Notification(order) => {
            let holder = Holder::Notification(order.window_id, order.notify_icon_id);
            match order.change {
                NotificationChange::New(fields) | NotificationChange::Update(fields) => {
                    fields.picture.map(|picture| (holder, picture))
                }
                NotificationChange::Delete => None,
            }
        }
        Order::Desktop(_) => None,
    }
}

/// Whether a picture is to come from a cell that has none.
fn is_of_empty_cell(table: &Table, picture: &Picture<'_>) -> bool {
    match picture {
        Picture::Icon(_) => false,
        Picture::Cached(place) => table.cell(*place).is_none(),
    }
}

impl Table {
    /// Whether every place is pointed at once these have let go.
    pub fn is_full_for(&self, setting: &[Holder]) -> bool {
        self.store.used_without(setting) >= self.places
    }

    /// Changes the table by an order whose [`number`] is 0.
    ///
    /// # Panics
    /// If the number is another one.
    pub fn apply(&mut self, order: &Order<'_>) {
        assert_eq!(number(self, order), 0, "only accepted orders are applied");
        match order {
            Order::Window(order) => self.apply_window(order),
            Order::Notification(order) => self.apply_notification(order),
            Order::Desktop(DesktopOrder::None) => {
                self.windows.clear();
                self.icons.clear();
                self.store
                    .retain(|holder| matches!(holder, Holder::Cell(..)));
                self.desktop = Desktop::default();
            }
            Order::Desktop(DesktopOrder::Monitored(fields)) => self.desktop.set(fields),
        }
        if let Some((holder, picture)) = given(order) {
            self.give(holder, &picture);
        }
    }

    fn apply_window(&mut self, order: &WindowOrder<'_>) {
        let id = order.window_id;
        match &order.change {
            WindowChange::New(fields) | WindowChange::Update(fields) => {
                self.windows.entry(id).or_default().set(fields);
                if fields.overlay_none {
                    self.store.retain(|&holder| holder != Holder::Overlay(id));
                }
            }
            WindowChange::Delete => {
                self.windows.remove(&id);
                self.store.retain(|holder| holder.window() != Some(id));
            }
            WindowChange::Picture { .. } => {}
        }
    }

    fn apply_notification(&mut self, order: &NotificationOrder<'_>) {
        let ids = (order.window_id, order.notify_icon_id);
        match &order.change {
            NotificationChange::New(fields) | NotificationChange::Update(fields) => {
                self.icons.entry(ids).or_default().set(fields);
            }
            NotificationChange::Delete => {
                self.icons.remove(&ids);
                let own = Holder::Notification(ids.0, ids.1);
                self.store.retain(|&holder| holder != own);
            }
        }
    }

    /// Gives a picture to a holder: one that is carried goes to a place of its own, for
    /// the holder and its cell, if it has one; of a cell, its place is shared.
    fn give(&mut self, holder: Holder, picture: &Picture<'_>) {
        match picture {
            Picture::Icon(icon) => {
                let setting = setting(icon.place, holder);
                self.store.take(&setting, Cell::of(icon));
            }
            Picture::Cached(place) => self.store.share(holder, (*place).into()),
        }
    }
}

impl Window {
    fn set(&mut self, fields: &WindowFields<'_>) {
        set(&mut self.owner, fields.owner);
        if let Some(style) = fields.style {
            (self.style, self.extended_style) = style;
        }
        set(&mut self.show_state, fields.show_state);
        set_bytes(&mut self.title, fields.title);
        set(&mut self.client_offset, fields.client_offset);
        set(&mut self.client_size, fields.client_size);
        set(&mut self.margin_x, fields.margin_x);
        set(&mut self.margin_y, fields.margin_y);
        set(&mut self.rp_content, fields.rp_content);
        set(&mut self.root_parent, fields.root_parent);
        set(&mut self.window_offset, fields.window_offset);
        set(&mut self.client_delta, fields.client_delta);
        set(&mut self.window_size, fields.window_size);
        set(&mut self.window_rects, fields.window_rects.map(rects));
        set(&mut self.visible_offset, fields.visible_offset);
        set(
            &mut self.visibility_rects,
            fields.visibility_rects.map(rects),
        );
        set_bytes(&mut self.overlay_text, fields.overlay_text);
        set(&mut self.taskbar, fields.taskbar);
        set(&mut self.server_z, fields.server_z);
        set(&mut self.app_bar, fields.app_bar);
        set(&mut self.edge, fields.edge);
    }
}

impl NotificationIcon {
    fn set(&mut self, fields: &NotificationFields<'_>) {
        set(&mut self.version, fields.version);
        set_bytes(&mut self.tip, fields.tip);
        if let Some(balloon) = fields.balloon {
            self.balloon_timeout = balloon.timeout;
            self.balloon_flags = balloon.flags;
            self.balloon_text = balloon.text.to_vec();
            self.balloon_title = balloon.title.to_vec();
        }
        set(&mut self.state, fields.state);
    }
}

impl Desktop {
    fn set(&mut self, fields: &DesktopFields<'_>) {
        self.hooked |= fields.hooked;
        set(&mut self.syncing, fields.syncing);
        set(&mut self.active, fields.active);
        set(&mut self.stack, fields.stack.map(ids));
    }
}

impl Cell {
    fn of(icon: &Icon<'_>) -> Self {
        Self {
            bits_per_pixel: icon.bits_per_pixel,
            width: icon.width,
            height: icon.height,
            mask: icon.mask.to_vec(),
            color_table: icon.color_table.to_vec(),
            color: icon.color.to_vec(),
        }
    }
}

/// Sets a field that an order carries.
fn set<T>(field: &mut T, carried: Option<T>) {
    if let Some(value) = carried {
        *field = value;
    }
}

fn set_bytes(field: &mut Vec<u8>, carried: Option<&[u8]>) {
    set(field, carried.map(<[u8]>::to_vec));
}

/// The rectangles that an order carries.
pub(crate) fn rects(bytes: &[u8]) -> Vec<Rect> {
    bytes
        .chunks_exact(RECT_SIZE)
        .map(|rect| {
            let side = |at: usize| u16::from_le_bytes([rect[at], rect[at + 1]]);
            Rect {
                left: side(0),
                top: side(2),
                right: side(4),
                bottom: side(6),
            }
        })
        .collect()
}

fn ids(bytes: &[u8]) -> Vec<WindowId> {
    bytes
        .chunks_exact(ID_SIZE)
        .map(|id| WindowId(u32::from_le_bytes([id[0], id[1], id[2], id[3]])))
        .collect()
}
