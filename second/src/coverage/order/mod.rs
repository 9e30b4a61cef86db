//! What the deliveries of generated scripts reach.

pub mod expected;
mod limits;

use expected::bits;
use limits::limited;

use super::Facts;
use crate::number::TABLE_FULL;
use crate::order::flags::{self, closed_list};
use crate::order::{decode, DesktopOrder, NotificationChange, Order, Picture};
use crate::order::{WindowChange, WindowIcon};
use crate::table::{Table, NOTIFICATION_ICONS, WINDOWS};

/// How many records a table has before a delivery.
pub struct Listed {
    windows: usize,
    icons: usize,
}

impl Listed {
    /// Those of this table.
    pub fn of(table: &Table) -> Self {
        Self {
            windows: table.window_ids().count(),
            icons: table.icon_ids().count(),
        }
    }
}

/// A room with a limit, and what would be in it after a delivery.
pub struct Room {
    pub name: &'static str,
    pub limit: usize,
    pub count: usize,
    /// The number of a delivery that would pass the limit.
    pub refusal: u8,
}

impl Facts {
    /// The last delivery that a room takes, and the first that it does not.
    pub(super) fn add_room(&mut self, room: &Room, number: u8) {
        let taken = room.count == room.limit && number == 0;
        let passed = room.count == room.limit + 1 && number == room.refusal;
        if taken || passed {
            self.add(format!("D {}={} {number}", room.name, room.count));
        }
    }

    /// What an order delivered to a table of so many records tells by its bytes
    /// and its number.
    pub(super) fn add_order(&mut self, order: &[u8], listed: &Listed, number: u8) {
        let Some((&[first, low, high, ref flags @ ..], _)) = order.split_first_chunk::<7>() else {
            return self.add(format!("D size={} {number}", order.len()));
        };
        let declared = i64::from(u16::from_le_bytes([low, high])) - order.len() as i64;
        if declared.abs() == 1 {
            self.add(format!("D declared{declared:+} {number}"));
        }
        let flags = u32::from_le_bytes(*flags);
        match number {
            3 => {}
            4 if first != 0x2E => self.add("D first byte 4"),
            4 => self.add(format!("D types={} 4", (flags & flags::TYPES) >> 24)),
            _ => self.add_flags(order, flags, number),
        }
        if number == 0 || number >= 8 {
            self.add_decoded(order, listed, number);
        }
    }

    fn add_flags(&mut self, order: &[u8], flags: u32, number: u8) {
        let kind = flags & flags::TYPES;
        let name = kind_name(kind);
        let apart = flags::ICON | flags::CACHED_ICON | flags::DELETED | flags::BIG;
        if kind == flags::WINDOW && flags & apart == 0 && matches!(number, 0 | 6) {
            self.add(format!("D newer={:08X} {number}", flags & flags::NEWER));
        }
        match number {
            0 => {
                for bit in bits(flags & !flags::TYPES) {
                    self.add(format!("D {name} flag={bit:08X} 0"));
                    if kind == flags::WINDOW && flags & flags::NEW != 0 {
                        self.add(format!("D new window flag={bit:08X} 0"));
                    }
                }
            }
            5 => {
                let outside = flags & !closed_list(kind);
                if outside.count_ones() == 1 {
                    self.add(format!("D {name} outside={outside:08X} 5"));
                }
            }
            6 => self.add_clash(name, flags & !flags::TYPES),
            7 => {
                self.add(format!("D {} 7", sort_by_flags(flags)));
                for (text, length) in [("short", order.len() + 1), ("over", order.len() - 1)] {
                    if fills(order, length) {
                        self.add(format!("D {name} one byte {text} 7"));
                    }
                }
            }
            _ => {}
        }
    }

    /// Which flags clash, where they are just two.
    fn add_clash(&mut self, name: &str, bits: u32) {
        let besides = |mask: u32| Some(bits & !mask).filter(|rest| rest.count_ones() == 1);
        let icons = flags::ICON | flags::CACHED_ICON;
        let fact = if name == "desktop" {
            match besides(flags::NONE) {
                Some(bit) if bits & flags::NONE != 0 => format!("none with {bit:08X}"),
                _ if bits & flags::NONE == 0 => "start with end".into(),
                _ => return,
            }
        } else if bits & flags::DELETED != 0 {
            match besides(flags::DELETED) {
                Some(bit) => format!("deleted with {bit:08X}"),
                None => return,
            }
        } else if bits & icons == icons {
            "icon with cached icon".into()
        } else if bits & icons == 0 {
            match bits & (flags::BIG | flags::OVERLAY) {
                flags::BIG => "big without an icon".into(),
                flags::OVERLAY => "overlay without an icon".into(),
                _ => "big and overlay without an icon".into(),
            }
        } else {
            let icon = if bits & flags::ICON != 0 {
                "icon"
            } else {
                "cached icon"
            };
            let which = flags::BIG | flags::OVERLAY;
            match besides(icons | flags::NEW | which) {
                None if bits & which == which => format!("{icon} with big and overlay"),
                Some(bit) if bits & which != which => format!("{icon} with {bit:08X}"),
                _ => return,
            }
        };
        self.add(format!("D clash {name} {fact}"));
    }

    /// Facts about the sort of an order, the room for a new record, and each
    /// limited number, if all others are allowed.
    fn add_decoded(&mut self, bytes: &[u8], listed: &Listed, number: u8) {
        let order = decode(bytes).expect("an order that fills its bytes");
        self.add(format!("D {} {number}", sort(&order)));
        if let Some(room) = room(&order, listed) {
            self.add_room(&room, number);
        }
        let all = limited(&order);
        for (name, value, _) in &all {
            let others_allowed = all.iter().all(|(other, _, good)| other == name || *good);
            if others_allowed {
                self.add(format!("D {name}={value} {number}"));
            }
        }
    }
}

/// The room that an order's new record would take.
fn room(order: &Order<'_>, listed: &Listed) -> Option<Room> {
    let (name, limit, before) = match order {
        Order::Window(order) if matches!(order.change, WindowChange::New(_)) => {
            ("windows", WINDOWS, listed.windows)
        }
        Order::Notification(order) if matches!(order.change, NotificationChange::New(_)) => {
            ("icons", NOTIFICATION_ICONS, listed.icons)
        }
        _ => return None,
    };
    Some(Room {
        name,
        limit,
        count: before + 1,
        refusal: TABLE_FULL,
    })
}

/// Whether an order would fill its bytes if it had so many, zeros at its end.
fn fills(order: &[u8], length: usize) -> bool {
    let mut order = order.to_vec();
    order.resize(length, 0);
    if let Some(size) = order.get_mut(1..3) {
        size.copy_from_slice(&(length as u16).to_le_bytes());
    }
    decode(&order).is_ok()
}

fn kind_name(kind: u32) -> &'static str {
    match kind {
        flags::WINDOW => "window",
        flags::NOTIFICATION => "notification",
        _ => "desktop",
    }
}

/// What sort of order it is.
pub fn sort(order: &Order<'_>) -> &'static str {
    match order {
        Order::Window(order) => match &order.change {
            WindowChange::New(_) => "new window",
            WindowChange::Update(_) => "update window",
            WindowChange::Delete => "delete window",
            WindowChange::Picture { which, picture } => {
                let is_cached = matches!(picture, Picture::Cached(_));
                picture_sort(*which, is_cached)
            }
        },
        Order::Notification(order) => match &order.change {
            NotificationChange::New(fields) => match fields.picture {
                None => "new notification",
                Some(Picture::Icon(_)) => "new notification with icon",
                Some(Picture::Cached(_)) => "new notification with cached icon",
            },
            NotificationChange::Update(fields) => match fields.picture {
                None => "update notification",
                Some(Picture::Icon(_)) => "update notification with icon",
                Some(Picture::Cached(_)) => "update notification with cached icon",
            },
            NotificationChange::Delete => "delete notification",
        },
        Order::Desktop(DesktopOrder::None) => "desktop none",
        Order::Desktop(DesktopOrder::Monitored(_)) => "desktop",
    }
}

fn picture_sort(which: WindowIcon, is_cached: bool) -> &'static str {
    match (which, is_cached) {
        (WindowIcon::Small, false) => "small icon",
        (WindowIcon::Big, false) => "big icon",
        (WindowIcon::Overlay, false) => "overlay icon",
        (WindowIcon::Small, true) => "small cached icon",
        (WindowIcon::Big, true) => "big cached icon",
        (WindowIcon::Overlay, true) => "overlay cached icon",
    }
}

/// The sort of an order that does not fill its bytes, by its flags alone.
fn sort_by_flags(flags: u32) -> &'static str {
    let has = |bits: u32| flags & bits != 0;
    match flags & flags::TYPES {
        flags::WINDOW if has(flags::DELETED) => "delete window",
        flags::WINDOW if has(flags::ICON | flags::CACHED_ICON) => {
            let which = match (has(flags::BIG), has(flags::OVERLAY)) {
                (true, _) => WindowIcon::Big,
                (_, true) => WindowIcon::Overlay,
                _ => WindowIcon::Small,
            };
            picture_sort(which, has(flags::CACHED_ICON))
        }
        flags::WINDOW if has(flags::NEW) => "new window",
        flags::WINDOW => "update window",
        flags::NOTIFICATION if has(flags::DELETED) => "delete notification",
        flags::NOTIFICATION if has(flags::NEW) => "new notification",
        flags::NOTIFICATION => "update notification",
        _ if has(flags::NONE) => "desktop none",
        _ => "desktop",
    }
}
