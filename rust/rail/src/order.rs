//! Orders on their way: cutting an update, and what a granted order changed.

use crate::ids::{NotifyIconId, WindowId};
use crate::protocol::{
    RAIL_ORDER_HEADER, WINDOW_ORDER_CACHEDICON, WINDOW_ORDER_FIELD_DESKTOP_ARC_BEGAN,
    WINDOW_ORDER_FIELD_DESKTOP_NONE, WINDOW_ORDER_FIELD_NOTIFY_INFO_TIP,
    WINDOW_ORDER_FIELD_NOTIFY_STATE, WINDOW_ORDER_FIELD_NOTIFY_TIP,
    WINDOW_ORDER_FIELD_NOTIFY_VERSION, WINDOW_ORDER_ICON, WINDOW_ORDER_STATE_DELETED,
    WINDOW_ORDER_STATE_NEW, WINDOW_ORDER_TYPE_DESKTOP, WINDOW_ORDER_TYPE_NOTIFY,
    WINDOW_ORDER_TYPE_WINDOW,
};
use crate::record::CacheCell;

/// The bytes of the shortest order: the header of a desktop order.
const SHORTEST: usize = 7;

/// What an order is about, and what it does with it.
#[derive(Clone, Copy, Debug, PartialEq, Eq, Hash)]
#[non_exhaustive]
pub enum Change {
    /// A new window.
    WindowNew(WindowId),
    /// Fields of a window, or one of its icons.
    WindowUpdated(WindowId),
    /// A window is gone.
    WindowDeleted(WindowId),
    /// A new notification icon.
    NotificationIconNew(WindowId, NotifyIconId),
    /// Fields of a notification icon, or its picture.
    NotificationIconUpdated(WindowId, NotifyIconId),
    /// A notification icon is gone.
    NotificationIconDeleted(WindowId, NotifyIconId),
    /// The desktop state, and no window.
    Desktop,
    /// All windows and notification icons are gone, and the z-order with them.
    AllGone,
}

/// What a granted order changed, so that a terminal draws only that again.
///
/// ```
/// use rail::{Change, Changed, Session, WindowId};
///
/// let mut session = Session::new();
/// let order = [0x2E, 15, 0, 0x04, 0, 0, 0x11, 0x58, 0, 1, 0, 2, 0, 0x41, 0];
/// let changed = session.take(&order)?;
/// assert_eq!(changed.what, Change::WindowNew(WindowId(0x0001_0058)));
/// assert_eq!(Changed::of(&order), Some(changed));
/// # Ok::<(), rail::Refusal>(())
/// ```
#[derive(Clone, Copy, Debug, PartialEq, Eq, Hash)]
#[non_exhaustive]
pub struct Changed {
    /// What it is about.
    pub what: Change,
    /// FieldsPresentFlags: see [`protocol`](crate::protocol).
    pub flags: u32,
    /// The cell with a new picture, none with cache id FF. What was given the cell's picture
    /// before keeps it.
    pub filled: Option<CacheCell>,
}

impl Changed {
    /// What an order would do or, once it was granted, has done; none where the bytes
    /// are no order. It judges no field: whether an order is granted only a delivery
    /// tells. An undo undoes the same: draw all again after one.
    pub fn of(order: &[u8]) -> Option<Self> {
        let mut from = Fields(order);
        let [first, low, high] = from.array()?;
        if first != RAIL_ORDER_HEADER || usize::from(u16::from_le_bytes([low, high])) != order.len()
        {
            return None;
        }
        let flags = from.u32()?;
        let is = |bit| flags & bit != 0;
        let types = WINDOW_ORDER_TYPE_WINDOW | WINDOW_ORDER_TYPE_NOTIFY | WINDOW_ORDER_TYPE_DESKTOP;
        let what = match flags & types {
            WINDOW_ORDER_TYPE_WINDOW => {
                let id = WindowId(from.u32()?);
                // Beside an icon the new bit says nothing.
                let is_icon = is(WINDOW_ORDER_ICON | WINDOW_ORDER_CACHEDICON);
                if is(WINDOW_ORDER_STATE_DELETED) {
                    Change::WindowDeleted(id)
                } else if is(WINDOW_ORDER_STATE_NEW) && !is_icon {
                    Change::WindowNew(id)
                } else {
                    Change::WindowUpdated(id)
                }
            }
            WINDOW_ORDER_TYPE_NOTIFY => {
                let (window, icon) = (WindowId(from.u32()?), NotifyIconId(from.u32()?));
                if is(WINDOW_ORDER_STATE_DELETED) {
                    Change::NotificationIconDeleted(window, icon)
                } else if is(WINDOW_ORDER_STATE_NEW) {
                    Change::NotificationIconNew(window, icon)
                } else {
                    Change::NotificationIconUpdated(window, icon)
                }
            }
            WINDOW_ORDER_TYPE_DESKTOP if is(WINDOW_ORDER_FIELD_DESKTOP_NONE) => Change::AllGone,
            WINDOW_ORDER_TYPE_DESKTOP => Change::Desktop,
            _ => return None,
        };
        let has_icon = is(WINDOW_ORDER_ICON) && !is(WINDOW_ORDER_TYPE_DESKTOP);
        let filled = if has_icon { from.filled(flags) } else { None };
        Some(Self {
            what,
            flags,
            filled,
        })
    }

    /// Whether the order begins a synchronization (desktop 8): the server will tell all
    /// its windows as new. [`Session::take`](crate::Session::take) acts on it.
    pub fn begins_sync(&self) -> bool {
        self.what == Change::Desktop && self.flags & WINDOW_ORDER_FIELD_DESKTOP_ARC_BEGAN != 0
    }
}

/// The bytes of an order that are not yet passed.
struct Fields<'a>(&'a [u8]);

impl<'a> Fields<'a> {
    fn bytes(&mut self, length: usize) -> Option<&'a [u8]> {
        let (taken, rest) = self.0.split_at_checked(length)?;
        self.0 = rest;
        Some(taken)
    }

    fn array<const N: usize>(&mut self) -> Option<[u8; N]> {
        self.bytes(N)?.try_into().ok()
    }

    fn u32(&mut self) -> Option<u32> {
        self.array().map(u32::from_le_bytes)
    }

    fn string(&mut self) -> Option<&'a [u8]> {
        let length = u16::from_le_bytes(self.array()?);
        self.bytes(length.into())
    }

    /// The cell that the icon behind the other fields fills.
    fn filled(&mut self, flags: u32) -> Option<CacheCell> {
        if flags & WINDOW_ORDER_TYPE_NOTIFY != 0 {
            if flags & WINDOW_ORDER_FIELD_NOTIFY_VERSION != 0 {
                self.bytes(4)?;
            }
            if flags & WINDOW_ORDER_FIELD_NOTIFY_TIP != 0 {
                self.string()?;
            }
            if flags & WINDOW_ORDER_FIELD_NOTIFY_INFO_TIP != 0 {
                self.bytes(8)?;
                self.string()?;
                self.string()?;
            }
            if flags & WINDOW_ORDER_FIELD_NOTIFY_STATE != 0 {
                self.bytes(4)?;
            }
        }
        let cell = CacheCell {
            cache_entry: u16::from_le_bytes(self.array()?),
            cache_id: self.array::<1>()?[0],
        };
        let is_one = cell.cache_id < CacheCell::CACHES && cell.cache_entry < CacheCell::ENTRIES;
        is_one.then_some(cell)
    }
}

/// The orders of an update, which stand in it back to back. Where one cannot be cut by
/// its OrderSize, all that is left comes as the last one; delivered, it is refused.
///
/// ```
/// let update = [0x2E, 7, 0, 2, 0, 0, 4, 0x2E, 7, 0, 4, 0, 0, 4, 0x2E, 9];
/// let orders: Vec<&[u8]> = rail::orders(&update).collect();
/// assert_eq!(orders, [&update[..7], &update[7..14], &update[14..]]);
/// ```
pub fn orders(update: &[u8]) -> Orders<'_> {
    Orders(update)
}

/// The orders of an update: see [`orders`].
#[derive(Clone, Debug)]
pub struct Orders<'a>(&'a [u8]);

impl<'a> Iterator for Orders<'a> {
    type Item = &'a [u8];

    fn next(&mut self) -> Option<&'a [u8]> {
        if self.0.is_empty() {
            return None;
        }
        let size = match *self.0 {
            [_, low, high, ..] => usize::from(u16::from_le_bytes([low, high])),
            _ => 0,
        };
        let fits = size >= SHORTEST && size <= self.0.len();
        let (order, rest) = self.0.split_at(if fits { size } else { self.0.len() });
        self.0 = rest;
        Some(order)
    }
}

#[cfg(test)]
mod tests {
    use super::*;
    use alloc::vec::Vec;

    fn order(flags: u32, fields: &[&[u8]]) -> Vec<u8> {
        let mut order = vec![RAIL_ORDER_HEADER, 0, 0];
        order.extend(flags.to_le_bytes());
        order.extend(fields.concat());
        let size = (order.len() as u16).to_le_bytes();
        order[1..3].copy_from_slice(&size);
        order
    }

    const WINDOW: [u8; 4] = [7, 0, 0, 0];
    const ICON: [u8; 4] = [9, 0, 0, 0];
    const PICTURE: [u8; 16] = [5, 0, 1, 24, 1, 0, 1, 0, 1, 0, 3, 0, 0, 0, 0, 0];

    fn what(flags: u32, fields: &[&[u8]]) -> Option<Change> {
        Changed::of(&order(flags, fields)).map(|changed| changed.what)
    }

    #[test]
    fn kinds_and_ids() {
        let (window, icon) = (WindowId(7), NotifyIconId(9));
        let ids: &[&[u8]] = &[&WINDOW, &ICON];
        for (flags, change) in [
            (0x1100_0000, Change::WindowNew(window)),
            (0x0100_0010, Change::WindowUpdated(window)),
            (0x9100_0000, Change::WindowUpdated(window)),
            (0x2100_0000, Change::WindowDeleted(window)),
            (0x1200_0000, Change::NotificationIconNew(window, icon)),
            (0x9200_0000, Change::NotificationIconNew(window, icon)),
            (0x0200_0001, Change::NotificationIconUpdated(window, icon)),
            (0x2200_0000, Change::NotificationIconDeleted(window, icon)),
            (0x0400_003E, Change::Desktop),
            (0x0400_0001, Change::AllGone),
        ] {
            assert_eq!(what(flags, ids), Some(change), "{flags:08X}");
        }
        assert_eq!(what(0x0500_0000, ids), None);
        assert_eq!(what(0, ids), None);
    }

    #[test]
    fn syncs() {
        let begins = |flags| Changed::of(&order(flags, &[&WINDOW])).map(|c| c.begins_sync());
        assert_eq!(begins(0x0400_0008), Some(true));
        assert_eq!(begins(0x0400_0004), Some(false));
        assert_eq!(begins(0x0400_0009), Some(false));
        assert_eq!(begins(0x0100_0008), Some(false));
    }

    /// The icon of a notification order stands behind all its other fields.
    #[test]
    fn filled_cells() {
        let cell = Some(CacheCell {
            cache_id: 1,
            cache_entry: 5,
        });
        let filled = |flags, fields: &[&[u8]]| Changed::of(&order(flags, fields))?.filled;
        assert_eq!(filled(0x4100_0000, &[&WINDOW, &PICTURE]), cell);
        assert_eq!(filled(0x8100_0000, &[&WINDOW, &PICTURE]), None);
        let mut sent_once = PICTURE;
        sent_once[2] = 0xFF;
        assert_eq!(filled(0x4100_0000, &[&WINDOW, &sent_once]), None);
        let fields: [(u32, &[u8]); 4] = [
            (8, &[4, 0, 0, 0]),
            (1, &[2, 0, 0x41, 0]),
            (2, &[1, 0, 0, 0, 2, 0, 0, 0, 4, 0, 1, 2, 3, 4, 0, 0]),
            (4, &[3, 0, 0, 0]),
        ];
        for chosen in 0..16_u32 {
            let mut flags = 0x5200_0000;
            let mut parts: Vec<&[u8]> = vec![&WINDOW, &ICON];
            for (at, (flag, bytes)) in fields.iter().enumerate() {
                if chosen >> at & 1 == 1 {
                    flags |= flag;
                    parts.push(bytes);
                }
            }
            parts.push(&PICTURE);
            assert_eq!(filled(flags, &parts), cell, "{flags:08X}");
            let whole = order(flags, &parts);
            for size in 0..whole.len() {
                let mut cut = whole[..size].to_vec();
                assert_eq!(Changed::of(&cut), None);
                if size >= 3 {
                    cut[1] = size as u8;
                    let changed = Changed::of(&cut);
                    assert_eq!(changed.is_some(), size >= 15);
                    let has_cell = size >= whole.len() - PICTURE.len() + 3;
                    assert_eq!(changed.is_some_and(|c| c.filled.is_some()), has_cell);
                }
            }
        }
    }

    #[test]
    fn cuts() {
        let sizes = |update| orders(update).map(<[u8]>::len).collect::<Vec<_>>();
        assert_eq!(sizes(&[]), []);
        assert_eq!(sizes(&[0x2E]), [1]);
        assert_eq!(sizes(&[0x2E, 6, 0, 0, 0, 0, 4, 0]), [8]);
        assert_eq!(sizes(&[0x2E, 9, 0, 0, 0, 0, 4, 0]), [8]);
        assert_eq!(sizes(&[0x2E, 7, 0, 0, 0, 0, 4, 0]), [7, 1]);
    }
}
