//! Icons by the places that they take and free.

use super::draft::Draft;
use super::good::Maker;
use super::slot::{Slot, NOTIFICATION_FIELDS, WINDOW_FIELDS};
use crate::ids::{NotifyIconId, WindowId};
use crate::order::flags;
use crate::order::rules::{CACHES, CELLS, NO_CACHE};
use crate::order::CellPlace;
use crate::table::{setting, Cell, Holder, NOTIFICATION_ICONS};

/// How many pairs of a pointer and a cell are tried.
const TRIES: usize = 60;

impl Maker<'_> {
    /// An icon after which one more place is pointed at.
    pub fn growing(&mut self) -> Option<Vec<u8>> {
        let used = self.table.store().used();
        self.icon_where(|maker, setting| maker.table.store().used_without(setting) >= used)
    }

    /// An icon that every place but its own is pointed at without.
    pub fn own_place(&mut self) -> Option<Vec<u8>> {
        let (used, places) = (self.table.store().used(), self.table.places());
        self.icon_where(|maker, setting| used == places && !maker.table.is_full_for(setting))
    }

    /// An icon that finds every place pointed at.
    pub fn no_place(&mut self) -> Option<Vec<u8>> {
        self.icon_where(|maker, setting| maker.table.is_full_for(setting))
    }

    /// The same for a window one of whose icons holds the other's place, which the order
    /// would have let go.
    pub fn no_place_beside_other(&mut self) -> Option<Vec<u8>> {
        self.icon_where(|maker, setting| {
            let pointer = setting[setting.len() - 1];
            let store = maker.table.store();
            let is_held_by = |other: Holder| {
                !maker.table.is_full_for(&[setting, &[other]].concat())
                    && store.shared(pointer, other) == Some(true)
            };
            maker.table.is_full_for(setting) && pointer.others().any(is_held_by)
        })
    }

    /// An icon for a listed record, or a new notification icon, whose cell and pointer
    /// are as wished.
    fn icon_where(&mut self, wished: impl Fn(&Self, &[Holder]) -> bool) -> Option<Vec<u8>> {
        for _ in 0..TRIES {
            let pointer = self.pointer()?;
            let place = self.place();
            if wished(self, &setting(place, pointer)) {
                return Some(self.icon_for(pointer, place));
            }
        }
        None
    }

    /// What an icon can be given to, most of it listed.
    fn pointer(&mut self) -> Option<Holder> {
        let has_room = self.table.icon_ids().count() < NOTIFICATION_ICONS;
        let notification =
            |[window, icon]: [u32; 2]| Holder::Notification(WindowId(window), NotifyIconId(icon));
        let (icon, window) = (self.listed_icon(), self.listed_window());
        match self.random.below(20) {
            0..=3 if icon.is_some() => icon.map(notification),
            0 if has_room => Some(notification(self.absent_icon())),
            _ => {
                let which = self.random.below(3);
                window.map(|id| Holder::of_window(WindowId(id))[which])
            }
        }
    }

    /// A cell, or what names none, whatever its entry.
    fn place(&mut self) -> CellPlace {
        if self.random.chance(20) {
            return CellPlace {
                cache: NO_CACHE,
                entry: self.random.pick(&[0, 1, 5, 6, u16::MAX]),
            };
        }
        CellPlace {
            cache: self.random.below(CACHES) as u8,
            entry: self.random.below(CELLS) as u16,
        }
    }

    /// An icon for a pointer and a place. Some have the bytes of a picture that is there.
    fn icon_for(&mut self, pointer: Holder, place: CellPlace) -> Vec<u8> {
        let holders: Vec<Holder> = self.table.store().holders().collect();
        let same = (!holders.is_empty() && self.random.chance(25))
            .then(|| self.random.pick(&holders))
            .and_then(|holder| self.table.shown(holder).cloned());
        let mut fixed = vec![
            (Slot::Entry, u32::from(place.entry)),
            (Slot::Cache, u32::from(place.cache)),
        ];
        if let Some(picture) = &same {
            fixed.extend(lengths(picture));
        }
        let mut order = self.picture_draft(pointer, &fixed).order(self.random);
        if let Some(picture) = same {
            let bytes = [picture.mask, picture.color_table, picture.color].concat();
            let at = order.len() - bytes.len();
            order[at..].copy_from_slice(&bytes);
        }
        order
    }

    /// A cached icon for a pointer, of a filled cell.
    pub fn cached_for(&mut self, pointer: Holder, cell: CellPlace) -> Vec<u8> {
        let fixed = [
            (Slot::CachedEntry, u32::from(cell.entry)),
            (Slot::CachedCache, u32::from(cell.cache)),
        ];
        self.picture_draft(pointer, &fixed).order(self.random)
    }

    /// An order with an icon or a cached icon, by the fields that are fixed.
    fn picture_draft(&mut self, pointer: Holder, fixed: &[(Slot, u32)]) -> Draft {
        let picture = match fixed[0].0 {
            Slot::Entry => flags::ICON,
            _ => flags::CACHED_ICON,
        };
        let new = self.random.pick(&[0, 0, flags::NEW]);
        match pointer {
            Holder::Small(id) => self.draft(flags::WINDOW | picture | new, &[id.0], fixed),
            Holder::Big(id) => {
                let flags = flags::WINDOW | picture | new | flags::BIG;
                self.draft(flags, &[id.0], fixed)
            }
            Holder::Overlay(id) => {
                let flags = flags::WINDOW | picture | new | flags::OVERLAY;
                self.draft(flags, &[id.0], fixed)
            }
            Holder::Notification(window, icon) => {
                let new = match self.table.icon(window, icon) {
                    Some(_) => 0,
                    None => flags::NEW,
                };
                let fields = match self.random.chance(20) {
                    true => self.some_of(&NOTIFICATION_FIELDS),
                    false => 0,
                };
                let flags = flags::NOTIFICATION | picture | new | fields;
                self.draft(flags, &[window.0, icon.0], fixed)
            }
            Holder::Cell(..) => unreachable!("a cell is no pointer"),
        }
    }

    /// The deletion of a record that alone points at a place.
    pub fn freeing_delete(&mut self) -> Option<Vec<u8>> {
        let (used, store) = (self.table.store().used(), self.table.store());
        let windows = self.table.window_ids().filter_map(|id| {
            let own = Holder::of_window(id);
            (store.used_without(&own) < used).then(|| (flags::WINDOW, vec![id.0]))
        });
        let icons = self.table.icon_ids().filter_map(|(window, icon)| {
            let own = [Holder::Notification(window, icon)];
            let ids = vec![window.0, icon.0];
            (store.used_without(&own) < used).then_some((flags::NOTIFICATION, ids))
        });
        let all: Vec<(u32, Vec<u32>)> = windows.chain(icons).collect();
        if all.is_empty() {
            return None;
        }
        let (kind, ids) = &all[self.random.below(all.len())];
        let draft = self.draft(kind | flags::DELETED, ids, &[]);
        Some(draft.order(self.random))
    }

    /// An order by which an overlay icon that alone points at a place becomes none.
    pub fn freeing_overlay(&mut self) -> Option<Vec<u8>> {
        let store = self.table.store();
        let windows: Vec<u32> = self
            .table
            .window_ids()
            .filter(|&id| store.sharing(Holder::Overlay(id)).count() == 1)
            .map(|id| id.0)
            .collect();
        if windows.is_empty() {
            return None;
        }
        let id = self.random.pick(&windows);
        let flags = flags::WINDOW | flags::OVERLAY_NONE | self.some_of(&WINDOW_FIELDS);
        let draft = self.draft(flags, &[id], &[]);
        Some(draft.order(self.random))
    }

    /// A cached icon for a record that alone points at a place.
    pub fn freeing_cached(&mut self) -> Option<Vec<u8>> {
        let cells: Vec<CellPlace> = self.table.filled_cells().collect();
        let store = self.table.store();
        let alone = |&holder: &Holder| {
            !matches!(holder, Holder::Cell(..)) && store.sharing(holder).count() == 1
        };
        let pointers: Vec<Holder> = store.holders().filter(alone).collect();
        if cells.is_empty() || pointers.is_empty() {
            return None;
        }
        let (pointer, cell) = (self.random.pick(&pointers), self.random.pick(&cells));
        Some(self.cached_for(pointer, cell))
    }

    /// A cached icon that gives another icon of a window what one shares with a cell.
    pub fn twin(&mut self) -> Option<Vec<u8>> {
        let store = self.table.store();
        let mut twins = Vec::new();
        for place in self.table.filled_cells() {
            for holder in store.sharing(place.into()) {
                twins.extend(holder.others().map(|other| (other, place)));
            }
        }
        if twins.is_empty() {
            return None;
        }
        let (pointer, cell) = self.random.pick(&twins);
        Some(self.cached_for(pointer, cell))
    }

    /// A cached icon for any listed record and a filled cell; a few cells more often, so
    /// that many share one.
    pub fn sharing(&mut self) -> Option<Vec<u8>> {
        let cells: Vec<CellPlace> = self.table.filled_cells().collect();
        if cells.is_empty() {
            return None;
        }
        let cell = cells[self.random.below(cells.len()) * self.random.below(2)];
        let pointer = self.pointer()?;
        Some(self.cached_for(pointer, cell))
    }
}

/// The fixed fields of a picture of this form.
fn lengths(picture: &Cell) -> [(Slot, u32); 6] {
    [
        (Slot::Bits, picture.bits_per_pixel.into()),
        (Slot::Width, picture.width.into()),
        (Slot::Height, picture.height.into()),
        (Slot::ColorTable, picture.color_table.len() as u32),
        (Slot::Mask, picture.mask.len() as u32),
        (Slot::Color, picture.color.len() as u32),
    ]
}
