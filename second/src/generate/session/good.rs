//! Orders that a table accepts, at limits too.

use super::draft::Draft;
use super::slot::{
    pool_icon_id, pool_id, FlagFields, Slot, CACHED_FIELDS, DESKTOP_FIELDS, ICON_FIELDS,
    NOTIFICATION_FIELDS, WINDOW_FIELDS,
};
use crate::generate::random::Random;
use crate::order::flags;
use crate::table::{Table, NOTIFICATION_ICONS, WINDOWS};

/// The bytes of a window icon order without its picture, of 16 bits or more.
const ICON_ORDER: usize = 23;
/// The most bytes of a picture.
const MOST_PICTURE: usize = 4_224;

/// Makes orders for a table.
pub struct Maker<'a> {
    pub table: &'a Table,
    pub random: &'a mut Random,
}

impl Maker<'_> {
    /// An order of any sort: half of them fit for the table, others at limits, refused on
    /// purpose or damaged.
    pub fn any(&mut self) -> Vec<u8> {
        match self.random.below(100) {
            0..=51 => self.good(),
            52..=71 => self.at_edge(),
            72..=93 => self.refused(),
            _ => self.damaged(),
        }
    }

    /// An order of any kind, fit for the table.
    pub fn good(&mut self) -> Vec<u8> {
        let draft = match self.random.below(100) {
            0..=16 => self.new_window(),
            17..=39 => self.update_window(),
            40..=44 => self.delete_window(),
            45..=53 => self.window_icon(),
            54..=59 => self.window_cached(),
            60..=69 => self.new_icon(),
            70..=80 => self.update_icon(),
            81..=83 => self.delete_icon(),
            _ => self.desktop(),
        };
        draft.order(self.random)
    }

    /// A new window, or a listed one deleted where the table is full.
    pub fn new_window(&mut self) -> Draft {
        if self.table.window_ids().count() >= WINDOWS && self.random.chance(75) {
            return self.delete_window();
        }
        let flags = flags::WINDOW | flags::NEW | self.some_of(&WINDOW_FIELDS);
        let id = self.absent_window();
        self.draft(flags, &[id], &[])
    }

    fn update_window(&mut self) -> Draft {
        let flags = flags::WINDOW | self.some_of(&WINDOW_FIELDS);
        self.on_window(flags, &[])
    }

    fn delete_window(&mut self) -> Draft {
        self.on_window(flags::WINDOW | flags::DELETED, &[])
    }

    fn window_icon(&mut self) -> Draft {
        let flags = flags::WINDOW | flags::ICON | self.icon_bits();
        self.on_window(flags, &[])
    }

    fn window_cached(&mut self) -> Draft {
        let Some(fixed) = self.filled_cell() else {
            return self.window_icon();
        };
        let flags = flags::WINDOW | flags::CACHED_ICON | self.icon_bits();
        self.on_window(flags, &fixed)
    }

    /// A new notification icon, or one deleted where the table is full.
    pub fn new_icon(&mut self) -> Draft {
        if self.table.icon_ids().count() >= NOTIFICATION_ICONS && self.random.chance(75) {
            return self.delete_icon();
        }
        let (picture, fixed) = self.notification_picture();
        let fields = self.some_of(&NOTIFICATION_FIELDS);
        let flags = flags::NOTIFICATION | flags::NEW | fields | picture;
        let ids = self.absent_icon();
        self.draft(flags, &ids, &fixed)
    }

    fn update_icon(&mut self) -> Draft {
        let (picture, fixed) = self.notification_picture();
        let flags = flags::NOTIFICATION | self.some_of(&NOTIFICATION_FIELDS) | picture;
        self.on_icon(flags, &fixed)
    }

    fn delete_icon(&mut self) -> Draft {
        self.on_icon(flags::NOTIFICATION | flags::DELETED, &[])
    }

    /// A desktop order; none, which empties much, is rare.
    pub fn desktop(&mut self) -> Draft {
        let flags = if self.random.chance(6) {
            flags::NONE
        } else {
            let sync = self
                .random
                .pick(&[0, 0, flags::SYNC_STARTS, flags::SYNC_ENDS]);
            let hooked = self.random.pick(&[0, flags::HOOKED]);
            self.some_of(&DESKTOP_FIELDS) | sync | hooked
        };
        self.draft(flags::DESKTOP | flags, &[], &[])
    }

    /// A small order that only takes a place in the history.
    pub fn small(&mut self) -> Vec<u8> {
        let draft = match self.random.below(4) {
            0 => self.on_window(flags::WINDOW | flags::SHOW, &[]),
            1 => self.on_icon(flags::NOTIFICATION, &[]),
            _ => self.draft(flags::DESKTOP | flags::HOOKED, &[], &[]),
        };
        draft.order(self.random)
    }

    /// An order with one field at or beside a limit, else fit for the table.
    pub fn at_edge(&mut self) -> Vec<u8> {
        let all = edges();
        loop {
            let (flag, slot, number) = self.random.pick(&all);
            // Big pictures are kept rare.
            if number > 4_000 && slot.counts_end() && !self.random.chance(25) {
                continue;
            }
            let fixed = self.beside_edge(slot, number);
            let draft = self.edge_draft(flag, &fixed);
            return draft.order(self.random);
        }
    }

    /// An order with this flag and perhaps more, new or for what is listed.
    fn edge_draft(&mut self, flag: u32, fixed: &[(Slot, u32)]) -> Draft {
        let new = self.random.chance(30);
        match flag & flags::TYPES {
            flags::WINDOW if flag & (flags::ICON | flags::CACHED_ICON) != 0 => {
                let bits = self.icon_bits();
                self.on_window(flag | bits, fixed)
            }
            flags::WINDOW => {
                let flags = flag | self.some_of(&WINDOW_FIELDS);
                if !new {
                    return self.on_window(flags, fixed);
                }
                let id = self.absent_window();
                self.draft(flags | flags::NEW, &[id], fixed)
            }
            flags::NOTIFICATION => {
                let flags = flag | self.some_of(&NOTIFICATION_FIELDS);
                if !new {
                    return self.on_icon(flags, fixed);
                }
                let ids = self.absent_icon();
                self.draft(flags | flags::NEW, &ids, fixed)
            }
            _ => self.draft(flag, &[], fixed),
        }
    }

    /// The field at its limit, and those that it needs beside it.
    fn beside_edge(&mut self, slot: Slot, number: u32) -> Vec<(Slot, u32)> {
        let mut fixed = vec![(slot, number)];
        match slot {
            Slot::ColorTable | Slot::Mask | Slot::Color => {
                let empty = [Slot::ColorTable, Slot::Mask, Slot::Color];
                fixed.extend(empty.map(|slot| (slot, 0)));
                fixed.push((Slot::Bits, self.random.pick(&[1, 4, 8])));
            }
            Slot::CachedEntry | Slot::CachedCache => {
                let fits = |cell: &&(u32, u32)| match slot {
                    Slot::CachedEntry => cell.0 == number,
                    _ => cell.1 == number,
                };
                let filled = self.filled_cells();
                if let Some((entry, cache)) = filled.iter().find(fits) {
                    fixed.push((Slot::CachedEntry, *entry));
                    fixed.push((Slot::CachedCache, *cache));
                }
            }
            _ => {}
        }
        fixed
    }

    /// A window icon order of exactly that many bytes, if one can have them.
    pub fn of_size(&mut self, size: usize) -> Option<Vec<u8>> {
        let picture = size.checked_sub(ICON_ORDER)?;
        if picture > MOST_PICTURE {
            return None;
        }
        let mask = self.random.below(picture + 1);
        let fixed = [
            (Slot::Bits, self.random.pick(&[16, 24, 32])),
            (Slot::Mask, mask as u32),
            (Slot::Color, (picture - mask) as u32),
        ];
        let id = self.listed_window()?;
        let flags = flags::WINDOW | flags::ICON | self.icon_bits();
        let draft = self.draft(flags, &[id], &fixed);
        Some(draft.order(self.random))
    }

    /// A draft with these flags, ids and fixed numbers.
    pub fn draft(&mut self, flags: u32, ids: &[u32], fixed: &[(Slot, u32)]) -> Draft {
        Draft::new(flags, ids, fixed, self.random)
    }

    /// On a listed window; a new one where none is listed.
    fn on_window(&mut self, flags: u32, fixed: &[(Slot, u32)]) -> Draft {
        match self.listed_window() {
            Some(id) => self.draft(flags, &[id], fixed),
            None => self.new_window(),
        }
    }

    /// On a listed notification icon; a new one where none is listed.
    fn on_icon(&mut self, flags: u32, fixed: &[(Slot, u32)]) -> Draft {
        match self.listed_icon() {
            Some(ids) => self.draft(flags, &ids, fixed),
            None => {
                let ids = self.absent_icon();
                self.draft(flags & !flags::DELETED | flags::NEW, &ids, fixed)
            }
        }
    }

    /// No field flag, one, some or all.
    pub fn some_of(&mut self, fields: &[FlagFields]) -> u32 {
        let percent = match self.random.below(10) {
            0 => 0,
            1..=4 => return self.random.pick(fields).0,
            5..=8 => 30,
            _ => 100,
        };
        fields
            .iter()
            .filter(|_| self.random.chance(percent))
            .fold(0, |flags, (flag, _)| flags | flag)
    }

    /// Small, big or overlay, and the new bit, which does nothing there.
    pub fn icon_bits(&mut self) -> u32 {
        let which = self.random.pick(&[0, flags::BIG, flags::OVERLAY]);
        let new = self.random.pick(&[0, 0, flags::NEW]);
        which | new
    }

    /// No picture, an icon or a filled cell, with the flag for it.
    fn notification_picture(&mut self) -> (u32, Vec<(Slot, u32)>) {
        match (self.random.below(4), self.filled_cell()) {
            (0, Some(fixed)) => (flags::CACHED_ICON, fixed.to_vec()),
            (1, _) => (flags::ICON, Vec::new()),
            _ => (0, Vec::new()),
        }
    }

    fn filled_cells(&self) -> Vec<(u32, u32)> {
        let filled = self.table.filled_cells();
        filled
            .map(|place| (place.entry.into(), place.cache.into()))
            .collect()
    }

    fn filled_cell(&mut self) -> Option<[(Slot, u32); 2]> {
        let (entry, cache) = self.one_of(self.filled_cells())?;
        Some([(Slot::CachedEntry, entry), (Slot::CachedCache, cache)])
    }

    pub fn listed_window(&mut self) -> Option<u32> {
        self.one_of(self.table.window_ids().map(|id| id.0).collect())
    }

    pub fn listed_icon(&mut self) -> Option<[u32; 2]> {
        let ids = self.table.icon_ids();
        self.one_of(ids.map(|(window, icon)| [window.0, icon.0]).collect())
    }

    fn one_of<T: Copy>(&mut self, list: Vec<T>) -> Option<T> {
        (!list.is_empty()).then(|| self.random.pick(&list))
    }

    pub fn absent_window(&mut self) -> u32 {
        loop {
            let id = pool_id(self.random);
            if self.table.window_ids().all(|listed| listed.0 != id) {
                return id;
            }
        }
    }

    pub fn absent_icon(&mut self) -> [u32; 2] {
        loop {
            let ids = [pool_id(self.random), pool_icon_id(self.random)];
            let listed = |(window, icon): (_, _)| [window, icon] == ids;
            if !self.table.icon_ids().any(|(w, i)| listed((w.0, i.0))) {
                return ids;
            }
        }
    }
}

/// Every number at a limit, with its field and the flags that bring it.
fn edges() -> Vec<(u32, Slot, u32)> {
    let kinds: [(u32, &[FlagFields]); 7] = [
        (flags::WINDOW, &WINDOW_FIELDS),
        (flags::NOTIFICATION, &NOTIFICATION_FIELDS),
        (flags::DESKTOP, &DESKTOP_FIELDS),
        (flags::WINDOW, &[(flags::ICON, &ICON_FIELDS)]),
        (flags::NOTIFICATION, &[(flags::ICON, &ICON_FIELDS)]),
        (flags::WINDOW, &[(flags::CACHED_ICON, &CACHED_FIELDS)]),
        (flags::NOTIFICATION, &[(flags::CACHED_ICON, &CACHED_FIELDS)]),
    ];
    let mut edges = Vec::new();
    for (kind, fields) in kinds {
        for (flag, slots) in fields {
            for slot in *slots {
                let numbers = slot.edges().iter();
                edges.extend(numbers.map(|&number| (kind | flag, *slot, number)));
            }
        }
    }
    edges
}
