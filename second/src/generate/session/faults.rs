//! Orders that are refused, each sort on purpose.

use super::draft::{declare_size, Draft};
use super::good::Maker;
use super::slot::{Slot, NOTIFICATION_FIELDS, WINDOW_FIELDS};
use crate::order::flags::{self, closed_list};
use crate::order::CellPlace;

/// The kinds by their type bit.
const KINDS: [u32; 3] = [flags::WINDOW, flags::NOTIFICATION, flags::DESKTOP];

/// The bits of a window that clash with an icon or a cached icon.
const BESIDE_NO_ICON: u32 = closed_list(flags::WINDOW)
    & !(flags::WINDOW | flags::NEW | flags::DELETED | flags::BIG | flags::OVERLAY)
    & !(flags::ICON | flags::CACHED_ICON);

impl Maker<'_> {
    /// A refused order of any sort, numbers 2 to 11, or 17 where every place is pointed at.
    pub fn refused(&mut self) -> Vec<u8> {
        if self.table.store().used() == self.table.places() && self.random.chance(40) {
            if let Some(order) = self.no_place() {
                return order;
            }
        }
        match self.random.below(100) {
            0..=13 => self.wrong_id(),
            14..=22 => self.no_cell(),
            23..=46 => self.clash(),
            47..=63 => self.outside_list(),
            64..=68 => self.other_type(),
            69..=76 => self.misdeclared(),
            77..=80 => self.short(),
            _ => self.unfilled(),
        }
    }

    /// New with a listed id, or anything else with an absent one.
    fn wrong_id(&mut self) -> Vec<u8> {
        let draft = if self.random.chance(55) {
            self.wrong_window()
        } else {
            self.wrong_icon()
        };
        draft.order(self.random)
    }

    fn wrong_window(&mut self) -> Draft {
        let fields = self.some_of(&WINDOW_FIELDS);
        match self.listed_window() {
            Some(id) if self.random.chance(30) => {
                self.draft(flags::WINDOW | flags::NEW | fields, &[id], &[])
            }
            _ => {
                let id = self.absent_window();
                let picture = self.icon_bits();
                let flags = self.random.pick(&[
                    fields,
                    flags::DELETED,
                    flags::ICON | picture,
                    flags::CACHED_ICON | picture,
                ]);
                self.draft(flags::WINDOW | flags, &[id], &[])
            }
        }
    }

    fn wrong_icon(&mut self) -> Draft {
        let picture = self.random.pick(&[0, 0, flags::ICON, flags::CACHED_ICON]);
        let fields = self.some_of(&NOTIFICATION_FIELDS) | picture;
        match self.listed_icon() {
            Some(ids) if self.random.chance(30) => {
                self.draft(flags::NOTIFICATION | flags::NEW | fields, &ids, &[])
            }
            _ => {
                let ids = self.absent_icon();
                let flags = self.random.pick(&[fields, fields, flags::DELETED]);
                self.draft(flags::NOTIFICATION | flags, &ids, &[])
            }
        }
    }

    /// A cached icon from an empty cell; where all are filled, another refused order.
    pub fn no_cell(&mut self) -> Vec<u8> {
        let Some(fixed) = self.empty_cell() else {
            return self.wrong_id();
        };
        let picture = flags::CACHED_ICON;
        let draft = match (self.random.below(3), self.listed_window()) {
            (0 | 1, Some(id)) => {
                let bits = self.icon_bits();
                self.draft(flags::WINDOW | picture | bits, &[id], &fixed)
            }
            _ => {
                let fields = flags::NOTIFICATION | self.some_of(&NOTIFICATION_FIELDS) | picture;
                match self.listed_icon() {
                    Some(ids) if self.random.chance(50) => self.draft(fields, &ids, &fixed),
                    _ => {
                        let ids = self.absent_icon();
                        self.draft(fields | flags::NEW, &ids, &fixed)
                    }
                }
            }
        };
        draft.order(self.random)
    }

    fn empty_cell(&mut self) -> Option<[(Slot, u32); 2]> {
        let empty: Vec<CellPlace> = (0..12)
            .map(|n| CellPlace {
                cache: n / 6,
                entry: u16::from(n % 6),
            })
            .filter(|&place| self.table.cell(place).is_none())
            .collect();
        if empty.is_empty() {
            return None;
        }
        let place = self.random.pick(&empty);
        Some([
            (Slot::CachedEntry, place.entry.into()),
            (Slot::CachedCache, place.cache.into()),
        ])
    }

    /// Flags that clash, most by one bit.
    fn clash(&mut self) -> Vec<u8> {
        let flags = match self.random.below(100) {
            0..=24 => {
                let bit =
                    self.bit_of(closed_list(flags::WINDOW) & !(flags::WINDOW | flags::DELETED));
                flags::WINDOW | flags::DELETED | bit
            }
            25..=59 => {
                let picture = self.random.pick(&[flags::ICON, flags::CACHED_ICON]);
                flags::WINDOW | picture | self.bit_of(BESIDE_NO_ICON) | self.icon_bits()
            }
            60..=64 => {
                let fields = self.some_of(&WINDOW_FIELDS);
                let both = flags::BIG | flags::OVERLAY;
                let which = self.random.pick(&[flags::BIG, flags::OVERLAY, both, both]);
                let picture = match which == both {
                    true => self.random.pick(&[0, flags::ICON, flags::CACHED_ICON]),
                    false => 0,
                };
                flags::WINDOW | which | picture | self.random.pick(&[0, 0, flags::NEW, fields])
            }
            65..=69 => {
                let kind = self.random.pick(&[flags::WINDOW, flags::NOTIFICATION]);
                let new = self.random.pick(&[0, flags::NEW]);
                kind | new | flags::ICON | flags::CACHED_ICON
            }
            70..=84 => {
                let bit = self.bit_of(0xD000_000F);
                flags::NOTIFICATION | flags::DELETED | bit
            }
            85..=94 => flags::DESKTOP | flags::NONE | self.bit_of(0x3E),
            _ => {
                let more = self.random.below(64) as u32;
                flags::DESKTOP | flags::SYNC_STARTS | flags::SYNC_ENDS | more
            }
        };
        self.with_flags(flags)
    }

    /// A bit outside the kind's closed list, the rest as in a good order.
    fn outside_list(&mut self) -> Vec<u8> {
        // Of a window's bits one alone is outside.
        let skipped = usize::from(self.random.chance(85));
        let kind = self.random.pick(&KINDS[skipped..]);
        let bit = self.bit_of(!closed_list(kind) & !flags::TYPES);
        let more = if self.random.chance(30) {
            self.random.bits() as u32 & !flags::TYPES
        } else {
            0
        };
        self.with_flags(kind | bit | more)
    }

    /// Another first byte, or not exactly one type bit.
    fn other_type(&mut self) -> Vec<u8> {
        if self.random.chance(30) {
            let mut order = self.good();
            order[0] = self
                .random
                .pick(&[0, 0x0B, 0x2C, 0x2D, 0x2F, 0x3E, 0xAE, 0xFF]);
            return order;
        }
        let types = self.random.pick(&[0, 3, 5, 6, 7]) << 24;
        let more = self
            .random
            .pick(&[0, flags::NEW, flags::DELETED, 0x10, 0x04]);
        self.with_flags(types | more)
    }

    /// An order with these flags, its ids listed where there are any.
    fn with_flags(&mut self, flags: u32) -> Vec<u8> {
        let ids = match flags & flags::TYPES {
            flags::WINDOW => vec![self.some_window()],
            flags::NOTIFICATION => self.listed_icon().unwrap_or([1, 2]).to_vec(),
            _ => Vec::new(),
        };
        let draft = self.draft(flags, &ids, &[]);
        draft.order(self.random)
    }

    fn some_window(&mut self) -> u32 {
        match self.listed_window() {
            Some(id) => id,
            None => self.absent_window(),
        }
    }

    fn bit_of(&mut self, mask: u32) -> u32 {
        loop {
            let bit = 1 << self.random.below(32);
            if mask & bit != 0 {
                return bit;
            }
        }
    }

    /// The size in the header is not that of the bytes.
    fn misdeclared(&mut self) -> Vec<u8> {
        let mut order = self.good();
        let length = order.len();
        let declared = match self.random.below(6) {
            0 => length + 1,
            1 => length - 1,
            2 => self.random.bits() as usize,
            3 => {
                order.truncate(7 + self.random.below(length - 6));
                length
            }
            4 => {
                order.truncate(length - 1);
                length
            }
            _ => {
                order.push(self.random.bits() as u8);
                length
            }
        };
        if let Some(size) = order.get_mut(1..3) {
            size.copy_from_slice(&(declared as u16).to_le_bytes());
        }
        order
    }

    /// 0 to 6 bytes, the beginning of an order or any.
    fn short(&mut self) -> Vec<u8> {
        let length = self.random.below(7);
        let mut order = self.good();
        order.truncate(length);
        if self.random.chance(30) {
            order = self.random.bytes(length);
        }
        if self.random.chance(40) {
            declare_size(&mut order);
        }
        order
    }

    /// The size is right, but the fields do not fill it.
    fn unfilled(&mut self) -> Vec<u8> {
        let kind = self.random.below(6);
        let mut draft = match self.random.below(6) {
            0 => self.new_window(),
            1 => self.new_icon(),
            2 => self.desktop(),
            3 => {
                let flags = flags::NOTIFICATION | self.some_of(&NOTIFICATION_FIELDS);
                let ids = self.listed_icon().unwrap_or([1, 2]);
                self.draft(flags, &ids, &[])
            }
            _ => {
                let flags = self
                    .random
                    .pick(&[flags::ICON, flags::ICON, flags::CACHED_ICON]);
                let bits = self.icon_bits();
                let id = self.some_window();
                self.draft(flags::WINDOW | flags | bits, &[id], &[])
            }
        };
        let missaid = kind >= 3 && draft.missay_length(self.random);
        let mut order = draft.order(self.random);
        let length = order.len();
        if !missaid {
            match kind {
                0 | 3 => order.truncate((length - 1).max(7)),
                1 | 4 => order.push(self.random.bits() as u8),
                _ => order.truncate(7 + self.random.below(length - 6)),
            }
        }
        declare_size(&mut order);
        order
    }

    /// A good order with one bit or one byte changed.
    pub fn damaged(&mut self) -> Vec<u8> {
        let mut order = self.good();
        // The beginning, where most numbers stand, is hit more often.
        let reach = if self.random.chance(60) {
            order.len().min(24)
        } else {
            order.len()
        };
        let at = self.random.below(reach);
        if self.random.chance(60) {
            order[at] ^= 1 << self.random.below(8);
        } else {
            order[at] = self.random.bits() as u8;
        }
        order
    }
}
