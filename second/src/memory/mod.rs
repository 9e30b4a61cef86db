//! State memory as a file: index, bodies and journal end to end, then the places of the
//! store. What a file of these bytes describes, by the rules of docs/MEMORY.md; [`write`]
//! makes such a file of a book.

mod body;
pub(crate) mod figures;
mod write;

use std::collections::BTreeMap;

pub use write::write;

use crate::book::{Book, ORDERS_ROOM};
use crate::ids::{NotifyIconId, WindowId};
use crate::order::rules::{self, CACHES, CELLS};
use crate::table::{
    Cell, Holder, Table, FEWEST_PLACES, MOST_PLACES, NOTIFICATION_ICONS, PLACE_SIZE, WINDOWS,
};
use body::Fields;
use figures::Figures;

/// The bytes of the index with its figures, the bodies and the journal.
pub const PARTS: [usize; 3] = [FIGURES_AT + FIGURES_SIZE, 61_012, 32_770];
/// The bytes of all three.
pub const STATE_SIZE: usize = PARTS[0] + PARTS[1] + PARTS[2];
/// The bytes of a file that say anything: past the most places nothing does.
pub const FILE_LIMIT: usize = STATE_SIZE + MOST_PLACES * PLACE_SIZE;

/// The cells, and the slots of records with the pointers of each.
const CELL_COUNT: usize = CACHES * CELLS;
const SLOTS: usize = WINDOWS + NOTIFICATION_ICONS;
const POINTERS_EACH: usize = 3;
/// Where in the index the pointers and the slots begin, and the bytes of a slot there.
const POINTERS_AT: usize = 1;
const SLOTS_AT: usize = POINTERS_AT + CELL_COUNT + POINTERS_EACH * SLOTS;
const SLOT_SIZE: usize = 9;
/// Where behind the index the figures begin.
pub const FIGURES_AT: usize = SLOTS_AT + SLOT_SIZE * SLOTS;
/// The bytes of all of them.
pub const FIGURES_SIZE: usize = figures::PIXELS_AT + figures::PIXELS_SIZE;
/// The bytes of a window's body, and of another; the desktop's follows those of the slots.
const WINDOW_SIZE: usize = 1_392;
const BODY_SIZE: usize = 916;
/// Where in the bodies the heads of pictures begin, and the bytes of one.
const HEADS_AT: usize = body_at(SLOTS + 1);
const HEAD_SIZE: usize = 14;
/// Where in the journal the orders begin.
const ORDERS_AT: usize = 2;

/// Where in the bodies that of a slot begins.
const fn body_at(slot: usize) -> usize {
    match slot.checked_sub(WINDOWS) {
        None => WINDOW_SIZE * slot,
        Some(further) => WINDOW_SIZE * WINDOWS + BODY_SIZE * further,
    }
}

/// What a file describes.
#[derive(Clone, Debug, PartialEq, Eq)]
pub enum Memory {
    /// No state: it is too short, or not well formed.
    Unfit,
    /// This book.
    Book(Box<Book>),
    /// A state with a pointer that no call sets and no book has: the second or third one
    /// of a notification icon.
    Beyond,
}

/// What a file describes. Places past the number that is fixed, a broken one at the end,
/// and all past the most places are left alone.
pub fn read(file: &[u8]) -> Memory {
    let Some(memory) = Parts::of(file) else {
        return Memory::Unfit;
    };
    match memory.table() {
        None => Memory::Unfit,
        Some((_, true)) => Memory::Beyond,
        Some((table, false)) => match memory.orders() {
            Some(orders) => Book::from_mark(table, &orders)
                .map_or(Memory::Unfit, |book| Memory::Book(Box::new(book))),
            None => Memory::Unfit,
        },
    }
}

/// The parts of a file that has all three.
struct Parts<'a> {
    index: &'a [u8],
    bodies: &'a [u8],
    journal: &'a [u8],
    places: &'a [u8],
}

impl<'a> Parts<'a> {
    fn of(file: &'a [u8]) -> Option<Self> {
        let (index, rest) = file.split_at_checked(PARTS[0])?;
        let (bodies, rest) = rest.split_at_checked(PARTS[1])?;
        let (journal, places) = rest.split_at_checked(PARTS[2])?;
        Some(Self {
            index,
            bodies,
            journal,
            places,
        })
    }

    /// The table at the mark, if there is one, and whether it has a pointer that no book
    /// has.
    fn table(&self) -> Option<(Table, bool)> {
        let places = usize::from(self.index[0]);
        let lent = self.places.len() / PLACE_SIZE;
        if !(FEWEST_PLACES..=MOST_PLACES).contains(&places) || lent < places {
            return None;
        }
        let mut held = Held::default();
        for number in 0..CELL_COUNT {
            let holder = Holder::Cell((number / CELLS) as u32, (number % CELLS) as u32);
            let pointer = self.index[POINTERS_AT + number];
            if held.0.contains_key(&pointer) {
                return None;
            }
            held.add(pointer, Some(holder));
        }
        let mut windows = BTreeMap::new();
        let mut icons = BTreeMap::new();
        let mut figures = Figures::default();
        for slot in 0..SLOTS {
            let pointers = self.pointers(slot);
            let Some((window, icon)) = self.ids(slot)? else {
                if pointers != [0; POINTERS_EACH] {
                    return None;
                }
                continue;
            };
            let mut fields = Fields::of(self.body(slot));
            if fields.marks() != [0, 0] {
                return None;
            }
            let holders = if slot < WINDOWS {
                if icon != NotifyIconId(0) {
                    return None;
                }
                let record = fields.window()?;
                figures.add(slot, &record);
                if windows.insert(window, record).is_some() {
                    return None;
                }
                Holder::of_window(window).map(Some)
            } else {
                let ids = (window, icon);
                if icons.insert(ids, fields.notification()?).is_some() {
                    return None;
                }
                [Some(Holder::Notification(window, icon)), None, None]
            };
            for (pointer, holder) in pointers.into_iter().zip(holders) {
                held.add(pointer, holder);
            }
        }
        if self.index[FIGURES_AT..] != figures.bytes() {
            return None;
        }
        let desktop = Fields::of(self.body(SLOTS)).desktop()?;
        let mut pictures = Vec::new();
        let mut beyond = false;
        for (pointer, holders) in held.0 {
            let place = usize::from(pointer) - 1;
            if place >= places {
                return None;
            }
            let picture = self.picture(place)?;
            beyond |= holders.contains(&None);
            pictures.push((holders.into_iter().flatten().collect(), picture));
        }
        let table = Table::of_parts(places, windows, icons, pictures, desktop);
        Some((table, beyond))
    }

    fn pointers(&self, slot: usize) -> [u8; POINTERS_EACH] {
        let at = POINTERS_AT + CELL_COUNT + POINTERS_EACH * slot;
        std::array::from_fn(|n| self.index[at + n])
    }

    /// The ids of a slot, if it is used; none where it is neither used nor free.
    #[allow(clippy::type_complexity)]
    fn ids(&self, slot: usize) -> Option<Option<(WindowId, NotifyIconId)>> {
        let at = SLOTS_AT + SLOT_SIZE * slot;
        let id = |at: usize| u32::from_le_bytes(std::array::from_fn(|n| self.index[at + n]));
        match self.index[at] {
            0 => Some(None),
            1 => Some(Some((WindowId(id(at + 1)), NotifyIconId(id(at + 5))))),
            _ => None,
        }
    }

    fn body(&self, slot: usize) -> &'a [u8] {
        &self.bodies[body_at(slot)..body_at(slot + 1)]
    }

    /// The picture at a place, if its head is one: an icon's numbers without meaning in
    /// entry and cache id.
    fn picture(&self, place: usize) -> Option<Cell> {
        let head = &self.bodies[HEADS_AT + HEAD_SIZE * place..][..HEAD_SIZE];
        let number = |at: usize| u16::from_le_bytes([head[at], head[at + 1]]);
        let (bits, width, height) = (head[3], number(4), number(6));
        let [table, mask, color] = match bits {
            1 | 4 | 8 => [number(8), number(10), number(12)],
            _ => [0, number(8), number(10)],
        }
        .map(usize::from);
        let is_allowed = rules::bits_per_pixel(bits)
            && rules::side(width)
            && rules::side(height)
            && rules::picture_size(table + mask + color);
        if !is_allowed {
            return None;
        }
        let bytes = &self.places[PLACE_SIZE * place..][..PLACE_SIZE];
        let (mask, rest) = bytes.split_at(mask);
        let (color_table, rest) = rest.split_at(table);
        Some(Cell {
            bits_per_pixel: bits,
            width,
            height,
            mask: mask.to_vec(),
            color_table: color_table.to_vec(),
            color: rest[..color].to_vec(),
        })
    }

    /// The orders after the mark, if they are not too many and lie within the room.
    fn orders(&self) -> Option<Vec<&'a [u8]>> {
        let (count, mut rest) = self.journal.split_at(ORDERS_AT);
        let count = usize::from(u16::from_le_bytes([count[0], count[1]]));
        if count > ORDERS_ROOM {
            return None;
        }
        let mut orders = Vec::new();
        for _ in 0..count {
            let &[_, low, high, ..] = rest else {
                return None;
            };
            let size = usize::from(u16::from_le_bytes([low, high]));
            let (order, tail) = rest.split_at_checked(size)?;
            orders.push(order);
            rest = tail;
        }
        Some(orders)
    }
}

/// Who points at each place, by the pointer's byte; none for a pointer that no book has.
#[derive(Default)]
struct Held(BTreeMap<u8, Vec<Option<Holder>>>);

impl Held {
    fn add(&mut self, pointer: u8, holder: Option<Holder>) {
        if pointer != 0 {
            self.0.entry(pointer).or_default().push(holder);
        }
    }
}
