//! Pairs of window orders, as two programs side by side have the server send them.

use super::draft::declare_size;
use super::good::Maker;
use super::slot::{pool_id, Slot, WINDOW_FIELDS};
use crate::book::{Book, BYTES_ROOM, ORDERS_ROOM};
use crate::generate::random::Random;
use crate::ids::WindowId;
use crate::order::{flags, judge, Order, WindowChange, WindowOrder};

/// So many windows may be listed where two orders change places.
const FEW_WINDOWS: usize = 30;

/// Two window orders for different windows, neither with an icon or a cell. Some are
/// refused: their window is the wrong one, or their bytes are.
pub fn pair(book: &Book, random: &mut Random) -> [Vec<u8>; 2] {
    let table = book.table();
    let mut maker = Maker { table, random };
    let first = maker.some_id();
    let second = loop {
        let id = maker.some_id();
        if id != first {
            break id;
        }
    };
    [maker.edit(first), maker.edit(second)]
}

/// Two such orders for one window.
pub fn pair_for_one(book: &Book, random: &mut Random) -> [Vec<u8>; 2] {
    let table = book.table();
    let mut maker = Maker { table, random };
    let id = maker.some_id();
    [maker.edit(id), maker.edit(id)]
}

/// Whether two orders may change places on a book: window orders naming different
/// windows, neither with an icon or a cell (or refused for their bytes), with 30 windows
/// at most before the first and room for both.
pub fn may_change_places(book: &Book, first: &[u8], second: &[u8]) -> bool {
    let standing = book.standing();
    let apart = match (named(first), named(second)) {
        (Named::Window(first), Named::Window(second)) => first != second,
        (Named::Other, _) | (_, Named::Other) => false,
        (Named::Nothing, _) | (_, Named::Nothing) => true,
    };
    apart
        && book.table().window_ids().count() <= FEW_WINDOWS
        && standing.orders + 2 <= ORDERS_ROOM
        && standing.bytes + first.len() + second.len() <= BYTES_ROOM
}

/// What an order names.
enum Named {
    /// A window, and no cell.
    Window(WindowId),
    /// Nothing: its bytes are refused on any table.
    Nothing,
    /// A cell, a notification icon or the desktop.
    Other,
}

fn named(order: &[u8]) -> Named {
    match judge(order) {
        Ok(Order::Window(WindowOrder { window_id, change })) => match change {
            WindowChange::Picture { .. } => Named::Other,
            _ => Named::Window(window_id),
        },
        Ok(_) => Named::Other,
        Err(_) => Named::Nothing,
    }
}

impl Maker<'_> {
    /// The id of a listed window, or any.
    fn some_id(&mut self) -> u32 {
        let listed = self.random.chance(60);
        let id = self.listed_window().filter(|_| listed);
        id.unwrap_or_else(|| pool_id(self.random))
    }

    /// An order for a window, without an icon or a cell.
    fn edit(&mut self, id: u32) -> Vec<u8> {
        let listed = self.table.window(WindowId(id)).is_some();
        let fits = self.random.chance(80);
        let state = if listed != fits {
            flags::NEW | self.some_of(&WINDOW_FIELDS)
        } else if self.random.chance(30) {
            flags::DELETED
        } else {
            self.some_of(&WINDOW_FIELDS)
        };
        // Some of the show states at its limits are outside its set.
        let show = (Slot::Show, self.random.pick(Slot::Show.edges()));
        let fixed = if self.random.chance(10) {
            &[show][..]
        } else {
            &[]
        };
        let mut draft = self.draft(flags::WINDOW | state, &[id], fixed);
        if self.random.chance(5) {
            draft.missay_length(self.random);
        }
        let order = draft.order(self.random);
        if self.random.chance(80) {
            return order;
        }
        let spoiled = self.spoiled(order.clone());
        match named(&spoiled) {
            Named::Nothing => spoiled,
            _ => order,
        }
    }

    /// An order with its bytes changed.
    fn spoiled(&mut self, mut order: Vec<u8>) -> Vec<u8> {
        let length = order.len();
        match self.random.below(6) {
            0 => order.truncate(self.random.below(length)),
            1 => order.push(self.random.bits() as u8),
            2 => {
                order.truncate(11.max(length - 1 - self.random.below(length)));
                declare_size(&mut order);
            }
            3 => {
                order.push(self.random.bits() as u8);
                declare_size(&mut order);
            }
            // A type bit or a field's flag more or less.
            4 => order[3 + self.random.below(4)] ^= 1 << self.random.below(6),
            _ => {
                let at = self.random.below(length);
                order[at] = self.random.bits() as u8;
            }
        }
        order
    }
}
