//! Inputs of the report: windows shown and hidden with rectangles of every sort, orders
//! of all sorts between them, and stretches that fill the history and the store.

use super::random::Random;
use super::session::Maker;
use super::windows::order;
use crate::book::{Book, BYTES_ROOM, ORDERS_ROOM};
use crate::ids::WindowId;
use crate::order::flags;
use crate::report::push_item;
use crate::table::{MOST_PLACES, WINDOWS};

/// One seed in this many gives an input whose last item is cut.
const CUT_END_EVERY: u64 = 20;

/// An input of that many items. In one of twenty the last item is cut.
pub fn input(seed: u64, items: usize) -> Vec<u8> {
    let mut writer = Writer {
        random: Random::new(seed),
        book: Book::new(),
        input: Vec::new(),
        aim: Aim::Any,
        left: 0,
    };
    let cut_end = seed % CUT_END_EVERY == CUT_END_EVERY - 1;
    for left in (0..items).rev() {
        if left == 0 && cut_end {
            writer.push_cut(seed / CUT_END_EVERY);
        } else {
            let bytes = writer.next_item();
            writer.push(&bytes);
        }
    }
    writer.input
}

/// What a stretch of items is to reach.
#[derive(Clone, Copy, PartialEq)]
enum Aim {
    /// Windows of all sorts, and marks.
    Any,
    /// The most windows, all with much to count.
    Windows,
    /// The room for orders: no mark until it is passed.
    Orders,
    /// The room for bytes.
    Bytes,
    /// The places for pictures, and then the room for orders.
    Places,
}

struct Writer {
    random: Random,
    book: Book,
    input: Vec<u8>,
    aim: Aim,
    /// Items left of this stretch, which ends with a mark.
    left: usize,
}

impl Writer {
    fn push(&mut self, bytes: &[u8]) {
        push_item(&mut self.input, bytes);
        if bytes.is_empty() {
            self.book.mark();
        } else {
            let _refusal = self.book.deliver(bytes);
        }
    }

    /// An item cut inside its length or inside its bytes; `sort` chooses which.
    fn push_cut(&mut self, sort: u64) {
        let order = self.maker().seen_or_not();
        let start = self.input.len();
        push_item(&mut self.input, &order);
        let kept = match sort % 3 {
            0 => 1,
            1 => 2 + self.random.below(order.len()),
            _ => 1 + order.len(),
        };
        self.input.truncate(start + kept);
    }

    /// What the next item delivers; nothing is a mark.
    fn next_item(&mut self) -> Vec<u8> {
        if self.left == 0 {
            self.next_stretch();
            return Vec::new();
        }
        self.left -= 1;
        match self.aim {
            Aim::Any => self.any(),
            Aim::Windows => self.fill_windows(),
            Aim::Orders => self.fill_orders(),
            Aim::Bytes => self.fill_bytes(),
            Aim::Places => self.fill_places(),
        }
    }

    fn next_stretch(&mut self) {
        (self.aim, self.left) = match self.random.below(100) {
            0..=49 => (Aim::Any, 20 + self.random.below(50)),
            50..=64 => (Aim::Windows, 70),
            65..=76 => (Aim::Orders, ORDERS_ROOM + 20),
            77..=86 => (Aim::Bytes, 20),
            _ => (Aim::Places, 150),
        };
    }

    fn any(&mut self) -> Vec<u8> {
        match self.random.below(100) {
            0..=9 => Vec::new(),
            10..=29 => self.maker().any(),
            30 => self.random.bytes(65_535),
            31..=34 => {
                let length = 1 + self.random.below(40);
                self.random.bytes(length)
            }
            _ => self.maker().seen_or_not(),
        }
    }

    fn maker(&mut self) -> Maker<'_> {
        Maker {
            table: self.book.table(),
            random: &mut self.random,
        }
    }

    fn room_is_low(&self) -> bool {
        let standing = self.book.standing();
        standing.orders + 1 >= ORDERS_ROOM || standing.bytes + 4_247 > BYTES_ROOM
    }

    /// New windows until the table is full, then most of them shown, and marks between.
    fn fill_windows(&mut self) -> Vec<u8> {
        if self.random.chance(8) {
            return Vec::new();
        }
        let count = self.book.table().window_ids().count();
        if count < WINDOWS {
            let id = self.maker().absent_window();
            return self.maker().seen_window(id, flags::NEW);
        }
        match self.hidden_window() {
            Some(id) if self.random.chance(90) => order(flags::WINDOW | flags::SHOW, id, &[5]),
            _ => self.maker().seen_or_not(),
        }
    }

    fn hidden_window(&self) -> Option<u32> {
        let table = self.book.table();
        let is_hidden = |id: &WindowId| table.window(*id).is_some_and(|w| w.show_state == 0);
        table.window_ids().find(is_hidden).map(|id| id.0)
    }

    fn fill_orders(&mut self) -> Vec<u8> {
        if self.random.chance(4) {
            return self.maker().any();
        }
        self.maker().seen_or_not()
    }

    /// Big icons until the next one does not fit, then small orders, some of which do.
    fn fill_bytes(&mut self) -> Vec<u8> {
        let big = 3_900 + self.random.below(300);
        if self.book.standing().bytes + big <= BYTES_ROOM || self.random.chance(30) {
            if let Some(icon) = self.maker().of_size(big) {
                return icon;
            }
        }
        self.maker().seen_or_not()
    }

    /// Windows and icons until every place is used; then icons that find none, and windows
    /// until the history is full.
    fn fill_places(&mut self) -> Vec<u8> {
        let table = self.book.table();
        if table.store().used() < MOST_PLACES {
            if self.room_is_low() {
                return Vec::new();
            }
            if table.window_ids().count() < WINDOWS {
                let id = self.maker().absent_window();
                return self.maker().seen_window(id, flags::NEW);
            }
            if let Some(icon) = self.maker().growing() {
                return icon;
            }
        }
        if self.random.chance(40) {
            if let Some(icon) = self.maker().no_place() {
                return icon;
            }
        }
        self.maker().seen_or_not()
    }
}
