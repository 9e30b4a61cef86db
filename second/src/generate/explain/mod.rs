//! Pairs of a state and an order, as files: states that scripts of state calls lead to,
//! and orders of every number and with each field at fault.

mod figures;
pub mod orders;
pub mod states;

use std::sync::Arc;

use orders::{at_fault, targets, Fault};

use super::random::Random;
use super::session::{self, Maker};
use crate::book::{Book, BYTES_ROOM, ORDERS_ROOM};
use crate::order::flags;
use crate::script::parts::Parts;
use crate::script::session::{call, Session};
use crate::script::take_item;
use crate::table::{NOTIFICATION_ICONS, WINDOWS};

/// The items of the script that leads to the states of a seed.
pub const SCRIPT_ITEMS: usize = 300;
/// Orders for one state.
pub const ORDERS_EACH: usize = 4;
/// Sets the numbers drawn here apart from those that made the calls.
const APART: u64 = 0x2545_F491_4F6C_DD1D;

/// A file named as an argument.
#[derive(Clone, Debug, PartialEq, Eq)]
pub enum Named {
    /// None is there.
    Missing,
    /// It is a folder.
    Folder,
    /// It has these bytes.
    Bytes(Arc<Vec<u8>>),
}

impl Named {
    /// The bytes that can be read of it.
    pub fn bytes(&self) -> &[u8] {
        match self {
            Self::Missing | Self::Folder => &[],
            Self::Bytes(bytes) => bytes,
        }
    }
}

/// A pair, and what was done to make it.
#[derive(Clone, Debug, PartialEq, Eq)]
#[allow(missing_docs)]
pub struct Pair {
    pub state: Named,
    pub order: Named,
    /// What the state file is.
    pub of_state: String,
    /// What the order is.
    pub of_order: String,
}

/// The items after which a state is taken, of a script of that many: ascending.
pub fn stops(seed: u64, pairs: usize) -> Vec<usize> {
    let count = pairs.div_ceil(ORDERS_EACH);
    let mut random = Random::new(seed ^ APART.rotate_left(32));
    let mut stops: Vec<usize> = (0..count).map(|_| random.below(SCRIPT_ITEMS)).collect();
    stops.sort_unstable();
    stops
}

/// The script that leads to the states of a seed.
pub fn script(seed: u64) -> Vec<u8> {
    session::script(seed, SCRIPT_ITEMS, &Parts::default())
}

/// That many pairs.
pub fn pairs(seed: u64, count: usize) -> Vec<Pair> {
    let mut maker = PairMaker::new(seed);
    let mut pairs = Vec::new();
    let (script, parts) = (script(seed), Parts::default());
    let mut session = Session::default();
    let mut rest: &[u8] = &script;
    let mut done = 0;
    for stop in stops(seed, count) {
        while done <= stop {
            let Some((item, tail)) = take_item(rest) else {
                break;
            };
            if let Some(call) = call(item, &parts) {
                session.make(&call);
            }
            rest = tail;
            done += 1;
        }
        // All but the last order for one state that is whole, the last for another file.
        let (whole, of_whole) = maker.whole(session.book());
        for number in (0..ORDERS_EACH.min(count - pairs.len())).rev() {
            let ((order, of_order), (state, of_state)) = match number {
                0 => (maker.any(session.book()), maker.other(session.book())),
                _ => (
                    maker.order(session.book()),
                    (whole.clone(), of_whole.into()),
                ),
            };
            pairs.push(Pair {
                state,
                order,
                of_state,
                of_order,
            });
        }
    }
    pairs
}

/// Makes states and orders; those at fault on purpose in a fixed order, each seed from
/// another place on.
pub struct PairMaker {
    random: Random,
    targets: Vec<(&'static orders::Sort, Fault)>,
    turn: usize,
    state_turn: usize,
}

impl PairMaker {
    /// From a seed.
    pub fn new(seed: u64) -> Self {
        Self {
            random: Random::new(seed ^ APART),
            targets: targets(),
            turn: (seed as usize).wrapping_mul(13),
            state_turn: (seed as usize).wrapping_mul(3),
        }
    }

    /// A file of a state, and perhaps more than it needs.
    fn whole(&mut self, book: &Book) -> (Named, &'static str) {
        let (file, sort) = states::whole(book, &mut self.random);
        (Named::Bytes(Arc::new(file)), sort)
    }

    /// A file that is cut, broken, or not there.
    fn other(&mut self, book: &Book) -> (Named, String) {
        match self.random.below(24) {
            0 => (Named::Missing, "no file".into()),
            1 => (Named::Folder, "a folder".into()),
            _ => {
                self.state_turn = self.state_turn.wrapping_add(1);
                let (file, sort) = states::other(book, self.state_turn, &mut self.random);
                (Named::Bytes(Arc::new(file)), sort.into())
            }
        }
    }

    /// An order for a state that may be none, as a file.
    fn any(&mut self, book: &Book) -> (Named, String) {
        let order = self.maker(book).any();
        (Named::Bytes(Arc::new(order)), "any".into())
    }

    /// An order for a book, as a file.
    pub fn order(&mut self, book: &Book) -> (Named, String) {
        let (bytes, told) = match self.random.below(100) {
            0 => return (Named::Missing, "no file".into()),
            1 => return (Named::Folder, "a folder".into()),
            2 => (Vec::new(), "no bytes"),
            3 | 4 => self.long(book),
            5..=44 => (self.next_fault(), "a field at fault"),
            45..=49 => (self.maker(book).special(), "a special one"),
            50..=69 => (self.by_room(book), "one for a full table"),
            _ => (self.maker(book).any(), "any"),
        };
        (Named::Bytes(Arc::new(bytes)), told.into())
    }

    fn next_fault(&mut self) -> Vec<u8> {
        let (sort, fault) = self.targets[self.turn % self.targets.len()];
        self.turn = self.turn.wrapping_add(1);
        at_fault(sort, fault, &mut self.random)
    }

    fn maker<'a>(&'a mut self, book: &'a Book) -> Maker<'a> {
        Maker {
            table: book.table(),
            random: &mut self.random,
        }
    }

    /// More bytes than OrderSize can tell, or just as many as it can.
    fn long(&mut self, book: &Book) -> (Vec<u8>, &'static str) {
        let mut order = self.maker(book).good();
        let length = order.len();
        match self.random.below(5) {
            4 if self.random.chance(30) => {
                order.resize(16 * 65_536 + length, 0);
                (order, "megabytes")
            }
            0 => {
                order.resize(65_535, 0);
                order[1..3].copy_from_slice(&[255, 255]);
                (order, "65,535 bytes")
            }
            1 => {
                order.resize(65_536 + length + 1, 0);
                (order, "more than 65,535 bytes")
            }
            2 => {
                order.resize(3 * 65_536 + length, 0);
                (order, "more than 65,535 bytes, agreeing modulo 65,536")
            }
            _ => {
                order.resize(65_536 + length, 0);
                (order, "more than 65,535 bytes, agreeing modulo 65,536")
            }
        }
    }

    /// An order that meets what is full, if something is.
    fn by_room(&mut self, book: &Book) -> Vec<u8> {
        let (table, standing) = (book.table(), book.standing());
        if standing.orders == ORDERS_ROOM && self.random.chance(60) {
            return self.maker(book).small();
        }
        if standing.bytes + 100 > BYTES_ROOM && self.random.chance(60) {
            let size = BYTES_ROOM - standing.bytes + self.random.below(2);
            if let Some(order) = self.maker(book).of_size(size) {
                return order;
            }
        }
        if table.store().used() == table.places() && self.random.chance(60) {
            if let Some(order) = self.maker(book).no_place() {
                return order;
            }
        }
        if table.window_ids().count() == WINDOWS && self.random.chance(60) {
            let id = self.maker(book).absent_window();
            let draft = self
                .maker(book)
                .draft(flags::WINDOW | flags::NEW, &[id], &[]);
            return draft.order(&mut self.random);
        }
        if table.icon_ids().count() == NOTIFICATION_ICONS && self.random.chance(60) {
            let ids = self.maker(book).absent_icon();
            let draft = self
                .maker(book)
                .draft(flags::NOTIFICATION | flags::NEW, &ids, &[]);
            return draft.order(&mut self.random);
        }
        match self.random.chance(50) {
            true => self.maker(book).no_cell(),
            false => self.maker(book).good(),
        }
    }
}
