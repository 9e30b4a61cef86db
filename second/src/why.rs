//! Why an order is refused: the number that delivery would give, and the byte of the order
//! that is at fault.

use std::fs::File;
use std::io::{self, Read};
use std::path::Path;

use crate::book::Book;
use crate::memory::{self, Memory};
use crate::number::{
    CLASH, LENGTH_DIFFERS, NOT_FILLED, OUTSIDE_LIST, OUTSIDE_SET, STATE_UNFIT, TOO_SHORT,
    UNKNOWN_TYPE,
};
use crate::order::fields::{fields, HEADER_SIZE};
use crate::support::condition;

/// The bytes of an order that are read: OrderSize cannot tell of more.
pub const ORDER_LIMIT: usize = 65_536;

/// What would become of an order.
#[derive(Clone, Copy, Debug, PartialEq, Eq)]
pub struct Explanation {
    /// The number that delivery would give.
    pub number: u8,
    /// The offset of the field at fault; none where the order would be accepted.
    pub at: Option<usize>,
}

impl Explanation {
    /// A refusal or 0, with the offset of this order.
    pub fn of(number: u8, order: &[u8]) -> Self {
        let at = offset(number, order);
        Self { number, at }
    }

    /// The lines that are printed: the number, its words, and the offset if there is one.
    pub fn lines(&self) -> String {
        let mut lines = format!("{}\n{}\n", self.number, condition(self.number));
        if let Some(at) = self.at {
            lines += &format!("{at}\n");
        }
        lines
    }
}

/// What delivery to a book would give.
pub fn on_book(book: &Book, order: &[u8]) -> Explanation {
    Explanation::of(book.number(order), order)
}

/// What delivery to the state of a file would give; none where the book cannot hold that
/// state.
pub fn on_file(state: &[u8], order: &[u8]) -> Option<Explanation> {
    match memory::read(state) {
        Memory::Unfit => Some(Explanation::of(STATE_UNFIT, order)),
        Memory::Book(book) => Some(on_book(&book, order)),
        Memory::Beyond => None,
    }
}

/// The offset that a refusal with this number is told with.
fn offset(number: u8, order: &[u8]) -> Option<usize> {
    Some(match number {
        0 => return None,
        STATE_UNFIT | TOO_SHORT => 0,
        LENGTH_DIFFERS => 1,
        UNKNOWN_TYPE if order.first() != Some(&0x2E) => 0,
        UNKNOWN_TYPE | OUTSIDE_LIST | CLASH => 3,
        // The first field that is cut begins where the last whole one ends, and so does
        // the first byte left over.
        NOT_FILLED => fields(order).end,
        OUTSIDE_SET => {
            let fields = fields(order).whole;
            let outside = fields.iter().find(|field| !field.allowed);
            outside.map_or(HEADER_SIZE, |field| field.at)
        }
        _ => HEADER_SIZE,
    })
}

/// The bytes of a file up to a limit; none where it cannot be read.
pub fn contents(path: &Path, limit: usize) -> Vec<u8> {
    let read = || -> io::Result<Vec<u8>> {
        let mut bytes = Vec::new();
        let file = File::open(path)?;
        file.take(limit as u64).read_to_end(&mut bytes)?;
        Ok(bytes)
    };
    read().unwrap_or_default()
}
