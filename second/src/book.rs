//! The plain book: a list of standing orders with a mark in it. Its table is
//! what they make, in turn, of an emptied table.

use crate::figure::{self, Figure};
use crate::ids::{NotifyIconId, WindowId};
use crate::number::{ROOM_PASSED, TOO_MANY_STEPS, WRONG_ID};
use crate::order::{judge, CellPlace, Order};
use crate::table::{brings_icon, number, Cell, Desktop, Holder, NotificationIcon, Table, Window};

/// The most orders after the mark.
pub const ORDERS_ROOM: usize = 128;
/// The most bytes of the orders after the mark.
pub const BYTES_ROOM: usize = 32_768;

/// The book. Of the orders before the mark only what they made is kept, as
/// nothing steps back over a mark.
#[derive(Clone, Debug, Default, PartialEq, Eq)]
pub struct Book {
    at_mark: Table,
    after_mark: Vec<Vec<u8>>,
    bytes: usize,
    table: Table,
}

/// How much stands after the mark.
#[derive(Clone, Copy, Debug, PartialEq, Eq)]
#[allow(missing_docs)]
pub struct Standing {
    pub orders: usize,
    pub bytes: usize,
}

impl Book {
    /// An emptied book with the most places for pictures.
    pub fn new() -> Self {
        Self::default()
    }

    /// An emptied book with so many places for pictures.
    pub fn with_places(places: usize) -> Self {
        let table = Table::with_places(places);
        Self {
            at_mark: table.clone(),
            table,
            ..Self::default()
        }
    }

    /// Empties the book and fixes how many places it has; it then counts as marked.
    pub fn empty(&mut self, places: usize) {
        *self = Self::with_places(places);
    }

    /// How many places emptying fixed.
    pub fn places(&self) -> usize {
        self.table.places()
    }

    /// Whether the table, or one that steps back can bring, has a picture.
    pub fn has_pictures(&self) -> bool {
        let brings =
            |order: &Vec<u8>| judge(order).is_ok_and(|order| brings_icon(&order).is_some());
        self.at_mark.store().used() > 0 || self.after_mark.iter().any(brings)
    }

    /// A book with this table at the mark and these orders after it, if each of them is
    /// granted in its turn.
    pub fn from_mark(table: Table, orders: &[&[u8]]) -> Option<Self> {
        let mut book = Self {
            at_mark: table.clone(),
            table,
            ..Self::default()
        };
        let granted = orders.iter().all(|order| book.deliver(order).is_ok());
        granted.then_some(book)
    }

    /// The order judged, if it would be granted, else the number that it would get.
    fn granted<'a>(&self, order: &'a [u8]) -> Result<Order<'a>, u8> {
        let judged = judge(order)?;
        match number(&self.table, &judged) {
            0 => {}
            refusal => return Err(refusal),
        }
        if self.after_mark.len() + 1 > ORDERS_ROOM || self.bytes + order.len() > BYTES_ROOM {
            return Err(ROOM_PASSED);
        }
        Ok(judged)
    }

    /// The number that delivery of an order would get.
    pub fn number(&self, order: &[u8]) -> u8 {
        self.granted(order).err().unwrap_or(0)
    }

    /// Delivers an order, which joins the end if it is granted.
    pub fn deliver(&mut self, order: &[u8]) -> Result<(), u8> {
        let judged = self.granted(order)?;
        self.table.apply(&judged);
        self.after_mark.push(order.to_vec());
        self.bytes += order.len();
        Ok(())
    }

    /// Moves the mark to the end.
    pub fn mark(&mut self) {
        self.at_mark.clone_from(&self.table);
        self.after_mark.clear();
        self.bytes = 0;
    }

    /// Takes the last `steps` orders away, if that many follow the mark.
    pub fn step_back(&mut self, steps: u32) -> Result<(), u8> {
        let kept = usize::try_from(steps)
            .ok()
            .and_then(|steps| self.after_mark.len().checked_sub(steps))
            .ok_or(TOO_MANY_STEPS)?;
        if kept == self.after_mark.len() {
            return Ok(());
        }
        self.after_mark.truncate(kept);
        self.bytes = self.after_mark.iter().map(Vec::len).sum();
        self.table.clone_from(&self.at_mark);
        for order in &self.after_mark {
            let order = judge(order).expect("a standing order was judged good");
            self.table.apply(&order);
        }
        Ok(())
    }

    /// Looks up a window.
    pub fn window(&self, id: WindowId) -> Result<&Window, u8> {
        self.table.window(id).ok_or(WRONG_ID)
    }

    /// Looks up a notification icon.
    pub fn icon(&self, window: WindowId, icon: NotifyIconId) -> Result<&NotificationIcon, u8> {
        self.table.icon(window, icon).ok_or(WRONG_ID)
    }

    /// Looks up a cell.
    pub fn cell(&self, place: CellPlace) -> Result<&Cell, u8> {
        self.table.cell(place).ok_or(WRONG_ID)
    }

    /// Looks up whether two holders share a place.
    pub fn shared(&self, one: Holder, other: Holder) -> Result<bool, u8> {
        self.table.store().shared(one, other).ok_or(WRONG_ID)
    }

    /// Looks up the desktop state.
    pub fn desktop(&self) -> &Desktop {
        self.table.desktop()
    }

    /// Looks up the figure of the present table, which is counted anew.
    pub fn figure(&self) -> Figure {
        figure::of(&self.table)
    }

    /// The orders after the mark and their bytes.
    pub fn standing(&self) -> Standing {
        Standing {
            orders: self.after_mark.len(),
            bytes: self.bytes,
        }
    }

    /// The orders after the mark.
    pub fn orders(&self) -> &[Vec<u8>] {
        &self.after_mark
    }

    /// The table at the mark.
    pub fn at_mark(&self) -> &Table {
        &self.at_mark
    }

    /// The table that the standing orders make.
    pub fn table(&self) -> &Table {
        &self.table
    }
}
