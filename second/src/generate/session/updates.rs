//! Whole updates: orders that follow from one another, with faults of their own.

use super::good::Maker;
use super::Writer;
use crate::book::{Book, ORDERS_ROOM};
use crate::script::PAYLOAD_LIMIT;

/// The bytes of the limit before an update.
const LIMIT_SIZE: usize = 4;
/// The most bytes of an update in a script.
const MOST_BYTES: usize = PAYLOAD_LIMIT - LIMIT_SIZE;

impl Writer<'_> {
    /// An update of some orders: mostly good ones, some with a refused one among them
    /// or a rest that cannot be cut, and with a limit below, at or above their number.
    pub(super) fn update(&mut self) -> (u8, Vec<u8>) {
        let count = match self.random.below(12) {
            0 => 0,
            1 => 1,
            2 => 2 + self.random.below(30),
            _ => 2 + self.random.below(6),
        };
        let refused = self
            .random
            .chance(25)
            .then(|| self.random.below(count.max(1)));
        let orders = self.orders(count, |maker, at| match refused {
            // One beside a limit is mostly refused too.
            Some(refused) if refused == at && maker.random.chance(30) => maker.at_edge(),
            Some(refused) if refused == at => maker.refused(),
            _ => maker.good(),
        });
        self.limited(orders)
    }

    /// An update that may pass the room for orders.
    pub(super) fn update_of_small(&mut self) -> (u8, Vec<u8>) {
        let orders = self.orders(ORDERS_ROOM, |maker, _| maker.small());
        self.limited(orders)
    }

    /// An update that fills the room for orders.
    pub(super) fn update_of_desktop(&mut self) -> (u8, Vec<u8>) {
        let order = [0x2E, 7, 0, 2, 0, 0, 4];
        let mut payload = u32::MAX.to_le_bytes().to_vec();
        payload.extend(order.repeat(ORDERS_ROOM));
        (b'U', payload)
    }

    /// An update of icons, each of which takes another place as long as there is one.
    pub(super) fn update_of_icons(&mut self) -> (u8, Vec<u8>) {
        let count = 2 + self.random.below(20);
        let orders = self.orders(count, |maker, _| {
            let icon = match maker.random.below(6) {
                0 => maker.sharing(),
                _ => maker.growing(),
            };
            icon.unwrap_or_else(|| maker.good())
        });
        self.limited(orders)
    }

    /// An update of cached icons, many of one cell.
    pub(super) fn update_of_cached(&mut self) -> (u8, Vec<u8>) {
        let count = 4 + self.random.below(24);
        let orders = self.orders(count, |maker, _| {
            maker.sharing().unwrap_or_else(|| maker.good())
        });
        self.limited(orders)
    }

    /// Orders made one after another, each on what those before it leave.
    fn orders(
        &mut self,
        count: usize,
        make: impl Fn(&mut Maker<'_>, usize) -> Vec<u8>,
    ) -> Vec<Vec<u8>> {
        let mut book: Book = self.session.book().clone();
        let mut orders = Vec::new();
        let mut size = 0;
        for at in 0..count {
            let mut maker = Maker {
                table: book.table(),
                random: &mut self.random,
            };
            let order = make(&mut maker, at);
            size += order.len();
            if size > MOST_BYTES {
                break;
            }
            // A refused one leaves the book as it was.
            let _ = book.deliver(&order);
            orders.push(order);
        }
        orders
    }

    /// The payload: a limit and the bytes, sometimes with a fault at their end.
    fn limited(&mut self, orders: Vec<Vec<u8>>) -> (u8, Vec<u8>) {
        let count = orders.len() as u32;
        let mut bytes = orders.concat();
        let random = &mut self.random;
        match random.below(10) {
            // The last one is cut.
            0 => bytes.truncate(bytes.len().saturating_sub(1 + random.below(8))),
            // Too few bytes for a size.
            1 => bytes.extend_from_slice(&[0x2E, 7][..1 + random.below(2)]),
            // A size under 7, with more behind it or alone.
            2 => {
                bytes.extend_from_slice(&[0x2E, random.below(7) as u8, 0]);
                let more = random.below(40);
                bytes.extend(random.bytes(more));
            }
            // A size past the end.
            3 => {
                let more = random.below(12);
                bytes.extend_from_slice(&[0x2E, more as u8 + 8, random.pick(&[0, 0, 1, 0xFF])]);
                bytes.extend(random.bytes(more));
            }
            _ => {}
        }
        bytes.truncate(MOST_BYTES);
        let limit = match random.below(10) {
            0 => 0,
            1 => 1,
            2 => count.saturating_sub(1),
            3 | 4 => count,
            5 => count + 1,
            6 => u32::MAX,
            7 => 0x100 + random.below(3) as u32,
            _ => 1_000,
        };
        let mut payload = limit.to_le_bytes().to_vec();
        payload.extend(bytes);
        (b'U', payload)
    }
}
