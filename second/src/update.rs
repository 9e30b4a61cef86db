//! A whole update: many orders back to back, delivered until a limit.

use crate::book::Book;

/// The bytes of the shortest order.
const SHORTEST: usize = 7;

/// What an update came to.
#[derive(Clone, Copy, Debug, Default, PartialEq, Eq)]
pub struct Report {
    /// The last number.
    pub number: u8,
    /// The orders granted by this call.
    pub orders: u32,
    /// The bytes of those orders.
    pub bytes: usize,
}

/// The first order and what follows it. An order ends where its OrderSize says; where
/// that is missing, under 7 or past the end, it is all that is left.
pub fn first(rest: &[u8]) -> (&[u8], &[u8]) {
    let said = rest
        .get(1..3)
        .map(|size| usize::from(size[0]) | usize::from(size[1]) << 8);
    match said {
        Some(size) if size >= SHORTEST => rest.split_at_checked(size).unwrap_or((rest, &[])),
        _ => (rest, &[]),
    }
}

/// Delivers the orders of an update one by one, until as many are granted as the limit
/// says, none is left or one is refused.
pub fn deliver(book: &mut Book, limit: u32, update: &[u8]) -> Report {
    let mut report = Report::default();
    let mut rest = update;
    while report.orders != limit && !rest.is_empty() {
        let (order, tail) = first(rest);
        if let Err(number) = book.deliver(order) {
            report.number = number;
            break;
        }
        report.orders += 1;
        report.bytes += order.len();
        rest = tail;
    }
    report
}
