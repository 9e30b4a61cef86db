//! A raw update, as a server sends it, made a script of state calls.

use crate::book::Book;
use crate::ids::{NotifyIconId, WindowId};
use crate::number::ROOM_PASSED;
use crate::script::{push_item, PAYLOAD_LIMIT};
use crate::update::first;

/// The script of an update: each order delivered, and after each that changes the
/// table all windows, all notification icons and the desktop state looked up. Where
/// the history is full, a mark comes before the order.
pub fn script(update: &[u8]) -> Vec<u8> {
    let mut script = Vec::new();
    let mut book = Book::new();
    let mut rest = update;
    while !rest.is_empty() {
        let (order, tail) = first(rest);
        let order = &order[..order.len().min(PAYLOAD_LIMIT)];
        let mut answer = book.deliver(order);
        if answer == Err(ROOM_PASSED) {
            push_item(&mut script, b'M', &[]);
            book.mark();
            answer = book.deliver(order);
        }
        push_item(&mut script, b'D', order);
        if answer.is_ok() {
            push_lookups(&mut script, &book);
        }
        rest = tail;
    }
    script
}

fn push_lookups(script: &mut Vec<u8>, book: &Book) {
    push_item(script, b'S', &[]);
    push_item(script, b'I', &[]);
    for WindowId(id) in book.table().window_ids() {
        push_item(script, b'W', &id.to_le_bytes());
    }
    for (WindowId(window), NotifyIconId(icon)) in book.table().icon_ids() {
        let ids = [window.to_le_bytes(), icon.to_le_bytes()];
        push_item(script, b'N', ids.as_flattened());
    }
}
