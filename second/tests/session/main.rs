//! Tests from the documents: orders, the table, the book, vectors, scripts.

#[path = "../common/mod.rs"]
mod common;

mod book;
mod clashes;
mod command_line;
mod faults;
mod figures;
mod generator;
mod judging;
mod lent;
mod lookups;
mod memory;
mod newer;
mod places;
mod scripts;
mod sets;
mod side_by_side;
mod store;
mod table_rules;
mod updates;
mod vectors;

use common::hex;
use second::book::Book;
use second::ids::{NotifyIconId, WindowId};
use second::order::{judge, CellPlace};
use second::script::parts::Parts;
use second::script::session::{run, End, KINDS};
use second::table::{Holder, NotificationIcon, Window};

/// The id of the documents' cases, as hex.
const ID: &str = "58000100";
/// The same with a notify-icon id.
const IDS: &str = "58000100 07000000";
const WINDOW: WindowId = WindowId(0x0001_0058);
const ICON: NotifyIconId = NotifyIconId(7);
const SMALL: Holder = Holder::Small(WINDOW);
const BIG: Holder = Holder::Big(WINDOW);
const NOTIFICATION: Holder = Holder::Notification(WINDOW, ICON);

/// An order with these flags and, in hex, what follows them.
fn order(flags: u32, rest: &str) -> Vec<u8> {
    let rest = hex(rest);
    let size = u16::try_from(7 + rest.len()).expect("an order's size");
    let mut order = vec![0x2E];
    order.extend_from_slice(&size.to_le_bytes());
    order.extend_from_slice(&flags.to_le_bytes());
    order.extend_from_slice(&rest);
    order
}

/// The number that judging an order answers.
fn judged(order: &[u8]) -> u8 {
    judge(order).err().unwrap_or(0)
}

/// The number that delivering such an order answers.
fn deliver(book: &mut Book, flags: u32, rest: &str) -> u8 {
    book.deliver(&order(flags, rest)).err().unwrap_or(0)
}

/// A book to which these orders were delivered and granted.
fn book_of(orders: &[(u32, &str)]) -> Book {
    let mut book = Book::new();
    for (flags, rest) in orders {
        assert_eq!(deliver(&mut book, *flags, rest), 0, "{flags:08X} {rest}");
    }
    book
}

fn window(book: &Book) -> &Window {
    book.window(WINDOW).expect("a listed window")
}

fn icon(book: &Book) -> &NotificationIcon {
    book.icon(WINDOW, ICON).expect("a listed icon")
}

/// The mask of the picture that a holder shows.
fn shown(book: &Book, holder: Holder) -> &[u8] {
    &book.table().shown(holder).expect("a picture").mask
}

fn place(cache: u8, entry: u16) -> CellPlace {
    CellPlace { cache, entry }
}

/// The script that a text stands for.
fn script_of(text: &str) -> Vec<u8> {
    second::hex::script(KINDS, text).expect("a text form")
}

/// What a script prints.
fn run_script(script: &[u8]) -> String {
    let mut output = Vec::new();
    let end = run(script, &Parts::default(), &mut output).expect("memory takes all");
    assert_eq!(end, End::Done);
    String::from_utf8(output).expect("a text")
}

/// What the script written as text prints.
fn run_text(text: &str) -> String {
    run_script(&script_of(text))
}

/// The number of a part of the store in an item, as hex.
fn store_part(part: u8) -> String {
    format!("{:02X}", Parts::default().first_of_store() + part)
}
