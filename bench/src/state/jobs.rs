//! The calls that are measured, each with what stands at the mark and after it.

use super::listing::Listing;
use crate::kinds::{self, Kind, Order};

/// The orders in the journal. A delivery needs room for one more.
pub const JOURNALS: [usize; 4] = [0, 8, 32, 128];
const MOST_BEFORE_DELIVERY: usize = 127;

/// The places whose windows are looked up, counted from 1, and an id that no listing has.
const PLACES: [Option<usize>; 4] = [Some(1), Some(16), Some(32), None];
const UNLISTED: u32 = 0x0002_0058;

/// A state call.
pub enum Call {
    Deliver(Order),
    /// Why an order would be refused.
    Explain(Order),
    Undo,
    Checkpoint,
    Window(u32),
    Notification(u32, u32),
    Cell(u8, u16),
    Desktop,
    Windows,
    Notifications,
    /// Whether a window's small icon and a cell share a place.
    Shared(u32, u8, u16),
}

impl Call {
    /// The entry point's name after `rail_` and `plain_`.
    pub fn entry(&self) -> &'static str {
        match self {
            Call::Deliver(_) => "deliver",
            Call::Explain(_) => "explain",
            Call::Undo => "undo",
            Call::Checkpoint => "checkpoint",
            Call::Window(_) => "window",
            Call::Notification(..) => "notification",
            Call::Cell(..) => "cell",
            Call::Desktop => "desktop",
            Call::Windows => "windows",
            Call::Notifications => "notifications",
            Call::Shared(..) => "shared",
        }
    }
}

/// A call and what stands before it.
pub struct Job {
    /// For the command line.
    pub name: String,
    /// For the table.
    pub label: String,
    pub at_mark: Vec<Order>,
    /// The update that the journal has copies of, or the one order that it has.
    after_mark: After,
    pub call: Call,
    /// The number of the refusal that it meets, or none.
    pub refused: Option<u8>,
}

enum After {
    Updates(Order),
    One(Order),
}

impl Job {
    /// An order's delivery.
    pub fn delivery(listing: &Listing, number: u32, kind: &Kind) -> Self {
        Self {
            name: format!("deliver-{number}"),
            label: format!("Delivery: {}", kind.label),
            at_mark: before(listing, kind),
            after_mark: After::Updates(update(listing)),
            call: Call::Deliver(kind.order().clone()),
            refused: None,
        }
    }

    /// A mark with that one order before it.
    pub fn mark(listing: &Listing, number: u32, kind: &Kind) -> Self {
        Self {
            name: format!("mark-{number}"),
            label: format!("Mark after: {}", kind.label),
            at_mark: before(listing, kind),
            after_mark: After::One(kind.order().clone()),
            call: Call::Checkpoint,
            refused: None,
        }
    }

    /// A lookup of the window in that place, counted from 1, or of one that is not listed.
    pub fn search(listing: &Listing, place: Option<usize>) -> Self {
        let (name, id) = match place {
            Some(place) => (place.to_string(), listing.window_in(place)),
            None => ("absent".into(), UNLISTED),
        };
        Self {
            name: format!("window-{name}"),
            label: format!("Lookup: window {name}"),
            at_mark: listing.records(),
            after_mark: After::Updates(update(listing)),
            call: Call::Window(id),
            refused: if place.is_none() { Some(9) } else { None },
        }
    }

    /// The orders in the journal where so many are wanted, or none where the call is
    /// refused then.
    pub fn journal(&self, wanted: usize) -> Option<Vec<Order>> {
        let update = match &self.after_mark {
            After::Updates(update) => update,
            After::One(order) => return Some(vec![order.clone()]),
        };
        let orders = match self.call {
            Call::Deliver(_) => wanted.min(MOST_BEFORE_DELIVERY),
            Call::Undo if wanted == 0 => return None,
            _ => wanted,
        };
        Some(vec![update.clone(); orders])
    }

    /// The bytes of an order that is delivered.
    pub fn bytes(&self) -> Option<usize> {
        match &self.call {
            Call::Deliver(order) | Call::Explain(order) => Some(order.len()),
            _ => None,
        }
    }
}

/// The jobs of the table of state calls, in its order.
pub fn all(listing: &Listing) -> Vec<Job> {
    let kinds = (1..).zip(kinds::all());
    let deliveries = kinds.map(|(number, kind)| Job::delivery(listing, number, &kind));
    let mut jobs: Vec<Job> = deliveries.collect();
    let at_mark = listing.records();
    let (window, icon) = listing.notification();
    let others = [
        ("Undo of 1", Call::Undo),
        ("Checkpoint", Call::Checkpoint),
        ("Lookup: window", Call::Window(listing.updated())),
        (
            "Lookup: notification icon",
            Call::Notification(window, icon),
        ),
        ("Lookup: cell", Call::Cell(0, 0)),
        ("Lookup: desktop", Call::Desktop),
        ("List of windows", Call::Windows),
        ("List of notification icons", Call::Notifications),
        (
            "Whether a place is shared",
            Call::Shared(kinds::WINDOW, 0, 0),
        ),
    ];
    jobs.extend(others.map(|(label, call)| Job {
        name: call.entry().into(),
        label: label.into(),
        at_mark: at_mark.clone(),
        after_mark: After::Updates(update(listing)),
        call,
        refused: None,
    }));
    let mut order = update(listing);
    order[7..11].copy_from_slice(&UNLISTED.to_le_bytes());
    jobs.push(Job {
        name: "explain".into(),
        label: "Explanation: an update of a window that is not listed".into(),
        at_mark,
        after_mark: After::Updates(update(listing)),
        call: Call::Explain(order),
        refused: Some(9),
    });
    jobs
}

/// The lookups of windows by their place, of a table that is full.
pub fn searches(listing: &Listing) -> Vec<Job> {
    let places = PLACES.into_iter().filter(|_| listing.is_full());
    places.map(|place| Job::search(listing, place)).collect()
}

/// The job of that name, one of any table.
pub fn named(listing: &Listing, name: &str) -> Option<Job> {
    let kinds = (1..).zip(kinds::all());
    let marks = kinds.map(|(number, kind)| Job::mark(listing, number, &kind));
    let mut jobs = all(listing)
        .into_iter()
        .chain(marks)
        .chain(searches(listing));
    jobs.find(|job| job.name == name)
}

/// What stands at the mark before a kind's order.
fn before(listing: &Listing, kind: &Kind) -> Vec<Order> {
    let mut at_mark = listing.orders();
    at_mark.extend(kind.before.iter().cloned());
    at_mark.extend_from_slice(&kind.turn[..kind.at]);
    at_mark
}

/// An update of 111 bytes: style, offsets, 4 and 4 rectangles.
fn update(listing: &Listing) -> Order {
    let mut order = kinds::of_size(111).order().clone();
    order[7..11].copy_from_slice(&listing.updated().to_le_bytes());
    order
}
