//! What generated scripts reach with overlay icons that become none.

use super::super::Facts;
use crate::book::Book;
use crate::order::{judge, Order, WindowChange};
use crate::table::{Holder, Table};

impl Facts {
    /// An overlay icon becomes none by an order that is granted.
    pub(super) fn add_overlay_none(&mut self, table: &Table, overlay: Holder) {
        let what = match table.store().sharing(overlay).count() {
            0 if overlay.window().and_then(|id| table.window(id)).is_none() => "of a new window",
            0 => "where it is none",
            1 => "that alone points at a place",
            _ => "that shares a place",
        };
        self.add(format!("D overlay none {what}"));
    }

    /// An overlay icon that an order had made none is there again.
    pub(super) fn add_overlay_back(&mut self, before: &Book, after: &Book) {
        let gone = &before.orders()[after.orders().len()..];
        let overlays = gone.iter().filter_map(|order| {
            let order = judge(order).ok()?;
            overlay_none(&order)
        });
        for overlay in overlays {
            let shown = |book: &Book| book.table().shown(overlay).is_some();
            if !shown(before) && shown(after) {
                self.add("B restores an overlay that was none");
            }
        }
    }
}

/// The overlay icon that an order makes none.
pub(super) fn overlay_none(order: &Order<'_>) -> Option<Holder> {
    let Order::Window(order) = order else {
        return None;
    };
    match order.change {
        WindowChange::New(fields) | WindowChange::Update(fields) => fields
            .overlay_none
            .then_some(Holder::Overlay(order.window_id)),
        WindowChange::Delete | WindowChange::Picture { .. } => None,
    }
}
