//! What generated scripts of state calls reach.

mod expected;
mod figures;
mod of_stores;
mod overlay;
mod records;
mod store;

use figures::Earlier;
use store::{Before, Stores};

use super::order::{Listed, Room};
use super::Facts;
use crate::book::{Standing, BYTES_ROOM, ORDERS_ROOM};
use crate::generate;
use crate::number::{ROOM_PASSED, STATE_UNFIT};
use crate::record;
use crate::script::parts::Parts;
use crate::script::session::{call, Call, Session};
use crate::script::take_item;
use crate::table::{Table, Window, NOTIFICATION_ICONS, WINDOWS};
use crate::update::Report;

/// Runs the generated scripts of the seeds `from` to `to`. A fact is a text such
/// as `D new window 10` (call, sort of order, number) or `D title=522 8` (with a
/// number at a limit).
pub fn of_seeds(from: u64, to: u64, items: usize) -> Facts {
    let mut coverage = Coverage {
        facts: Facts::expecting(expected::facts()),
    };
    let parts = Parts::default();
    for seed in from..=to {
        coverage.add_script(&generate::session::script(seed, items, &parts), &parts);
    }
    coverage.facts
}

struct Coverage {
    facts: Facts,
}

impl Coverage {
    fn add_script(&mut self, script: &[u8], parts: &Parts) {
        let mut session = Session::default();
        let mut stores = Stores::default();
        let mut rest = script;
        while !rest.is_empty() {
            let taken = take_item(rest)
                .and_then(|(item, tail)| Some((item.kind, call(item, parts)?, tail)));
            let Some((kind, call, tail)) = taken else {
                return self.add("bad item".into());
            };
            self.add_call(&mut session, &mut stores, kind, &call);
            rest = tail;
        }
    }

    fn add_call(&mut self, session: &mut Session, stores: &mut Stores, kind: u8, call: &Call<'_>) {
        let earlier = Before::of(session);
        let standing = session.book().standing();
        let listed = Listed::of(session.book().table());
        let before = matches!(call, Call::StepBack(_)).then(|| session.book().table().clone());
        let of_figures = Earlier::of(session, call);
        let Some(number) = session.make(call) else {
            if *call == Call::Dump {
                self.facts.add_dump(stores, session);
            }
            return;
        };
        self.add(format!("{} {number}", char::from(kind)));
        if !matches!(call, Call::ReadRecord(_)) {
            let made = (kind, call);
            self.facts
                .add_store(stores, &earlier, session, made, number);
        }
        if number != STATE_UNFIT {
            self.facts
                .add_figures(of_figures.as_ref(), session, call, number);
        }
        match (call, before) {
            _ if number == STATE_UNFIT => {}
            (Call::Deliver(order), _) => {
                self.facts.add_order(order, &listed, number);
                self.add_room(standing, order, number);
            }
            (Call::Update(limit, orders), _) => {
                self.add_update(*limit, orders, session.report());
            }
            (Call::StepBack(steps), Some(before)) => {
                self.add_steps(*steps as usize, standing.orders, number);
                self.add_restored(&before, session.book().table());
            }
            (Call::Window(id), _) if number == 0 => {
                self.add_offsets(session.book().table().window(*id));
            }
            (Call::WriteRecord(room), _) => {
                let needed = record::write(session.book().orders()).len();
                self.facts.add_written(usize::from(*room), needed, number);
            }
            (Call::ReadRecord(bytes), _) => self.facts.add_read(bytes, number),
            (Call::Lists, _) => self.add_lists(session.book().table()),
            _ => {}
        }
    }

    /// The offsets that a lookup handed out at an end of their numbers.
    fn add_offsets(&mut self, window: Option<&Window>) {
        let Some(window) = window else { return };
        let offsets = [
            window.client_offset,
            window.window_offset,
            window.client_delta,
            window.visible_offset,
        ];
        for (name, (x, y)) in expected::OFFSETS.into_iter().zip(offsets) {
            for (axis, number) in [("x", x), ("y", y)] {
                if expected::FAR.contains(&number) {
                    self.add(format!("W {name} {axis}={number} 0"));
                }
            }
        }
    }

    /// The room in the history that an order would take.
    fn add_room(&mut self, standing: Standing, order: &[u8], number: u8) {
        let orders = ("orders", ORDERS_ROOM, standing.orders + 1);
        let bytes = ("bytes", BYTES_ROOM, standing.bytes + order.len());
        for (name, limit, count) in [orders, bytes] {
            let room = Room {
                name,
                limit,
                count,
                refusal: ROOM_PASSED,
            };
            self.facts.add_room(&room, number);
        }
    }

    /// Where an update stopped, and how the piece at which it stopped was cut.
    fn add_update(&mut self, limit: u32, orders: &[u8], report: Report) {
        let left = &orders[report.bytes..];
        if orders.is_empty() {
            self.add("U no bytes".into());
        }
        if limit == 0 && !orders.is_empty() {
            self.add("U limit 0".into());
        }
        if limit > 0 && report.orders == limit {
            if limit == 1 {
                self.add("U limit 1 reached".into());
            }
            let what = if left.is_empty() { "none" } else { "more" };
            self.add(format!("U limit reached, {what} left"));
        }
        if report.number == 0 && report.orders < limit {
            self.add("U limit not reached".into());
        }
        if report.orders > 64 {
            self.add("U over 64 orders granted".into());
        }
        if report.number == 0 {
            return;
        }
        let what = if report.orders == 0 {
            "first"
        } else {
            "after others"
        };
        self.add(format!("U refused {what}"));
        if report.orders > 0 && report.number == ROOM_PASSED {
            self.add("U orders granted, and 12".into());
        }
        let size = left.get(1..3).map(|size| [size[0], size[1]]);
        match size.map(u16::from_le_bytes).map(usize::from) {
            None => self.add("U size missing".into()),
            Some(0..=6) => self.add("U size under 7".into()),
            Some(size) if size > left.len() => self.add("U size past the end".into()),
            Some(_) => {}
        }
    }

    fn add_steps(&mut self, steps: usize, standing: usize, number: u8) {
        let what = match steps {
            0 => "none",
            _ if steps == standing => "all",
            _ if steps < standing => "some",
            _ if steps == standing + 1 => "one too many",
            _ => "too many",
        };
        self.add(format!("B {what} {number}"));
    }

    /// How long the lists of ids are.
    fn add_lists(&mut self, table: &Table) {
        let counts = [
            ("windows", WINDOWS, table.window_ids().count()),
            ("icons", NOTIFICATION_ICONS, table.icon_ids().count()),
        ];
        for (name, most, count) in counts {
            self.add(match count {
                0 => format!("I no {name}"),
                _ if count == most => format!("I {most} {name}"),
                _ => format!("I some {name}"),
            });
        }
    }

    /// What a step back changed.
    fn add_restored(&mut self, old: &Table, table: &Table) {
        let windows = |table: &Table| {
            let ids = table.window_ids();
            ids.map(|id| table.window(id).cloned()).collect::<Vec<_>>()
        };
        let icons = |table: &Table| {
            let ids = table.icon_ids();
            ids.map(|(window, icon)| table.icon(window, icon).cloned())
                .collect::<Vec<_>>()
        };
        let cells = |table: &Table| {
            let places = table.filled_cells();
            places
                .map(|place| table.cell(place).cloned())
                .collect::<Vec<_>>()
        };
        for (name, restored) in [
            ("windows", windows(old) != windows(table)),
            ("icons", icons(old) != icons(table)),
            ("cells", cells(old) != cells(table)),
            ("desktop", old.desktop() != table.desktop()),
        ] {
            if restored {
                self.add(format!("B restores {name}"));
            }
        }
    }

    fn add(&mut self, fact: String) {
        self.facts.add(fact);
    }
}
