//! What generated scripts reach of the figures: how they change, and what of them is handed
//! out.

use super::super::Facts;
use crate::figure::{self, area, is_shown, of_window, Figure};
use crate::ids::WindowId;
use crate::order::{judge, Order, WindowChange, WindowFields};
use crate::script::session::{Call, Session};
use crate::table::{Table, Window, WINDOWS};

/// The facts to be met.
pub const FACTS: [&str; 42] = [
    "figure new shown",
    "figure new shown, no rectangles",
    "figure new hidden with rectangles",
    "figure new without either",
    "figure show alone, hidden to shown",
    "figure show alone, hidden to shown, rectangles of before the mark",
    "figure show alone, hidden to shown, rectangles of after the mark",
    "figure show alone, shown to hidden",
    "figure show alone, shown to another",
    "figure show alone, hidden again",
    "figure rectangles alone, more",
    "figure rectangles alone, fewer",
    "figure rectangles alone, none left",
    "figure rectangles alone, hidden",
    "figure both, hidden to shown",
    "figure both, shown to hidden",
    "figure both, shown to another",
    "figure neither, shown",
    "figure delete shown",
    "figure delete hidden with rectangles",
    "figure desktop none",
    "figure U",
    "figure refused",
    "figure B more",
    "figure B less",
    "figure B to none",
    "figure M",
    "figure E",
    "W pixels some",
    "W pixels 0, shown",
    "W pixels 0, hidden with rectangles",
    "W pixels overlapping",
    "W pixels 4294836225",
    "W pixels 16 rectangles",
    "S shown 0",
    "S shown some",
    "S shown 32",
    "S pixels 0, shown some",
    "S pixels some",
    "S pixels over 32 bits",
    "S figure not that of the mark",
    "S figure of the mark",
];

/// The table before a call and at its mark.
pub struct Earlier {
    table: Table,
    at_mark: Table,
}

impl Earlier {
    /// Of a session before a call that can change figures.
    pub fn of(session: &Session, call: &Call<'_>) -> Option<Self> {
        let changes = matches!(
            call,
            Call::Deliver(_) | Call::Update(..) | Call::StepBack(1..) | Call::Empty | Call::Mark
        );
        changes.then(|| Self {
            table: session.book().table().clone(),
            at_mark: session.book().at_mark().clone(),
        })
    }
}

impl Facts {
    /// A call that was made, with its number.
    pub(super) fn add_figures(
        &mut self,
        earlier: Option<&Earlier>,
        session: &Session,
        call: &Call<'_>,
        number: u8,
    ) {
        let table = session.book().table();
        match (call, earlier) {
            (Call::Window(id), _) if number == 0 => self.add_pixels(table.window(*id)),
            (Call::Desktop, _) if number == 0 => {
                self.add_totals(figure::of(table), figure::of(session.book().at_mark()));
            }
            (_, Some(earlier)) => self.add_change(earlier, table, call, number),
            _ => {}
        }
    }

    fn add_change(&mut self, earlier: &Earlier, table: &Table, call: &Call<'_>, number: u8) {
        let (before, after) = (figure::of(&earlier.table), figure::of(table));
        match call {
            Call::Deliver(order) if number == 0 => self.add_granted(earlier, order),
            Call::Deliver(_) if before.pixels > 0 => self.add("figure refused"),
            Call::Update(..) if before != after => self.add("figure U"),
            Call::StepBack(_) if after.pixels > before.pixels => self.add("figure B more"),
            Call::StepBack(_) if after.pixels < before.pixels => {
                self.add("figure B less");
                if after == Figure::default() {
                    self.add("figure B to none");
                }
            }
            Call::Mark if number == 0 && before.pixels > 0 => self.add("figure M"),
            Call::Empty if number == 0 && before.pixels > 0 => self.add("figure E"),
            _ => {}
        }
    }

    fn add_granted(&mut self, earlier: &Earlier, order: &[u8]) {
        match judge(order) {
            Ok(Order::Window(order)) => {
                let id = order.window_id;
                let before = earlier.table.window(id);
                match (&order.change, before) {
                    (WindowChange::New(fields), _) => self.add_new(fields),
                    (WindowChange::Update(fields), Some(before)) => {
                        self.add_update_of(before, fields);
                        self.add_shown_alone(earlier, id, before, fields);
                    }
                    (WindowChange::Delete, Some(before)) => match area(&before.visibility_rects) {
                        0 => {}
                        _ if is_shown(before) => self.add("figure delete shown"),
                        _ => self.add("figure delete hidden with rectangles"),
                    },
                    _ => {}
                }
            }
            Ok(Order::Desktop(_)) => {
                let was = figure::of(&earlier.table).pixels > 0;
                if was && is_none(order) {
                    self.add("figure desktop none");
                }
            }
            _ => {}
        }
    }

    fn add_new(&mut self, fields: &WindowFields<'_>) {
        let shown = fields.show_state.unwrap_or(0) != 0;
        let some = fields
            .visibility_rects
            .is_some_and(|bytes| !bytes.is_empty());
        match (shown, some) {
            (true, true) => self.add("figure new shown"),
            (true, false) => self.add("figure new shown, no rectangles"),
            (false, true) => self.add("figure new hidden with rectangles"),
            (false, false) => self.add("figure new without either"),
        }
    }

    fn add_update_of(&mut self, before: &Window, fields: &WindowFields<'_>) {
        let was = is_shown(before);
        let will = fields.show_state.map_or(was, |show| show != 0);
        let rects = fields.visibility_rects;
        let old = area(&before.visibility_rects);
        let Some(what) = (match (fields.show_state, rects) {
            (Some(_), Some(_)) => Some("both"),
            (Some(_), None) if old > 0 => Some("show alone"),
            (None, Some(bytes)) => return self.add_moved(before, bytes),
            (None, None) if was && old > 0 => return self.add("figure neither, shown"),
            _ => None,
        }) else {
            return;
        };
        let how = match (was, will) {
            (false, true) => "hidden to shown",
            (true, false) => "shown to hidden",
            (true, true) => "shown to another",
            (false, false) => "hidden again",
        };
        self.add(format!("figure {what}, {how}"));
    }

    /// Rectangles alone for a window.
    fn add_moved(&mut self, before: &Window, bytes: &[u8]) {
        let mut after = before.clone();
        after.visibility_rects = crate::table::rects(bytes);
        let (old, new) = (of_window(before), of_window(&after));
        self.add(match () {
            () if !is_shown(before) => "figure rectangles alone, hidden",
            () if new > old => "figure rectangles alone, more",
            () if new == 0 && old > 0 => "figure rectangles alone, none left",
            () if new < old => "figure rectangles alone, fewer",
            () => "figure rectangles alone, as many",
        });
    }

    /// Whether the rectangles of a window that is shown now stood at the mark.
    fn add_shown_alone(
        &mut self,
        earlier: &Earlier,
        id: WindowId,
        before: &Window,
        fields: &WindowFields<'_>,
    ) {
        let shows = fields.show_state.is_some_and(|show| show != 0) && !is_shown(before);
        if !shows || fields.visibility_rects.is_some() || area(&before.visibility_rects) == 0 {
            return;
        }
        let at_mark = earlier
            .at_mark
            .window(id)
            .map(|window| &window.visibility_rects);
        let when = match at_mark == Some(&before.visibility_rects) {
            true => "before",
            false => "after",
        };
        self.add(format!(
            "figure show alone, hidden to shown, rectangles of {when} the mark"
        ));
    }

    /// What a lookup of a window handed out.
    fn add_pixels(&mut self, window: Option<&Window>) {
        let Some(window) = window else { return };
        let rects = &window.visibility_rects;
        let pixels = of_window(window);
        let one_by_one: u64 = rects.iter().map(|&rect| figure::pixels(&[rect])).sum();
        if pixels > 0 {
            self.add("W pixels some");
            if rects.len() == 16 {
                self.add("W pixels 16 rectangles");
            }
        }
        if pixels > 0 && one_by_one > pixels.into() {
            self.add("W pixels overlapping");
        }
        match (pixels, is_shown(window)) {
            (0, true) => self.add("W pixels 0, shown"),
            (0, false) if area(rects) > 0 => self.add("W pixels 0, hidden with rectangles"),
            (4_294_836_225, _) => self.add("W pixels 4294836225"),
            _ => {}
        }
    }

    /// What a lookup of the desktop state handed out, beside the figure at the mark.
    fn add_totals(&mut self, now: Figure, at_mark: Figure) {
        self.add(match now.windows {
            0 => "S shown 0",
            WINDOWS => "S shown 32",
            _ => "S shown some",
        });
        match now.pixels {
            0 if now.windows > 0 => self.add("S pixels 0, shown some"),
            0 => {}
            pixels if pixels > u32::MAX.into() => self.add("S pixels over 32 bits"),
            _ => self.add("S pixels some"),
        }
        match now == at_mark {
            true if now.pixels > 0 => self.add("S figure of the mark"),
            true => {}
            false => self.add("S figure not that of the mark"),
        }
    }
}

/// Whether a desktop order empties the table.
fn is_none(order: &[u8]) -> bool {
    order.get(3).is_some_and(|flags| flags & 1 != 0)
}
