//! Stretches in which what is visible changes, and is looked up.

use super::{window_lookup, Writer};
use crate::generate::windows::order;
use crate::ids::WindowId;
use crate::order::flags;
use crate::table::{Window, WINDOWS};

impl Writer<'_> {
    /// Windows shown, hidden, moved and deleted, at times all of them at once; marks, steps
    /// back and emptyings between them; and the figures looked up.
    pub(super) fn change_figures(&mut self) -> (u8, Vec<u8>) {
        if self.room_is_low() {
            return (b'M', Vec::new());
        }
        match self.random.below(100) {
            0..=17 => (b'S', Vec::new()),
            18..=27 => self.window_figure(),
            28..=33 => (b'D', self.show_alone()),
            34..=37 => self.step_back(),
            38..=40 => (b'M', Vec::new()),
            41 => (b'D', none_order()),
            42 if self.random.chance(50) => (b'E', Vec::new()),
            42..=44 => self.update(),
            45..=54 => (b'D', self.order()),
            55 => self.lose_rects(),
            56..=59 => self.delete_one(),
            _ => (b'D', self.maker().seen_or_not()),
        }
    }

    /// All windows that there can be, each with its figure, and then all of them shown.
    pub(super) fn fill_figures(&mut self) -> (u8, Vec<u8>) {
        let count = self.session.book().table().window_ids().count();
        if self.room_is_low() || self.random.chance(10) {
            return self.change_figures();
        }
        if count >= WINDOWS {
            let hidden = self.windows(|window| window.show_state == 0).next();
            return match hidden {
                Some((id, _)) => (b'D', order(flags::WINDOW | flags::SHOW, id, &[5])),
                None if self.random.chance(12) => (b'S', Vec::new()),
                None => self.change_figures(),
            };
        }
        let mut maker = self.maker();
        let id = maker.absent_window();
        (b'D', maker.seen_window(id, flags::NEW))
    }

    fn window_figure(&mut self) -> (u8, Vec<u8>) {
        match self.maker().listed_window() {
            Some(id) => window_lookup(id),
            None => (b'S', Vec::new()),
        }
    }

    /// Another show state and nothing else, most for a window that has rectangles: the
    /// hidden ones are shown and the others hidden.
    fn show_alone(&mut self) -> Vec<u8> {
        let with_rects: Vec<(u32, u8)> = self
            .windows(|window| !window.visibility_rects.is_empty())
            .collect();
        if with_rects.is_empty() {
            return self.maker().seen_or_not();
        }
        let (id, show) = self.random.pick(&with_rects);
        let show = match show {
            0 => self.random.pick(&[2, 3, 5]),
            _ => self.random.pick(&[0, 0, 2, 3, 5]),
        };
        order(flags::WINDOW | flags::SHOW, id, &[show])
    }

    /// A window that is shown is deleted, and both totals are looked up then.
    fn delete_one(&mut self) -> (u8, Vec<u8>) {
        let shown: Vec<(u32, u8)> = self.windows(|window| window.show_state != 0).collect();
        if shown.is_empty() {
            return (b'D', self.maker().seen_or_not());
        }
        let (id, _) = self.random.pick(&shown);
        self.pending.push((b'S', Vec::new()));
        (b'D', order(flags::WINDOW | flags::DELETED, id, &[]))
    }

    /// No rectangles for a window that has some, and a step back over that.
    fn lose_rects(&mut self) -> (u8, Vec<u8>) {
        let shown: Vec<(u32, u8)> = self
            .windows(|window| window.show_state != 0 && !window.visibility_rects.is_empty())
            .collect();
        if shown.is_empty() {
            return (b'S', Vec::new());
        }
        let (id, _) = self.random.pick(&shown);
        self.pending.push(window_lookup(id));
        self.pending.push((b'S', Vec::new()));
        self.pending.push((b'B', 1_u32.to_le_bytes().to_vec()));
        self.pending.push((b'S', Vec::new()));
        let none = order(flags::WINDOW | flags::VISIBILITY, id, &[0, 0]);
        (b'D', none)
    }

    /// The ids and show states of the listed windows that pass a test.
    fn windows<'a>(
        &'a self,
        test: impl Fn(&Window) -> bool + 'a,
    ) -> impl Iterator<Item = (u32, u8)> + 'a {
        let table = self.session.book().table();
        let of = move |id: WindowId| {
            let window = table.window(id).filter(|window| test(window))?;
            Some((id.0, window.show_state))
        };
        table.window_ids().filter_map(of)
    }
}

/// Desktop none.
fn none_order() -> Vec<u8> {
    let mut order = vec![0x2E, 7, 0];
    order.extend_from_slice(&(flags::DESKTOP | flags::NONE).to_le_bytes());
    order
}
