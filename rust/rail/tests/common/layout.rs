//! The bytes that a lookup writes, from the second program's records: each field at its
//! place, and zeros after its end.

use second::figure;
use second::script::session::Call;
use second::table::{Cell, Desktop, Holder, NotificationIcon, Rect, Table, Window};

/// The bytes of what a lookup finds; none for another call.
pub fn bytes(table: &Table, call: &Call<'_>) -> Option<Vec<u8>> {
    let mut to = Writer(Vec::new());
    let size = match *call {
        Call::Window(id) => {
            let pictures = Holder::of_window(id).map(|it| table.shown(it));
            to.window(table.window(id)?, pictures)
        }
        Call::Icon(window, icon) => {
            let picture = table.shown(Holder::Notification(window, icon));
            to.icon(table.icon(window, icon)?, picture)
        }
        Call::Shared(one, other) => {
            to.0.push(table.store().shared(one, other)?.into());
            1
        }
        Call::Cell(place) => to.cell(table.cell(place)?),
        Call::Desktop => {
            let at = to.desktop(table.desktop());
            to.figure(figure::of(table), at)
        }
        Call::Lists => to.lists(table),
        _ => return None,
    };
    to.0.resize(size, 0);
    Some(to.0)
}

struct Writer(Vec<u8>);

impl Writer {
    fn lists(&mut self, table: &Table) -> usize {
        let windows: Vec<u32> = table.window_ids().map(|id| id.0).collect();
        self.numbers(&[windows.len() as u32]);
        self.numbers(&windows);
        self.0.resize(132, 0);
        let icons: Vec<[u32; 2]> = table.icon_ids().map(|(w, i)| [w.0, i.0]).collect();
        self.numbers(&[icons.len() as u32]);
        self.numbers(icons.as_flattened());
        264
    }

    fn window(&mut self, window: &Window, [small, big, overlay]: [Option<&Cell>; 3]) -> usize {
        self.0.extend([small, big].map(|it| u8::from(it.is_some())));
        self.numbers(&[window.owner.0, window.style, window.extended_style]);
        self.0.push(window.show_state);
        self.text(&window.title, 537);
        self.point(window.client_offset);
        self.pair(window.client_size);
        self.0.push(window.rp_content);
        self.numbers(&[window.root_parent.0]);
        self.point(window.window_offset);
        self.point(window.client_delta);
        self.pair(window.window_size);
        self.rects(&window.window_rects, 712);
        self.point(window.visible_offset);
        self.rects(&window.visibility_rects, 850);
        self.picture(small, 5_085);
        self.picture(big, 9_320);
        self.0.extend([overlay.is_some().into(), 0]);
        self.pair(window.margin_x);
        self.pair(window.margin_y);
        self.text(&window.overlay_text, 9_860);
        self.0
            .extend([window.taskbar, window.server_z, window.app_bar, window.edge]);
        self.picture(overlay, 14_099);
        self.numbers(&[figure::of_window(window)]);
        self.0.len()
    }

    /// The totals behind the desktop state.
    fn figure(&mut self, figure: figure::Figure, at: usize) -> usize {
        self.0.resize(at, 0);
        self.numbers(&[figure.windows as u32]);
        self.0.extend(figure.pixels.to_le_bytes());
        self.0.len()
    }

    fn icon(&mut self, icon: &NotificationIcon, picture: Option<&Cell>) -> usize {
        self.0.extend([picture.is_some().into(), 0]);
        self.numbers(&[icon.version]);
        self.text(&icon.tip, 264);
        self.numbers(&[icon.balloon_timeout, icon.balloon_flags]);
        self.text(&icon.balloon_text, 784);
        self.text(&icon.balloon_title, 912);
        self.numbers(&[icon.state]);
        self.picture(picture, 5_151);
        5_151
    }

    fn cell(&mut self, cell: &Cell) -> usize {
        self.0.push(cell.bits_per_pixel);
        self.short(cell.width);
        self.short(cell.height);
        if cell.bits_per_pixel <= 8 {
            self.short(cell.color_table.len() as u16);
        }
        self.short(cell.mask.len() as u16);
        self.short(cell.color.len() as u16);
        for bytes in [&cell.mask, &cell.color_table, &cell.color] {
            self.0.extend_from_slice(bytes);
        }
        4_235
    }

    fn desktop(&mut self, desktop: &Desktop) -> usize {
        self.0.push(desktop.hooked.into());
        self.0.push(desktop.syncing.into());
        self.numbers(&[desktop.active.0]);
        self.0.push(desktop.stack.len() as u8);
        for id in &desktop.stack {
            self.numbers(&[id.0]);
        }
        263
    }

    fn short(&mut self, number: u16) {
        self.0.extend(number.to_le_bytes());
    }

    fn numbers(&mut self, numbers: &[u32]) {
        for number in numbers {
            self.0.extend(number.to_le_bytes());
        }
    }

    fn point(&mut self, (x, y): (i32, i32)) {
        self.numbers(&[x as u32, y as u32]);
    }

    fn pair(&mut self, (x, y): (u32, u32)) {
        self.numbers(&[x, y]);
    }

    /// A picture that is shown, and zeros to the place of what comes next.
    fn picture(&mut self, picture: Option<&Cell>, next: usize) {
        if let Some(picture) = picture {
            self.cell(picture);
        }
        self.0.resize(next, 0);
    }

    /// A text, and zeros to the place of what comes next.
    fn text(&mut self, text: &[u8], next: usize) {
        self.short(text.len() as u16);
        self.0.extend_from_slice(text);
        self.0.resize(next, 0);
    }

    /// Rectangles, and zeros to the place of what comes next.
    fn rects(&mut self, rects: &[Rect], next: usize) {
        self.short(rects.len() as u16);
        for rect in rects {
            for side in [rect.left, rect.top, rect.right, rect.bottom] {
                self.short(side);
            }
        }
        self.0.resize(next, 0);
    }
}
