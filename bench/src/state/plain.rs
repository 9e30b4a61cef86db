//! The same calls on the book of `second`, with records in the library's layouts.

use second::book::Book;
use second::figure;
use second::ids::{NotifyIconId, WindowId};
use second::order::CellPlace;
use second::table::{Cell, Holder, Rect, Window};
use second::why::on_book;

use super::jobs::{Call, Job};
use super::{Answer, State};
use crate::kinds::Order;

/// A book with the orders of its journal, to deliver them again, and the book that a
/// checkpoint begins with.
pub struct Plain {
    book: Book,
    before: Book,
    journal: Vec<Order>,
}

impl Plain {
    /// The state that a job begins with.
    pub fn new(job: &Job, journal: &[Order]) -> Self {
        let mut book = Book::new();
        for order in &job.at_mark {
            deliver_all(&mut book, std::slice::from_ref(order));
            book.mark();
        }
        deliver_all(&mut book, journal);
        Self {
            before: book.clone(),
            book,
            journal: journal.to_vec(),
        }
    }
}

fn deliver_all(book: &mut Book, orders: &[Order]) {
    for order in orders {
        assert_eq!(book.deliver(order), Ok(()), "the orders before are granted");
    }
}

impl State for Plain {
    #[inline]
    fn call(&mut self, call: &Call, out: &mut [u8]) -> Answer {
        let book = &mut self.book;
        match *call {
            Call::Deliver(ref order) => plain_deliver(book, order),
            Call::Explain(ref order) => plain_explain(book, order, out),
            Call::Undo => plain_undo(book, 1),
            Call::Checkpoint => plain_checkpoint(book),
            Call::Window(id) => plain_window(book, id, out),
            Call::Notification(window, icon) => plain_notification(book, window, icon, out),
            Call::Cell(cache, entry) => plain_cell(book, cache, entry, out),
            Call::Desktop => plain_desktop(book, out),
            Call::Windows => plain_windows(book, out),
            Call::Notifications => plain_notifications(book, out),
            Call::Shared(window, cache, entry) => plain_shared(book, window, cache, entry, out),
        }
    }

    fn restore(&mut self, call: &Call) {
        match call {
            Call::Deliver(_) => assert_eq!(self.book.step_back(1), Ok(())),
            Call::Undo => deliver_all(&mut self.book, &self.journal[..1]),
            Call::Checkpoint => self.book = self.before.clone(),
            _ => {}
        }
    }
}

#[no_mangle]
#[inline(never)]
pub fn plain_deliver(book: &mut Book, order: &[u8]) -> Answer {
    let done = book.deliver(order);
    answer(book, done)
}

#[no_mangle]
#[inline(never)]
pub fn plain_explain(book: &Book, order: &[u8], out: &mut [u8]) -> Answer {
    let told = on_book(book, order);
    told.at.map_or(Ok((0, 0)), |at| {
        super::put_offset(out, at);
        Err(told.number)
    })
}

#[no_mangle]
#[inline(never)]
pub fn plain_undo(book: &mut Book, steps: u32) -> Answer {
    let done = book.step_back(steps);
    answer(book, done)
}

#[no_mangle]
#[inline(never)]
pub fn plain_checkpoint(book: &mut Book) -> Answer {
    book.mark();
    answer(book, Ok(()))
}

#[no_mangle]
#[inline(never)]
pub fn plain_window(book: &Book, id: u32, out: &mut [u8]) -> Answer {
    let id = WindowId(id);
    let done = book.window(id).map(|window| {
        let pictures = Holder::of_window(id).map(|one| book.table().shown(one));
        let mut to = Writer::new(&mut out[..rail::Window::SIZE]);
        put_window(&mut to, window, pictures);
        to.end(&figure::of_window(window).to_le_bytes());
    });
    answer(book, done)
}

#[no_mangle]
#[inline(never)]
pub fn plain_notification(book: &Book, window: u32, icon: u32, out: &mut [u8]) -> Answer {
    let ids = (WindowId(window), NotifyIconId(icon));
    let found = book.icon(ids.0, ids.1);
    let done = found.map(|icon| {
        let picture = book.table().shown(Holder::Notification(ids.0, ids.1));
        let mut to = Writer::new(&mut out[..5_151]);
        to.u8(picture.is_some().into());
        to.skip(1);
        to.u32(icon.version);
        to.text(&icon.tip, 256);
        to.u32(icon.balloon_timeout);
        to.u32(icon.balloon_flags);
        to.text(&icon.balloon_text, 510);
        to.text(&icon.balloon_title, 126);
        to.u32(icon.state);
        to.picture(picture);
    });
    answer(book, done)
}

#[no_mangle]
#[inline(never)]
pub fn plain_cell(book: &Book, cache: u8, entry: u16, out: &mut [u8]) -> Answer {
    let found = book.cell(CellPlace { cache, entry });
    let done = found.map(|cell| Writer::new(&mut out[..PICTURE]).picture(Some(cell)));
    answer(book, done)
}

#[no_mangle]
#[inline(never)]
pub fn plain_desktop(book: &Book, out: &mut [u8]) -> Answer {
    let desktop = book.desktop();
    let mut to = Writer::new(&mut out[..rail::Desktop::SIZE]);
    to.u8(desktop.hooked.into());
    to.u8(desktop.syncing.into());
    to.u32(desktop.active.0);
    to.u8(desktop.stack.len() as u8);
    for id in &desktop.stack {
        to.u32(id.0);
    }
    let figure = book.figure();
    let windows = figure.windows as u32;
    to.end(&[&windows.to_le_bytes()[..], &figure.pixels.to_le_bytes()].concat());
    answer(book, Ok(()))
}

#[no_mangle]
#[inline(never)]
pub fn plain_windows(book: &Book, out: &mut [u8]) -> Answer {
    let mut to = Writer::new(&mut out[..132]);
    to.u32(book.table().window_ids().count() as u32);
    for id in book.table().window_ids() {
        to.u32(id.0);
    }
    answer(book, Ok(()))
}

#[no_mangle]
#[inline(never)]
pub fn plain_notifications(book: &Book, out: &mut [u8]) -> Answer {
    let mut to = Writer::new(&mut out[..132]);
    to.u32(book.table().icon_ids().count() as u32);
    for (window, icon) in book.table().icon_ids() {
        to.u32(window.0);
        to.u32(icon.0);
    }
    answer(book, Ok(()))
}

/// Whether a window's small icon and a cell share a place.
#[no_mangle]
#[inline(never)]
pub fn plain_shared(book: &Book, window: u32, cache: u8, entry: u16, out: &mut [u8]) -> Answer {
    let cell = CellPlace { cache, entry };
    let shared = book.shared(Holder::Small(WindowId(window)), cell.into());
    let done = shared.map(|shared| out[0] = shared.into());
    answer(book, done)
}

fn answer(book: &Book, done: Result<(), u8>) -> Answer {
    done?;
    let standing = book.standing();
    Ok((standing.orders, standing.bytes))
}

fn put_window(to: &mut Writer<'_>, window: &Window, pictures: [Option<&Cell>; 3]) {
    let [small, big, overlay] = pictures;
    for picture in [small, big] {
        to.u8(picture.is_some().into());
    }
    to.u32(window.owner.0);
    to.u32(window.style);
    to.u32(window.extended_style);
    to.u8(window.show_state);
    to.text(&window.title, 520);
    to.point(window.client_offset);
    to.pair(window.client_size);
    to.u8(window.rp_content);
    to.u32(window.root_parent.0);
    to.point(window.window_offset);
    to.point(window.client_delta);
    to.pair(window.window_size);
    to.rects(&window.window_rects);
    to.point(window.visible_offset);
    to.rects(&window.visibility_rects);
    to.picture(small);
    to.picture(big);
    to.u8(overlay.is_some().into());
    to.skip(1);
    to.pair(window.margin_x);
    to.pair(window.margin_y);
    to.text(&window.overlay_text, 520);
    for byte in [window.taskbar, window.server_z, window.app_bar, window.edge] {
        to.u8(byte);
    }
    to.picture(overlay);
}

/// The bytes of a picture that is handed out.
const PICTURE: usize = 4_235;

/// Zeroed output memory, filled from its beginning.
struct Writer<'a> {
    out: &'a mut [u8],
    at: usize,
}

impl<'a> Writer<'a> {
    fn new(out: &'a mut [u8]) -> Self {
        out.fill(0);
        Self { out, at: 0 }
    }

    fn bytes(&mut self, bytes: &[u8]) {
        self.out[self.at..self.at + bytes.len()].copy_from_slice(bytes);
        self.at += bytes.len();
    }

    fn skip(&mut self, bytes: usize) {
        self.at += bytes;
    }

    /// At the very end.
    fn end(&mut self, bytes: &[u8]) {
        let at = self.out.len() - bytes.len();
        self.out[at..].copy_from_slice(bytes);
    }

    fn u8(&mut self, number: u8) {
        self.bytes(&[number]);
    }

    fn u16(&mut self, number: u16) {
        self.bytes(&number.to_le_bytes());
    }

    fn u32(&mut self, number: u32) {
        self.bytes(&number.to_le_bytes());
    }

    fn point(&mut self, (x, y): (i32, i32)) {
        self.u32(x as u32);
        self.u32(y as u32);
    }

    fn pair(&mut self, (x, y): (u32, u32)) {
        self.u32(x);
        self.u32(y);
    }

    /// A picture, or its room left empty.
    fn picture(&mut self, picture: Option<&Cell>) {
        let end = self.at + PICTURE;
        if let Some(picture) = picture {
            self.u8(picture.bits_per_pixel);
            self.u16(picture.width);
            self.u16(picture.height);
            if matches!(picture.bits_per_pixel, 1 | 4 | 8) {
                self.u16(picture.color_table.len() as u16);
            }
            self.u16(picture.mask.len() as u16);
            self.u16(picture.color.len() as u16);
            self.bytes(&picture.mask);
            self.bytes(&picture.color_table);
            self.bytes(&picture.color);
        }
        self.at = end;
    }

    fn text(&mut self, text: &[u8], room: usize) {
        self.u16(text.len() as u16);
        self.bytes(text);
        self.skip(room - text.len());
    }

    fn rects(&mut self, rects: &[Rect]) {
        self.u16(rects.len() as u16);
        for rect in rects {
            for side in [rect.left, rect.top, rect.right, rect.bottom] {
                self.u16(side);
            }
        }
        self.skip(8 * (16 - rects.len()));
    }
}
