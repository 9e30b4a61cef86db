//! A file of a book. What has no meaning in it is noise: bodies of free slots, bytes past a
//! field, ids of free slots, heads and places that nothing points at, bytes past the last
//! order.

use std::collections::BTreeMap;

use super::figures::Figures;
use super::{
    body_at, CELL_COUNT, FIGURES_AT, HEADS_AT, HEAD_SIZE, ORDERS_AT, PARTS, POINTERS_AT,
    POINTERS_EACH, SLOTS, SLOTS_AT, SLOT_SIZE, STATE_SIZE,
};
use crate::book::Book;
use crate::generate::random::Random;
use crate::ids::{NotifyIconId, WindowId};
use crate::order::rules::{
    BALLOON_TEXT_LIMIT, BALLOON_TITLE_LIMIT, CELLS, ID_SIZE, OVERLAY_TEXT_LIMIT, RECTS_LIMIT,
    RECT_SIZE, STACK_LIMIT, TIP_LIMIT, TITLE_LIMIT,
};
use crate::table::{Cell, Holder, NotificationIcon, Rect, Table, Window};
use crate::table::{NOTIFICATION_ICONS, PLACE_SIZE, WINDOWS};

/// The file of a book with so many places, at least those that it has. Slots and places
/// are chosen at random.
pub fn write(book: &Book, places: usize, random: &mut Random) -> Vec<u8> {
    let mut writer = Writer {
        index: random.bytes(PARTS[0]),
        bodies: random.bytes(PARTS[1]),
        journal: random.bytes(PARTS[2]),
        places: random.bytes(PLACE_SIZE * places),
        slots: BTreeMap::new(),
        random,
    };
    writer.table(book.at_mark());
    writer.orders(book.orders());
    let file = [writer.index, writer.bodies, writer.journal, writer.places].concat();
    debug_assert_eq!(file.len(), STATE_SIZE + PLACE_SIZE * places);
    file
}

/// The ids of a record, of a window alone or of a notification icon.
type Ids = (WindowId, Option<NotifyIconId>);

struct Writer<'a> {
    index: Vec<u8>,
    bodies: Vec<u8>,
    journal: Vec<u8>,
    places: Vec<u8>,
    slots: BTreeMap<Ids, usize>,
    random: &'a mut Random,
}

impl Writer<'_> {
    fn table(&mut self, table: &Table) {
        self.index[0] = table.places() as u8;
        self.index[POINTERS_AT..SLOTS_AT].fill(0);
        for slot in 0..SLOTS {
            self.index[SLOTS_AT + SLOT_SIZE * slot] = 0;
        }
        let free = self.shuffled(WINDOWS);
        let mut figures = Figures::default();
        for (id, slot) in table.window_ids().zip(free) {
            self.list(slot, (id, None));
            let Some(record) = table.window(id) else {
                continue;
            };
            self.body(slot, &window(record));
            figures.add(slot, record);
        }
        self.index[FIGURES_AT..].copy_from_slice(&figures.bytes());
        let free = self.shuffled(NOTIFICATION_ICONS);
        for ((window, icon), slot) in table.icon_ids().zip(free) {
            let slot = WINDOWS + slot;
            self.list(slot, (window, Some(icon)));
            let body = table.icon(window, icon).map(notification);
            self.body(slot, &body.unwrap_or_default());
        }
        let desktop = table.desktop();
        let ids: Vec<u8> = desktop.stack.iter().flat_map(|id| bytes(id.0)).collect();
        let mut body = vec![
            (vec![u8::from(desktop.hooked)], 1),
            (vec![u8::from(desktop.syncing)], 1),
            (bytes(desktop.active.0), 4),
        ];
        body.push((vec![desktop.stack.len() as u8], 1));
        body.push((ids, ID_SIZE * STACK_LIMIT));
        self.body(SLOTS, &body);
        let free = self.shuffled(table.places());
        for ((holders, picture), place) in table.store().pictures().zip(free) {
            for &holder in holders {
                let number = self.number(holder);
                self.index[POINTERS_AT + number] = place as u8 + 1;
            }
            self.picture(place, picture);
        }
    }

    /// The numbers below `count` in any order.
    fn shuffled(&mut self, count: usize) -> Vec<usize> {
        let mut numbers: Vec<usize> = (0..count).collect();
        for at in (1..count).rev() {
            numbers.swap(at, self.random.below(at + 1));
        }
        numbers
    }

    fn list(&mut self, slot: usize, ids: Ids) {
        let (window, icon) = ids;
        let at = SLOTS_AT + SLOT_SIZE * slot;
        self.index[at] = 1;
        self.index[at + 1..at + 5].copy_from_slice(&bytes(window.0));
        self.index[at + 5..at + 9].copy_from_slice(&bytes(icon.map_or(0, |icon| icon.0)));
        self.slots.insert(ids, slot);
    }

    /// Each field at its place, with room for so many bytes.
    fn body(&mut self, slot: usize, fields: &[(Vec<u8>, usize)]) {
        let mut at = body_at(slot);
        for (field, room) in fields {
            self.bodies[at..at + field.len()].copy_from_slice(field);
            at += room;
        }
    }

    /// The number of a holder's pointer.
    fn number(&self, holder: Holder) -> usize {
        let icon = |ids: Ids, which| CELL_COUNT + POINTERS_EACH * self.slots[&ids] + which;
        match holder {
            Holder::Cell(cache, entry) => cache as usize * CELLS + entry as usize,
            Holder::Small(id) => icon((id, None), 0),
            Holder::Big(id) => icon((id, None), 1),
            Holder::Overlay(id) => icon((id, None), 2),
            Holder::Notification(window, id) => icon((window, Some(id)), 0),
        }
    }

    fn picture(&mut self, place: usize, picture: &Cell) {
        let number = |length: usize| (length as u16).to_le_bytes().to_vec();
        let table = match picture.bits_per_pixel {
            1 | 4 | 8 => number(picture.color_table.len()),
            _ => Vec::new(),
        };
        let head = [
            vec![picture.bits_per_pixel],
            number(picture.width.into()),
            number(picture.height.into()),
            table,
            number(picture.mask.len()),
            number(picture.color.len()),
        ]
        .concat();
        let at = HEADS_AT + HEAD_SIZE * place + 3;
        self.bodies[at..at + head.len()].copy_from_slice(&head);
        let bits = [&picture.mask[..], &picture.color_table, &picture.color].concat();
        let at = PLACE_SIZE * place;
        self.places[at..at + bits.len()].copy_from_slice(&bits);
    }

    fn orders(&mut self, orders: &[Vec<u8>]) {
        let count = (orders.len() as u16).to_le_bytes();
        self.journal[..ORDERS_AT].copy_from_slice(&count);
        let all = orders.concat();
        self.journal[ORDERS_AT..ORDERS_AT + all.len()].copy_from_slice(&all);
    }
}

fn bytes(number: u32) -> Vec<u8> {
    number.to_le_bytes().to_vec()
}

fn pair((x, y): (u32, u32)) -> Vec<u8> {
    [bytes(x), bytes(y)].concat()
}

fn offset((x, y): (i32, i32)) -> Vec<u8> {
    pair((x as u32, y as u32))
}

fn string(bytes: &[u8], limit: usize) -> (Vec<u8>, usize) {
    let length = (bytes.len() as u16).to_le_bytes();
    ([&length[..], bytes].concat(), 2 + limit)
}

fn rects(rects: &[Rect]) -> (Vec<u8>, usize) {
    let sides = rects
        .iter()
        .flat_map(|r| [r.left, r.top, r.right, r.bottom]);
    let count = (rects.len() as u16).to_le_bytes();
    let bytes = count.into_iter().chain(sides.flat_map(u16::to_le_bytes));
    (bytes.collect(), 2 + RECT_SIZE * RECTS_LIMIT)
}

fn window(window: &Window) -> Vec<(Vec<u8>, usize)> {
    vec![
        (vec![0, 0], 2),
        (bytes(window.owner.0), 4),
        (pair((window.style, window.extended_style)), 8),
        (vec![window.show_state], 1),
        string(&window.title, TITLE_LIMIT),
        (offset(window.client_offset), 8),
        (pair(window.client_size), 8),
        (pair(window.margin_x), 8),
        (pair(window.margin_y), 8),
        (vec![window.rp_content], 1),
        (bytes(window.root_parent.0), 4),
        (offset(window.window_offset), 8),
        (offset(window.client_delta), 8),
        (pair(window.window_size), 8),
        rects(&window.window_rects),
        (offset(window.visible_offset), 8),
        rects(&window.visibility_rects),
        string(&window.overlay_text, OVERLAY_TEXT_LIMIT),
        (vec![window.taskbar], 1),
        (vec![window.server_z], 1),
        (vec![window.app_bar], 1),
        (vec![window.edge], 1),
    ]
}

fn notification(icon: &NotificationIcon) -> Vec<(Vec<u8>, usize)> {
    vec![
        (vec![0, 0], 2),
        (bytes(icon.version), 4),
        string(&icon.tip, TIP_LIMIT),
        (pair((icon.balloon_timeout, icon.balloon_flags)), 8),
        string(&icon.balloon_text, BALLOON_TEXT_LIMIT),
        string(&icon.balloon_title, BALLOON_TITLE_LIMIT),
        (bytes(icon.state), 4),
    ]
}
