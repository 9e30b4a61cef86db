//! What the stores of generated scripts reach: how they are lent, filled and shared.

use super::super::Facts;
use super::of_stores::KINDS;
use super::overlay::overlay_none;
use crate::book::{Book, BYTES_ROOM, ORDERS_ROOM};
use crate::ids::WindowId;
use crate::number::{NO_CELL, NO_PLACE, STATE_UNFIT, WRONG_ID};
use crate::order::rules::{CACHES, CELLS};
use crate::order::{judge, Order, Picture, WindowChange};
use crate::script::parts::{places, places_of, StoreLengths};
use crate::script::session::{Call, Session};
use crate::table::{brings_icon, Holder, Store, MOST_PLACES, PLACE_SIZE};

/// What stood before a call.
pub struct Before {
    book: Book,
    lent: StoreLengths,
    is_shortened: bool,
}

impl Before {
    /// Before the next call of a session.
    pub fn of(session: &Session) -> Self {
        Self {
            book: session.book().clone(),
            lent: session.lent(),
            is_shortened: session.lent() != session.lengths(),
        }
    }
}

/// What is remembered from call to call.
#[derive(Default)]
pub struct Stores {
    /// An order refused with 17, and what was granted since.
    refused: Option<(Vec<u8>, Vec<&'static str>)>,
    /// The last calls were refused for the store.
    lent_too_few: bool,
    /// How the store was lent when it was last printed, whether the book has changed
    /// since, and the most places it had.
    printed: Option<(StoreLengths, bool, usize)>,
}

impl Facts {
    /// A call on the state, as the store sees it.
    pub(super) fn add_store(
        &mut self,
        stores: &mut Stores,
        before: &Before,
        session: &Session,
        (kind, call): (u8, &Call<'_>),
        number: u8,
    ) {
        self.add_lent(stores, before, session, (kind, call), number);
        if let Some((_, changed, most)) = &mut stores.printed {
            *changed |= before.book != *session.book();
            *most = (*most).max(session.book().places());
        }
        if number == STATE_UNFIT {
            return;
        }
        match call {
            Call::Deliver(order) => self.add_icon(stores, before, order, number),
            Call::StepBack(steps) if number == 0 && *steps > 0 => {
                self.add_taken_back(before.book.table().store(), session.book().table().store());
                self.add_taken_once(&before.book, session.book());
                self.add_overlay_back(&before.book, session.book());
                stores.granted("step back");
            }
            Call::Window(id) if number == 0 => self.add_window(session.book(), *id),
            Call::Icon(window, icon) if number == 0 => {
                let holder = Holder::Notification(*window, *icon);
                self.add_kept(session.book(), holder, "N picture");
            }
            Call::Shared(one, other) => self.add_shared(session.book(), *one, *other, number),
            Call::Empty | Call::Update(..) => stores.refused = None,
            _ => {}
        }
    }

    /// How the store is lent to a call.
    fn add_lent(
        &mut self,
        stores: &mut Stores,
        before: &Before,
        session: &Session,
        (kind, call): (u8, &Call<'_>),
        number: u8,
    ) {
        let lent = places(&before.lent);
        let fixed = before.book.places();
        if *call == Call::Empty {
            self.add_emptied(before, session.book().places(), number);
        }
        let what = match (call, number) {
            (Call::Empty, STATE_UNFIT) => "E refused",
            (Call::Empty, _) if session.book().places() < fixed => "E fixes fewer",
            (Call::Empty, _) => "E",
            (_, STATE_UNFIT) => "a call refused",
            _ => "a call granted",
        };
        if before.is_shortened {
            self.add(format!("T store, and {what}"));
            if before.lent.contains(&0) && session.lengths().iter().all(|&length| length > 0) {
                self.add("T store, lent empty");
            }
        }
        if number == STATE_UNFIT {
            if lent < fixed {
                self.add(format!("{} lent too few 1", char::from(kind)));
                stores.lent_too_few |= !before.is_shortened;
            }
            return;
        }
        if std::mem::take(&mut stores.lent_too_few) && *call != Call::Empty {
            self.add("L fewer, then granted again");
        }
        if lent > fixed && lent <= MOST_PLACES && *call != Call::Empty {
            self.add("L more places than fixed, and a call granted");
        }
    }

    fn add_emptied(&mut self, before: &Before, fixed: usize, number: u8) {
        let lent = places(&before.lent);
        if number == STATE_UNFIT {
            if lent < fixed {
                self.add(format!("E lent={lent} 1"));
            }
            return;
        }
        self.add(format!("E places={fixed} 0"));
        if lent > MOST_PLACES {
            self.add(format!("E lent={lent} 0"));
        }
        if fixed != before.book.places() {
            let what = match fixed < before.book.places() {
                true => "fewer",
                false => "more",
            };
            self.add(format!("E fixes {what}"));
        }
        let counts = before.lent.map(places_of);
        let first = counts.iter().position(|&count| count > 0).unwrap_or(0);
        let last = counts.iter().rposition(|&count| count > 0).unwrap_or(0);
        let broken = |&length: &u32| !(length as usize).is_multiple_of(PLACE_SIZE);
        for (what, holds) in [
            ("a broken place", before.lent.iter().any(broken)),
            (
                "a part of no place between others",
                counts[first..last].contains(&0),
            ),
            (
                "a part of one byte less than a place",
                before.lent.contains(&(PLACE_SIZE as u32 - 1)),
            ),
            ("a part of 65536 bytes", before.lent.contains(&65_536)),
            ("to the byte", !before.lent.iter().any(broken)),
        ] {
            if holds {
                self.add(format!("E cut: {what}"));
            }
        }
    }

    /// A delivery, by the places that it takes and frees.
    fn add_icon(&mut self, stores: &mut Stores, before: &Before, order: &[u8], number: u8) {
        let Ok(judged) = judge(order) else { return };
        let (store, fixed) = (before.book.table().store(), before.book.places());
        let is_full = store.used() == fixed;
        match brings_icon(&judged).as_deref() {
            Some(&[cell, pointer]) => self.add_brought(before, order, [cell, pointer], number),
            Some(&[pointer]) => self.add_sent_once(before, pointer, number),
            _ => {}
        }
        if let (0, Some(overlay)) = (number, overlay_none(&judged)) {
            self.add_overlay_none(before.book.table(), overlay);
        }
        if number == NO_CELL && is_full {
            self.add("D 11 with a full store");
        }
        if let (0, Some((holder, cell))) = (number, cached(&judged)) {
            if is_full {
                self.add("D cached icon with a full store");
            }
            if store.shared(holder, cell) == Some(true) {
                self.add("D cached icon of the cell that it shares");
            }
        }
        if number == NO_PLACE {
            stores.refused = Some((order.to_vec(), Vec::new()));
            return;
        }
        if number != 0 {
            return;
        }
        if let Some((refused, since)) = &stores.refused {
            if refused == order {
                if let Some(what) = since.first() {
                    self.add(format!("17 undone by {what}"));
                }
                stores.refused = None;
            }
        }
        let kept = |holder: &Holder| !matches!(holder, Holder::Cell(..));
        if name(&judged) == "desktop none" && store.holders().any(|holder| kept(&holder)) {
            self.add("D desktop none with kept pictures");
        }
        stores.granted(name(&judged));
    }

    /// A delivery that brings an icon for a cell and a pointer.
    fn add_brought(&mut self, before: &Before, order: &[u8], setting: [Holder; 2], number: u8) {
        let (table, fixed) = (before.book.table(), before.book.places());
        let store = table.store();
        let is_full = store.used() == fixed;
        let [cell, pointer] = setting;
        match number {
            0 => {
                if store.used() + 1 == fixed && store.used_without(&setting) == store.used() {
                    self.add(format!("D places={fixed}, the last one taken"));
                }
                if store.shared(cell, pointer) == Some(true) {
                    self.add("D icon over the cell that it shares");
                }
                if is_full {
                    let alone = |holder| store.used_without(&[holder]) < store.used();
                    let by = match (alone(cell), alone(pointer)) {
                        (true, _) => "the cell",
                        (_, true) => "the pointer",
                        _ => "both together",
                    };
                    self.add(format!("D full store, own place by {by}"));
                }
            }
            NO_PLACE => {
                self.add(format!("D places={fixed} 17"));
                let what = match store.shown(cell) {
                    Some(_) => "a filled",
                    None => "an empty",
                };
                self.add(format!("D 17 for {what} cell"));
                let standing = before.book.standing();
                if standing.orders >= ORDERS_ROOM || standing.bytes + order.len() > BYTES_ROOM {
                    self.add("D 17 where the room is passed too");
                }
                for other in pointer.others() {
                    if !table.is_full_for(&[cell, pointer, other])
                        && store.shared(pointer, other) == Some(true)
                    {
                        self.add("D 17 beside the window's other icon");
                    }
                }
            }
            WRONG_ID if is_full => self.add("D 9 with an icon and a full store"),
            _ => {}
        }
    }

    /// A delivery that brings an icon for a pointer alone.
    fn add_sent_once(&mut self, before: &Before, pointer: Holder, number: u8) {
        let (store, fixed) = (before.book.table().store(), before.book.places());
        match number {
            NO_PLACE => self.add("D sent once 17"),
            0 => {
                let is_alone = store.used_without(&[pointer]) < store.used();
                let is_of_cell = store
                    .sharing(pointer)
                    .any(|holder| matches!(holder, Holder::Cell(..)));
                let is_last = store.used() + 1 == fixed && !is_alone;
                let is_full = store.used() == fixed;
                let is_new = matches!(pointer, Holder::Notification(window, icon)
                    if before.book.table().icon(window, icon).is_none());
                let mut earlier = before.book.orders().iter().rev();
                let again = earlier.find_map(|order| last_given(order, pointer)) == Some(true);
                for (what, holds) in [
                    (", the last place taken", is_last),
                    (", own place in a full store", is_full),
                    (" over what a cell has", is_of_cell),
                    (" over one sent once", again),
                    (", to a new notification", is_new),
                ] {
                    if holds {
                        self.add(format!("D sent once{what}"));
                    }
                }
            }
            _ => {}
        }
    }

    fn add_taken_back(&mut self, before: &Store, after: &Store) {
        let common: Vec<Holder> = before
            .holders()
            .filter(|&holder| after.shown(holder).is_some())
            .collect();
        if common.iter().any(|&h| before.shown(h) != after.shown(h)) {
            self.add("B restores pictures");
        }
        let sharing = |store: &Store, holder| store.sharing(holder).collect::<Vec<_>>();
        if common
            .iter()
            .any(|&h| sharing(before, h) != sharing(after, h))
        {
            self.add("B restores sharing");
        }
    }

    /// A picture sent once, in whose stead another one is back.
    fn add_taken_once(&mut self, before: &Book, after: &Book) {
        let gone = &before.orders()[after.orders().len()..];
        let pointers = gone.iter().filter_map(|order| {
            let setting = brings_icon(&judge(order).ok()?)?;
            (setting.len() == 1).then(|| setting[0])
        });
        let shown = |book: &Book, holder| book.table().shown(holder).cloned();
        for pointer in pointers {
            let earlier = shown(after, pointer);
            if earlier.is_some() && earlier != shown(before, pointer) {
                self.add("B takes back one sent once");
            }
        }
    }

    fn add_window(&mut self, book: &Book, id: WindowId) {
        for holder in Holder::of_window(id) {
            self.add_kept(book, holder, &format!("W {}", kind(holder)));
            for other in holder.others() {
                if holder < other && book.shared(holder, other) == Ok(true) {
                    let (one, other) = (kind(holder), kind(other));
                    self.add(format!("W {one} and {other} at one place"));
                }
            }
            if has_most(book, holder) {
                self.add("W picture of 4224 bytes");
            }
        }
    }

    /// A picture that was looked up and is in no cell: the cell that it came from has
    /// another.
    fn add_kept(&mut self, book: &Book, holder: Holder, name: &str) {
        let store = book.table().store();
        let mut sharing = store.sharing(holder);
        let is_in_cell = sharing.any(|holder| matches!(holder, Holder::Cell(..)));
        if store.shown(holder).is_some() && !is_in_cell {
            self.add(format!("{name} kept, its cell has another"));
        }
        if has_most(book, holder) && name == "N picture" {
            self.add("N picture of 4224 bytes");
        }
    }

    fn add_shared(&mut self, book: &Book, one: Holder, other: Holder, number: u8) {
        let store = book.table().store();
        if let Some(shared) = store.shared(one, other) {
            let (shared, names) = (u8::from(shared), [one, other].map(kind));
            self.add(format!("H {} {} shared={shared}", names[0], names[1]));
            if one == other {
                self.add(format!("H {} with itself shared=1", names[0]));
            }
            if shared == 1 && store.sharing(one).count() >= 6 {
                self.add("H shared by 6 or more");
            }
            if shared == 0 && store.shown(one) == store.shown(other) {
                self.add("H equal pictures apart");
            }
            return;
        }
        for holder in [one, other] {
            if store.shown(holder).is_none() {
                self.add(format!("H {} {number}", absent(book, holder)));
            }
        }
    }

    /// A `Z` with the store lent so.
    pub(super) fn add_dump(&mut self, stores: &mut Stores, session: &Session) {
        let lengths = session.lengths();
        let lent = places(&lengths).min(MOST_PLACES);
        self.add(format!("Z {lent} places"));
        match stores.printed {
            Some((earlier, false, _)) if earlier == lengths => {
                self.add("Z again, nothing between");
            }
            Some((earlier, true, most)) if earlier == lengths && most < lent => {
                self.add("Z again, places past those fixed");
            }
            _ => {}
        }
        stores.printed = Some((lengths, false, session.book().places()));
    }
}

impl Stores {
    /// Something was granted.
    fn granted(&mut self, what: &'static str) {
        if let Some((_, since)) = &mut self.refused {
            since.push(what);
        }
    }
}

fn has_most(book: &Book, holder: Holder) -> bool {
    let size = |picture: &crate::table::Cell| {
        picture.mask.len() + picture.color_table.len() + picture.color.len()
    };
    book.table().shown(holder).map(size) == Some(PLACE_SIZE)
}

/// What a holder that points at nothing is.
fn absent(book: &Book, holder: Holder) -> String {
    let table = book.table();
    match holder {
        Holder::Cell(cache, entry) if cache >= CACHES as u32 || entry >= CELLS as u32 => {
            "cell outside".into()
        }
        Holder::Small(id) | Holder::Big(id) | Holder::Overlay(id) if table.window(id).is_none() => {
            "window absent".into()
        }
        Holder::Notification(window, icon) if table.icon(window, icon).is_none() => {
            "notification absent".into()
        }
        _ => format!("{} of nothing", kind(holder)),
    }
}

fn kind(holder: Holder) -> &'static str {
    match holder {
        Holder::Cell(..) => KINDS[0],
        Holder::Small(_) => KINDS[1],
        Holder::Big(_) => KINDS[2],
        Holder::Notification(..) => KINDS[3],
        Holder::Overlay(_) => KINDS[4],
    }
}

/// Whether the picture that an order brings for a pointer is sent once; none where it
/// brings none for it.
fn last_given(order: &[u8], pointer: Holder) -> Option<bool> {
    let setting = brings_icon(&judge(order).ok()?)?;
    (setting.last() == Some(&pointer)).then_some(setting.len() == 1)
}

/// Who shares with which cell by an order.
fn cached(order: &Order<'_>) -> Option<(Holder, Holder)> {
    let Order::Window(order) = order else {
        return None;
    };
    match order.change {
        WindowChange::Picture {
            which,
            picture: Picture::Cached(cell),
        } => Some((Holder::icon(order.window_id, which), cell.into())),
        _ => None,
    }
}

fn name(order: &Order<'_>) -> &'static str {
    if cached(order).is_some() {
        "cached icon"
    } else if overlay_none(order).is_some() {
        "overlay none"
    } else {
        super::super::order::sort(order)
    }
}
