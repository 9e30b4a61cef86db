//! The store: how it is lent, and stretches of items that fill it.
//!
//! Where a place lies must not change while a picture is in play, as the papers leave
//! open what is shown then: see [`Writer::keeps_places`].

use super::good::Maker;
use super::slot::{pool_icon_id, pool_id};
use super::Writer;
use crate::generate::random::Random;
use crate::ids::{NotifyIconId, WindowId};
use crate::order::flags;
use crate::script::parts::{first_places, places, places_of, StoreLengths, FIRST_LENGTHS};
use crate::script::parts::{PART_LIMIT, STORE_PARTS};
use crate::script::session::holder_bytes;
use crate::table::{Holder, FEWEST_PLACES, MOST_PLACES, PLACE_SIZE};

/// The most places of a part.
const MOST_OF_PART: usize = PART_LIMIT as usize / PLACE_SIZE;
/// The places to empty with; under 12 is refused, over 64 counts as 64.
const SIZES: [usize; 20] = [
    12, 12, 12, 13, 13, 13, 14, 20, 33, 63, 63, 63, 63, 64, 64, 70, 70, 75, 11, 0,
];

type Item = (u8, Vec<u8>);

impl Writer<'_> {
    /// Lends the store anew: with too few places for some calls, with more than are used,
    /// or for an emptying that fixes another number.
    pub(super) fn lend(&mut self) -> Item {
        match self.random.below(10) {
            0..=3 => self.lend_too_few(),
            4..=6 => lengths_item(self.same_places()),
            _ => self.lend_and_empty(),
        }
    }

    /// Too few places, for some calls that are refused for it, and enough again.
    fn lend_too_few(&mut self) -> Item {
        let same = self.same_places();
        self.pending.push(lengths_item(same));
        for _ in 0..1 + self.random.below(6) {
            // An emptying could be granted, with places that lie elsewhere.
            let item = self.any_call();
            if item.0 != b'E' {
                self.pending.push(item);
            }
        }
        let fixed = self.session.book().places();
        let fewer = if self.random.chance(60) {
            let mut lengths = self.good;
            let used: Vec<usize> = (0..STORE_PARTS)
                .filter(|&part| places_of(lengths[part]) > 0)
                .collect();
            let part = self.random.pick(&used);
            // To the byte: the last place of the part is broken.
            let over = places(&lengths) - fixed;
            let kept = places_of(lengths[part]).saturating_sub(over) * PLACE_SIZE;
            lengths[part] = (kept as u32).saturating_sub(1);
            lengths
        } else {
            let count = self.random.below(fixed);
            cut(&mut self.random, count)
        };
        if places(&fewer) >= fixed {
            return lengths_item(same);
        }
        lengths_item(fewer)
    }

    /// A store for an emptying, which comes next; if it is refused, the store is lent as
    /// it was.
    pub(super) fn lend_and_empty(&mut self) -> Item {
        let count = self.random.pick(&SIZES);
        // More places take longer to fill.
        self.left += count;
        let lengths = cut(&mut self.random, count);
        if count < FEWEST_PLACES {
            let same = self.same_places();
            self.pending.push(lengths_item(same));
        }
        self.pending.push((b'E', Vec::new()));
        lengths_item(lengths)
    }

    /// The store that is lent at first, and an emptying.
    pub(super) fn lend_first_and_empty(&mut self) -> Item {
        self.pending.push((b'E', Vec::new()));
        lengths_item(FIRST_LENGTHS)
    }

    /// Lengths with which the places in use lie where they do.
    fn same_places(&mut self) -> StoreLengths {
        let fixed = self.session.book().places();
        let last = first_places(&self.good, fixed).last().copied();
        let (last_part, last_place) = last.expect("a store has places");
        let mut lengths = self.good;
        let more = self.random.below(2);
        for (part, length) in lengths.iter_mut().enumerate() {
            let count = match part {
                _ if part < last_part => places_of(*length),
                _ if part == last_part => {
                    let most = MOST_OF_PART - last_place - 1;
                    last_place + 1 + self.random.below(most + 1) * more
                }
                _ => self.random.below(MOST_OF_PART + 1) * more,
            };
            *length = part_length(&mut self.random, count);
        }
        debug_assert!(self.keeps_places(&lengths));
        lengths
    }

    /// Whether, with these lengths, the places that emptying fixed lie where they do.
    pub(super) fn keeps_places(&self, lengths: &StoreLengths) -> bool {
        let fixed = self.session.book().places();
        first_places(lengths, fixed) == first_places(&self.good, fixed)
    }

    /// The next call is lent a part of the store shorter. Where places would lie elsewhere
    /// it is an emptying, and sometimes else.
    pub(super) fn shorten_store(&mut self) -> Item {
        let part = self.random.below(STORE_PARTS);
        let mut lengths = self.session.lengths();
        let over = lengths[part] as usize % PLACE_SIZE;
        let missing = match self.random.below(6) {
            0 => 1 + self.random.below(usize::from(u16::MAX)),
            1 => lengths[part] as usize,
            2 => over,
            3 => over + 1,
            4 => PLACE_SIZE,
            _ => 1,
        };
        let missing = missing.clamp(1, u16::MAX.into()) as u16;
        lengths[part] = lengths[part].saturating_sub(missing.into());
        let is_refused = places(&lengths) < self.session.book().places();
        if !is_refused && !self.keeps_places(&lengths) || self.random.chance(35) {
            self.pending.push((b'E', Vec::new()));
        }
        let [low, high] = missing.to_le_bytes();
        let part = self.parts.first_of_store() + part as u8;
        (b'T', vec![part, low, high])
    }

    /// Windows and icons until every place is pointed at, then what a full store refuses,
    /// still takes and frees.
    pub(super) fn fill_store(&mut self) -> Item {
        if self.room_is_low() {
            return (b'M', Vec::new());
        }
        let book = self.session.book();
        let (table, places) = (book.table(), book.places());
        let windows = table.window_ids().count();
        let pointers = 2 * windows + table.icon_ids().count();
        let is_full = table.store().used() >= places;
        match self.random.below(60) {
            0 => return self.shorten_store(),
            1 => return self.lend(),
            2 if places < 20 && self.random.chance(30) => return self.dumps(),
            _ if is_full => return self.on_full_store(),
            _ => {}
        }
        if pointers < places && windows < 31 {
            let mut maker = self.maker();
            let id = maker.absent_window();
            let draft = maker.draft(flags::WINDOW | flags::NEW, &[id], &[]);
            return (b'D', draft.order(&mut self.random));
        }
        match self.random.below(10) {
            0..=2 => self.update_of_icons(),
            3 => self.update_of_cached(),
            4 | 5 => self.some_order(|maker| maker.growing()),
            6 => self.some_order(|maker| maker.sharing()),
            7 => self.some_order(|maker| maker.twin()),
            8 => self.sharing_lookup(),
            _ => self.any(),
        }
    }

    /// The delivery of an order, if one can be made.
    fn some_order(&mut self, make: impl Fn(&mut Maker<'_>) -> Option<Vec<u8>>) -> Item {
        match make(&mut self.maker()) {
            Some(order) => (b'D', order),
            None => self.any(),
        }
    }

    fn on_full_store(&mut self) -> Item {
        match self.random.below(20) {
            0..=2 => self.some_order(|maker| maker.no_place()),
            3..=5 => self.some_order(|maker| maker.own_place()),
            6 | 7 => self.some_order(|maker| maker.no_place_beside_other()),
            8 => (b'D', self.maker().no_cell()),
            9 => (b'D', self.icon_for_absent()),
            10 => self.some_order(|maker| maker.sharing()),
            11 => self.some_order(|maker| maker.twin()),
            12 if self.random.chance(50) => self.past_all_room(),
            12..=15 => self.place_freed(),
            16 => self.update(),
            17 | 18 => self.sharing_lookup(),
            _ if self.random.chance(50) => self.step_back(),
            _ => self.any(),
        }
    }

    /// An icon for a window that is not listed: 9 comes before 17.
    fn icon_for_absent(&mut self) -> Vec<u8> {
        let mut maker = self.maker();
        let id = maker.absent_window();
        let flags = flags::WINDOW | flags::ICON | maker.icon_bits();
        let draft = maker.draft(flags, &[id], &[]);
        draft.order(&mut self.random)
    }

    /// Orders until the history has no room; then an icon that finds no place either, and
    /// one that only finds no room.
    fn past_all_room(&mut self) -> Item {
        let (own, none) = (self.maker().own_place(), self.maker().no_place());
        let orders = own.into_iter().chain(none);
        self.pending.extend(orders.map(|order| (b'D', order)));
        self.update_of_desktop()
    }

    /// An icon that finds no place; then a place is freed, and it is delivered again.
    fn place_freed(&mut self) -> Item {
        let Some(order) = self.maker().no_place() else {
            return self.any();
        };
        if self.random.chance(40) {
            self.look_up_all();
        }
        let again = (b'D', order.clone());
        match self.random.below(6) {
            0 => {
                self.pending.push(again);
                if let Some(steps) = self.freeing_steps(&order) {
                    self.pending.push((b'B', steps.to_le_bytes().to_vec()));
                }
            }
            1 => {
                let ids = order[7..]
                    .chunks_exact(4)
                    .map(|id| [id[0], id[1], id[2], id[3]]);
                let ids: Vec<u32> = ids.take(2).map(u32::from_le_bytes).collect();
                let is_window = order[6] & 1 != 0;
                self.pending.push(again);
                let maker = &mut self.maker();
                let new = match is_window {
                    true => maker.draft(flags::WINDOW | flags::NEW, &ids[..1], &[]),
                    false => maker.draft(flags::NOTIFICATION | flags::NEW, &ids, &[]),
                };
                let none = maker.draft(flags::DESKTOP | flags::NONE, &[], &[]);
                let new = (b'D', new.order(&mut self.random));
                self.pending.push(new);
                let none = (b'D', none.order(&mut self.random));
                self.pending.push(none);
            }
            2 => {
                let cached = self.maker().freeing_cached();
                self.pending.push(again);
                self.pending.extend(cached.map(|order| (b'D', order)));
            }
            3 => {
                let none = self.maker().freeing_overlay();
                self.pending.push(again);
                self.pending.extend(none.map(|order| (b'D', order)));
            }
            _ => {
                let delete = self.maker().freeing_delete();
                self.pending.push(again);
                self.pending.extend(delete.map(|order| (b'D', order)));
            }
        }
        (b'D', order)
    }

    /// After how many steps back an order is granted, if that are few.
    fn freeing_steps(&self, order: &[u8]) -> Option<u32> {
        let most = self.session.book().standing().orders.min(12) as u32;
        (1..=most).find(|&steps| {
            let mut book = self.session.book().clone();
            book.step_back(steps).is_ok() && book.deliver(order).is_ok()
        })
    }

    /// Whether two holders share: most hold something, and many the same.
    pub(super) fn sharing_lookup(&mut self) -> Item {
        let one = self.some_holder();
        let sharing: Vec<Holder> = self.session.book().table().store().sharing(one).collect();
        let other = if !sharing.is_empty() && self.random.chance(55) {
            self.random.pick(&sharing)
        } else {
            self.some_holder()
        };
        let mut payload = holder_bytes(one).to_vec();
        payload.extend(holder_bytes(other));
        (b'H', payload)
    }

    fn some_holder(&mut self) -> Holder {
        let holders: Vec<Holder> = self.session.book().table().store().holders().collect();
        if !holders.is_empty() && self.random.chance(85) {
            // Each sort as often as the others.
            let sort = self.random.below(5);
            let of_sort = |holder: &&Holder| sort_of(holder) == sort;
            let of_sort: Vec<Holder> = holders.iter().filter(of_sort).copied().collect();
            return match of_sort.is_empty() {
                true => self.random.pick(&holders),
                false => self.random.pick(&of_sort),
            };
        }
        let listed = self.random.chance(50);
        let window = self.maker().listed_window().filter(|_| listed);
        let window = WindowId(window.unwrap_or_else(|| pool_id(&mut self.random)));
        match self.random.below(6) {
            0 => Holder::Small(window),
            1 => Holder::Big(window),
            5 => Holder::Overlay(window),
            2 => match self.maker().listed_icon().filter(|_| listed) {
                Some([window, icon]) => Holder::Notification(WindowId(window), NotifyIconId(icon)),
                None => Holder::Notification(window, NotifyIconId(pool_icon_id(&mut self.random))),
            },
            3 => Holder::Cell(self.random.below(2) as u32, self.random.below(6) as u32),
            // Outside the caches; some are inside if cut to fewer bytes.
            _ => {
                let cache = self.random.pick(&[0, 1, 2, 255, 256, 0x0001_0001]);
                let entry = self
                    .random
                    .pick(&[6, 7, 256, 0x0001_0000, 0x0100_0002, u32::MAX]);
                Holder::Cell(cache, entry)
            }
        }
    }

    /// The memory is printed, before and after calls that leave all or a part of it alone.
    pub(super) fn dumps(&mut self) -> Item {
        self.pending.push((b'Z', Vec::new()));
        let all_alone = self.random.chance(50);
        for _ in 0..1 + self.random.below(4) {
            let item = match all_alone {
                true if self.random.chance(50) => self.lookup(),
                true => (b'D', self.maker().refused()),
                false if self.random.chance(30) => (b'M', Vec::new()),
                false => (b'D', self.maker().good()),
            };
            self.pending.push(item);
        }
        self.pending.push((b'Z', Vec::new()));
        lengths_item(self.same_places())
    }
}

fn sort_of(holder: &Holder) -> usize {
    match holder {
        Holder::Cell(..) => 0,
        Holder::Small(_) => 1,
        Holder::Big(_) => 2,
        Holder::Notification(..) => 3,
        Holder::Overlay(_) => 4,
    }
}

fn lengths_item(lengths: StoreLengths) -> Item {
    (b'L', lengths.map(u32::to_le_bytes).concat())
}

/// So many places, in parts of any lengths: some of no place, most with a broken one.
fn cut(random: &mut Random, count: usize) -> StoreLengths {
    let mut counts = [0; STORE_PARTS];
    let mut left = count;
    while left > 0 {
        let part = random.below(STORE_PARTS);
        let room = MOST_OF_PART - counts[part];
        let more = left.min(room).min(1 + random.below(MOST_OF_PART));
        counts[part] += more;
        left -= more;
    }
    counts.map(|count| part_length(random, count))
}

/// A length that so many places fit.
fn part_length(random: &mut Random, count: usize) -> u32 {
    let whole = count * PLACE_SIZE;
    let most = (PART_LIMIT as usize - whole).min(PLACE_SIZE - 1);
    let more = match random.below(4) {
        0 => 0,
        1 => most,
        2 => 1,
        _ => random.below(most + 1),
    };
    (whole + more) as u32
}

const _: () = assert!(MOST_PLACES < STORE_PARTS * MOST_OF_PART);
