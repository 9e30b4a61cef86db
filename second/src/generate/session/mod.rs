//! Scripts of state calls, made beside a book so that most calls are granted and
//! refusals come on purpose.

pub(super) mod draft;
mod faults;
mod figures;
mod good;
mod newer;
mod pair;
mod pictures;
mod records;
pub(super) mod slot;
mod store;
mod updates;

pub(super) use good::Maker;
pub use pair::{may_change_places, pair, pair_for_one};
use slot::{pool_icon_id, pool_id};

use super::random::Random;
use crate::book::{BYTES_ROOM, ORDERS_ROOM};
use crate::number::STATE_UNFIT;
use crate::order::{flags, CellPlace};
use crate::record;
use crate::script::parts::{Parts, StoreLengths, FIRST_LENGTHS, STORE_PARTS};
use crate::script::session::{call, Call, Session};
use crate::script::{push_item, take_item};
use crate::table::{MOST_PLACES, NOTIFICATION_ICONS, WINDOWS};

/// One seed in this many gives a script that ends with a bad item.
const BAD_END_EVERY: u64 = 20;

/// A script of that many items. In one of twenty the last item is a bad one.
pub fn script(seed: u64, items: usize, parts: &Parts) -> Vec<u8> {
    let mut writer = Writer {
        random: Random::new(seed),
        session: Session::default(),
        parts,
        script: Vec::new(),
        aim: Aim::Any,
        left: 0,
        is_short: false,
        good: FIRST_LENGTHS,
        combination: newer::first_of(seed),
        pending: Vec::new(),
    };
    let bad_end = seed % BAD_END_EVERY == BAD_END_EVERY - 1;
    for left in (0..items).rev() {
        if left == 0 && bad_end {
            writer.push_bad_end(seed / BAD_END_EVERY);
        } else {
            let (kind, payload) = writer.next_item();
            writer.push(kind, &payload);
        }
    }
    writer.script
}

/// What a stretch of items is to reach.
#[derive(Clone, Copy)]
enum Aim {
    /// Calls of all sorts.
    Any,
    /// A full table of windows.
    Windows,
    /// A full table of notification icons.
    Icons,
    /// The room for orders.
    Orders,
    /// The room for bytes.
    Bytes,
    /// The places for pictures.
    Store,
    /// The combinations of the newer servers' flags.
    Newer,
    /// What is visible, of few windows.
    Figures,
    /// The same of as many as there can be.
    MostFigures,
}

struct Writer<'a> {
    random: Random,
    session: Session,
    parts: &'a Parts,
    script: Vec<u8>,
    aim: Aim,
    /// Items left of this stretch.
    left: usize,
    /// The next call is lent memory that is too short.
    is_short: bool,
    /// The lengths with which the last call that was not refused for it was lent the
    /// store.
    good: StoreLengths,
    /// Which flags of newer servers come next.
    combination: u32,
    /// Items to come first, the last one before the others.
    pending: Vec<(u8, Vec<u8>)>,
}

impl Writer<'_> {
    fn next_item(&mut self) -> (u8, Vec<u8>) {
        if let Some(item) = self.pending.pop() {
            return item;
        }
        if self.is_short {
            return self.any_call();
        }
        if self.left == 0 {
            return self.next_stretch();
        }
        self.left -= 1;
        if self.left == 0 && self.random.chance(40) {
            self.look_up_all();
        }
        match self.aim {
            Aim::Store => self.fill_store(),
            Aim::Newer => self.next_combination(),
            Aim::Any => self.any(),
            Aim::Windows => self.fill_windows(),
            Aim::Icons => self.fill_icons(),
            Aim::Orders => self.fill_orders(),
            Aim::Bytes => self.fill_bytes(),
            Aim::Figures => self.change_figures(),
            Aim::MostFigures => self.fill_figures(),
        }
    }

    /// Begins another stretch. Most of those that fill a store begin with an emptying that
    /// fixes how many places it has, and of the others many with the most places.
    fn next_stretch(&mut self) -> (u8, Vec<u8>) {
        (self.aim, self.left) = match self.random.below(100) {
            0..=30 => (Aim::Any, 30 + self.random.below(60)),
            31..=36 => (Aim::Figures, 30 + self.random.below(60)),
            37..=39 => (Aim::MostFigures, 90),
            40..=51 => (Aim::Windows, 50),
            52..=62 => (Aim::Icons, 35),
            63..=73 => (Aim::Orders, 160),
            74..=78 => (Aim::Bytes, 20),
            79..=85 => (Aim::Newer, 100),
            _ => (Aim::Store, 60 + self.random.below(40)),
        };
        let most = self.session.book().places() == MOST_PLACES;
        match self.aim {
            Aim::Store if self.random.chance(85) => self.lend_and_empty(),
            Aim::Store => self.fill_store(),
            _ if !most && self.random.chance(75) => self.lend_first_and_empty(),
            _ if self.random.chance(10) => self.dumps(),
            _ => self.any(),
        }
    }

    /// Adds an item and makes its call on the book.
    fn push(&mut self, kind: u8, payload: &[u8]) {
        let start = self.script.len();
        push_item(&mut self.script, kind, payload);
        let made = take_item(&self.script[start..])
            .and_then(|(item, _)| call(item, self.parts))
            .expect("an item with a listed form");
        let steps_back = matches!(made, Call::StepBack(1..));
        let number = self.session.make(&made);
        self.is_short = match made {
            Call::Shorten | Call::ShortenStore(..) => true,
            _ if is_state_call(&made) => false,
            _ => self.is_short,
        };
        if is_state_call(&made) && number != Some(STATE_UNFIT) {
            self.good = self.session.lengths();
        }
        if steps_back && number == Some(0) && self.random.chance(15) {
            self.look_up_all();
        }
    }

    /// All that the table holds is to be looked up next.
    fn look_up_all(&mut self) {
        let table = self.session.book().table();
        let windows = table.window_ids().map(|id| window_lookup(id.0));
        self.pending.extend(windows);
        let icons = table.icon_ids().map(|(w, i)| icon_lookup([w.0, i.0]));
        self.pending.extend(icons);
        let cells = table.filled_cells().map(cell_lookup);
        self.pending.extend(cells);
        self.pending.push((b'S', Vec::new()));
        self.pending.push((b'I', Vec::new()));
    }

    /// Each call as often as the others.
    fn any_call(&mut self) -> (u8, Vec<u8>) {
        match self.random.below(10) {
            0 => (b'E', Vec::new()),
            7 => self.sharing_lookup(),
            1 => (b'D', self.order()),
            6 => self.update(),
            2 => (b'M', Vec::new()),
            3 => self.step_back(),
            4 => self.write_record(),
            5 => self.read_record(),
            _ => self.lookup(),
        }
    }

    fn any(&mut self) -> (u8, Vec<u8>) {
        match self.random.below(100) {
            0..=55 => (b'D', self.order()),
            56..=63 => self.update(),
            64 | 65 => self.write_record(),
            66..=68 => self.read_record(),
            69..=86 => self.lookup(),
            87..=93 => self.step_back(),
            94 | 95 => (b'M', Vec::new()),
            96 => self.lend(),
            97 if self.random.chance(40) => (b'E', Vec::new()),
            97 | 98 if self.random.chance(50) => self.shorten_store(),
            97 | 98 => self.shorten(),
            _ if self.random.chance(50) => (b'I', Vec::new()),
            _ => (b'S', Vec::new()),
        }
    }

    fn order(&mut self) -> Vec<u8> {
        self.maker().any()
    }

    fn maker(&mut self) -> Maker<'_> {
        Maker {
            table: self.session.book().table(),
            random: &mut self.random,
        }
    }

    /// New windows until the table is full, then one more and what still goes.
    fn fill_windows(&mut self) -> (u8, Vec<u8>) {
        let full = self.session.book().table().window_ids().count() >= WINDOWS;
        if self.random.chance(if full { 60 } else { 15 }) || self.room_is_low() {
            return self.make_room_or_any();
        }
        let mut maker = self.maker();
        let id = maker.absent_window();
        let draft = maker.draft(flags::WINDOW | flags::NEW, &[id], &[]);
        (b'D', draft.order(&mut self.random))
    }

    /// The same with notification icons.
    fn fill_icons(&mut self) -> (u8, Vec<u8>) {
        let full = self.session.book().table().icon_ids().count() >= NOTIFICATION_ICONS;
        if self.random.chance(if full { 60 } else { 15 }) || self.room_is_low() {
            return self.make_room_or_any();
        }
        let picture = self.random.pick(&[0, 0, flags::ICON, flags::CACHED_ICON]);
        let mut maker = self.maker();
        let ids = maker.absent_icon();
        let draft = maker.draft(flags::NOTIFICATION | flags::NEW | picture, &ids, &[]);
        (b'D', draft.order(&mut self.random))
    }

    fn room_is_low(&self) -> bool {
        let standing = self.session.book().standing();
        standing.orders + 1 >= ORDERS_ROOM || standing.bytes + 1_000 > BYTES_ROOM
    }

    fn make_room_or_any(&mut self) -> (u8, Vec<u8>) {
        if self.room_is_low() {
            (b'M', Vec::new())
        } else {
            self.any()
        }
    }

    /// Small orders until no more fit, then any, and rarely a mark.
    fn fill_orders(&mut self) -> (u8, Vec<u8>) {
        if self.session.book().standing().orders < ORDERS_ROOM {
            if self.random.chance(4) {
                return self.update_of_small();
            }
            return (b'D', self.maker().small());
        }
        match self.random.below(10) {
            0 => (b'M', Vec::new()),
            1 => self.step_back(),
            2 if self.random.chance(50) => self.write_record(),
            2 => self.lookup(),
            3..=5 => (b'D', self.maker().small()),
            _ => (b'D', self.order()),
        }
    }

    /// Big orders until the next could not fit, one byte too many, then the rest.
    fn fill_bytes(&mut self) -> (u8, Vec<u8>) {
        let standing = self.session.book().standing();
        let rest = BYTES_ROOM - standing.bytes;
        if standing.orders >= ORDERS_ROOM {
            return (b'M', Vec::new());
        }
        if rest == 0 {
            return match self.random.below(4) {
                0 | 1 => (b'D', self.order()),
                2 => self.write_record(),
                _ => self.step_back(),
            };
        }
        let one_more = usize::from(self.random.chance(50));
        let big = 3_900 + self.random.below(300);
        let size = if rest < 4_247 {
            rest + one_more
        } else {
            big.min(rest - 23)
        };
        match self.maker().of_size(size) {
            Some(order) => (b'D', order),
            None => (b'D', self.order()),
        }
    }

    /// A lookup, most of what is there.
    fn lookup(&mut self) -> (u8, Vec<u8>) {
        let there = self.random.chance(80);
        match self.random.below(15) {
            10.. => self.sharing_lookup(),
            0..=3 => {
                let id = self.maker().listed_window().filter(|_| there);
                let id = id.unwrap_or_else(|| pool_id(&mut self.random));
                window_lookup(id)
            }
            4..=6 => {
                let ids = self.maker().listed_icon().filter(|_| there);
                let random = &mut self.random;
                let ids = ids.unwrap_or_else(|| [pool_id(random), pool_icon_id(random)]);
                icon_lookup(ids)
            }
            7 | 8 => {
                let filled: Vec<CellPlace> = self.session.book().table().filled_cells().collect();
                if there && !filled.is_empty() {
                    return cell_lookup(self.random.pick(&filled));
                }
                let entry = self.random.pick(&[0, 1, 2, 3, 4, 5, 6, 7, 256, 65_535]);
                let cache = self.random.pick(&[0, 0, 1, 1, 2, 255]);
                cell_lookup(CellPlace { cache, entry })
            }
            _ if self.random.chance(50) => (b'I', Vec::new()),
            _ => (b'S', Vec::new()),
        }
    }

    /// None, some, all or too many steps.
    fn step_back(&mut self) -> (u8, Vec<u8>) {
        let standing = self.session.book().standing().orders;
        let steps = match self.random.below(12) {
            0 => 0,
            1 => standing + 1,
            2 => standing,
            3 => standing + self.random.below(200),
            4 => u32::MAX as usize,
            5 => 0x100 + self.random.below(standing + 1),
            _ => self.random.below(standing.min(6) + 1),
        };
        (b'B', (steps as u32).to_le_bytes().to_vec())
    }

    /// A session record is written, to just enough memory, one byte less, or another size.
    fn write_record(&mut self) -> (u8, Vec<u8>) {
        let needed = record::write(self.session.book().orders()).len();
        let room = match self.random.below(8) {
            0..=2 => needed,
            3 | 4 => needed - 1,
            5 => self.random.below(needed + 1),
            6 => self.random.pick(&[0, 1, 2, usize::from(u16::MAX)]),
            _ => needed + self.random.below(300),
        };
        (b'O', (room as u16).to_le_bytes().to_vec())
    }

    /// A session record is read.
    fn read_record(&mut self) -> (u8, Vec<u8>) {
        let orders = self.session.book().orders();
        (b'V', records::record(&mut self.random, orders))
    }

    /// The next call is lent a part that is too short.
    fn shorten(&mut self) -> (u8, Vec<u8>) {
        let lengths = self.parts.lengths();
        let part = self.random.below(lengths.len());
        let length = lengths[part].min(u16::MAX.into()) as usize;
        let missing = match self.random.below(4) {
            0 => length,
            1 => 1 + self.random.below(length),
            2 => u16::MAX.into(),
            _ => 1,
        };
        let [low, high] = (missing as u16).to_le_bytes();
        (b'T', vec![part as u8, low, high])
    }

    /// An item without a listed form; `sort` chooses which fault it has.
    fn push_bad_end(&mut self, sort: u64) {
        let (random, script) = (&mut self.random, &mut self.script);
        let parts = self.parts.lengths().len() + STORE_PARTS;
        let part = parts.min(255) as u8;
        match sort % 12 {
            0 => script.extend_from_slice(&[b'D', 7, 0][..1 + random.below(2)]),
            1 => {
                push_item(script, b'D', &[0x2E, 7, 0, 2, 0, 0, 4]);
                script.truncate(script.len() - 1 - random.below(7));
            }
            2 => push_item(script, random.pick(b"ARPdmz\0\xff"), &[]),
            3 => push_item(script, random.pick(b"EMSIBWNCTXOHLZ"), &[0; 9]),
            4 => push_item(script, random.pick(b"BWNCTXUHLZ"), &[1, 0]),
            5 if parts < 256 => push_item(script, b'T', &[part, 1, 0]),
            6 if parts < 256 => push_item(script, b'X', &[part, 0, 0, 0, 0, 1]),
            5 | 6 => push_item(script, b'X', &[0, 0, 0, 1, 0, 1]),
            7 => push_item(script, b'T', &[random.pick(&[0, part - 1]), 0, 0]),
            // A part of the store over 65,536 bytes.
            8 => {
                let mut lengths = FIRST_LENGTHS.map(u32::to_le_bytes);
                lengths[random.below(STORE_PARTS)] = 65_537_u32.to_le_bytes();
                push_item(script, b'L', lengths.as_flattened());
            }
            // A holder of an unlisted kind, or a window with a second number.
            9 | 10 => {
                let mut holders = [0; 18];
                let at = 9 * random.below(2);
                if sort.is_multiple_of(2) {
                    holders[at] = 5;
                } else {
                    (holders[at], holders[at + 5]) = (random.pick(&[1, 2, 4]), 1);
                }
                push_item(script, b'H', &holders);
            }
            _ => push_item(script, b'X', &[part - 1, 0, 0, 1, 0, 1]),
        }
    }
}

/// Whether it is a call on the state, which a shortage of memory before it is meant for.
fn is_state_call(call: &Call<'_>) -> bool {
    let is_short = matches!(call, Call::Shorten | Call::ShortenStore(..));
    let is_fault = matches!(call, Call::Fault | Call::FaultStore(..));
    !is_short && !is_fault && !matches!(call, Call::Lend(_) | Call::Dump | Call::ReadRecord(_))
}

fn window_lookup(id: u32) -> (u8, Vec<u8>) {
    (b'W', id.to_le_bytes().to_vec())
}

fn icon_lookup(ids: [u32; 2]) -> (u8, Vec<u8>) {
    (b'N', ids.map(u32::to_le_bytes).concat())
}

fn cell_lookup(place: CellPlace) -> (u8, Vec<u8>) {
    let [low, high] = place.entry.to_le_bytes();
    (b'C', vec![low, high, place.cache])
}
