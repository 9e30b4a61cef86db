//! Scripts of state calls, made on the plain book.
//!
//! The book has pictures and no places, so it goes on showing them where a script lends a
//! store that is cut otherwise (`L`, `T`) while pictures are in play; a program whose
//! places then lie elsewhere need not. The papers leave that case open, and no generated
//! script has it.

use std::io;

use super::dump::push_size;
use super::lookup::push_found;
use super::parts::{places, Parts, StoreLengths, FIRST_LENGTHS, PART_LIMIT, STORE_PARTS};
use super::print::push_hex;
pub use super::End;
use super::{take_item, Item};
use crate::book::Book;
use crate::ids::{NotifyIconId, WindowId};
use crate::number::{OUTPUT_TOO_SMALL, STATE_UNFIT};
use crate::order::CellPlace;
use crate::record;
use crate::table::{Holder, FEWEST_PLACES, MOST_PLACES, PLACE_SIZE};
use crate::update::{self, Report};

/// The kinds of items.
pub const KINDS: &[u8] = b"EDUMBWNCSIHOVTXLZ";

/// The kinds of items that print nothing.
pub const SILENT: &[u8] = b"TXL";

/// What an item asks for.
#[derive(Clone, Copy, Debug, PartialEq, Eq)]
pub enum Call<'a> {
    /// Emptying.
    Empty,
    /// Delivery of an order.
    Deliver(&'a [u8]),
    /// Delivery of an update's orders, up to so many.
    Update(u32, &'a [u8]),
    /// A mark.
    Mark,
    /// That many steps back.
    StepBack(u32),
    /// A window is looked up.
    Window(WindowId),
    /// A notification icon is looked up.
    Icon(WindowId, NotifyIconId),
    /// A cell is looked up.
    Cell(CellPlace),
    /// The desktop state is looked up.
    Desktop,
    /// The ids of the windows and of the notification icons are looked up.
    Lists,
    /// Whether two holders share a place is looked up.
    Shared(Holder, Holder),
    /// The session record is written to so many bytes of output memory.
    WriteRecord(u16),
    /// A session record is read.
    ReadRecord(&'a [u8]),
    /// No call: the next one is lent state memory that is too short.
    Shorten,
    /// No call: the next one is lent this part of the store so many bytes shorter.
    ShortenStore(usize, u16),
    /// No call: a byte of the state memory changes.
    Fault,
    /// No call: a byte of a part of the store changes, which may be past what is lent.
    FaultStore(usize, u32),
    /// No call: from now on the store is lent with these lengths.
    Lend(StoreLengths),
    /// No call: the memory is printed.
    Dump,
}

/// What an item asks for, or none if it has no listed form.
pub fn call<'a>(item: Item<'a>, parts: &Parts) -> Option<Call<'a>> {
    let payload = item.payload;
    Some(match (item.kind, payload) {
        (b'E', []) => Call::Empty,
        (b'D', order) => Call::Deliver(order),
        (b'U', &[a, b, c, d, ref orders @ ..]) => {
            Call::Update(u32::from_le_bytes([a, b, c, d]), orders)
        }
        (b'M', []) => Call::Mark,
        (b'B', _) => Call::StepBack(u32::from_le_bytes(payload.try_into().ok()?)),
        (b'W', _) => Call::Window(WindowId(u32::from_le_bytes(payload.try_into().ok()?))),
        (b'N', &[a, b, c, d, ref icon @ ..]) => Call::Icon(
            WindowId(u32::from_le_bytes([a, b, c, d])),
            NotifyIconId(u32::from_le_bytes(icon.try_into().ok()?)),
        ),
        (b'C', &[low, high, cache]) => Call::Cell(CellPlace {
            cache,
            entry: u16::from_le_bytes([low, high]),
        }),
        (b'S', []) => Call::Desktop,
        (b'I', []) => Call::Lists,
        (b'O', &[low, high]) => Call::WriteRecord(u16::from_le_bytes([low, high])),
        (b'V', record) => Call::ReadRecord(record),
        (b'H', _) => {
            let (one, other) = payload.split_first_chunk::<HOLDER_SIZE>()?;
            Call::Shared(holder(one)?, holder(other.try_into().ok()?)?)
        }
        (b'T', &[part, low, high]) => {
            let missing = u16::from_le_bytes([low, high]);
            match parts.of_store(part) {
                Some(part) if missing > 0 => Call::ShortenStore(part, missing),
                None if missing > 0 && parts.has_part(part) => Call::Shorten,
                _ => return None,
            }
        }
        (b'X', &[part, a, b, c, d, _]) => {
            let offset = u32::from_le_bytes([a, b, c, d]);
            match parts.of_store(part) {
                Some(part) if offset < PART_LIMIT => Call::FaultStore(part, offset),
                None if parts.has_byte(part, offset) => Call::Fault,
                _ => return None,
            }
        }
        (b'L', _) => {
            let lengths: [[u8; 4]; STORE_PARTS] = array(payload)?;
            let lengths = lengths.map(u32::from_le_bytes);
            if lengths.iter().any(|&length| length > PART_LIMIT) {
                return None;
            }
            Call::Lend(lengths)
        }
        (b'Z', []) => Call::Dump,
        _ => return None,
    })
}

/// The bytes of a holder in an item.
const HOLDER_SIZE: usize = 9;

/// A holder: a kind and two numbers; none if it is no listed one.
fn holder(&[kind, ref numbers @ ..]: &[u8; HOLDER_SIZE]) -> Option<Holder> {
    let [one, other]: [[u8; 4]; 2] = array(numbers)?;
    let (one, other) = (u32::from_le_bytes(one), u32::from_le_bytes(other));
    Some(match (kind, other) {
        (0, _) => Holder::Cell(one, other),
        (1, 0) => Holder::Small(WindowId(one)),
        (2, 0) => Holder::Big(WindowId(one)),
        (3, _) => Holder::Notification(WindowId(one), NotifyIconId(other)),
        (4, 0) => Holder::Overlay(WindowId(one)),
        _ => return None,
    })
}

/// The bytes of a holder in an item, as [`call`] reads them.
pub fn holder_bytes(holder: Holder) -> [u8; HOLDER_SIZE] {
    let (kind, one, other) = match holder {
        Holder::Cell(cache, entry) => (0, cache, entry),
        Holder::Small(id) => (1, id.0, 0),
        Holder::Big(id) => (2, id.0, 0),
        Holder::Notification(window, icon) => (3, window.0, icon.0),
        Holder::Overlay(id) => (4, id.0, 0),
    };
    let mut bytes = [kind; HOLDER_SIZE];
    bytes[1..5].copy_from_slice(&one.to_le_bytes());
    bytes[5..].copy_from_slice(&other.to_le_bytes());
    bytes
}

/// Bytes as numbers of 4, if they are so many.
fn array<const N: usize>(bytes: &[u8]) -> Option<[[u8; 4]; N]> {
    let (numbers, rest) = bytes.as_chunks::<4>();
    rest.is_empty().then(|| numbers.try_into().ok())?
}

/// What the next call is not lent.
#[derive(Clone, Copy, Debug, PartialEq, Eq)]
enum Short {
    State,
    Store(usize, u16),
}

/// A run of calls on a book.
#[derive(Clone)]
pub struct Session {
    book: Book,
    lengths: StoreLengths,
    short: Option<Short>,
    /// What the last update granted.
    report: Report,
}

impl Default for Session {
    fn default() -> Self {
        Self {
            book: Book::new(),
            lengths: FIRST_LENGTHS,
            short: None,
            report: Report::default(),
        }
    }
}

impl Session {
    /// Makes a call. Its number, or none if it is no call. A second item `T` before the
    /// call takes the place of the first.
    pub fn make(&mut self, call: &Call<'_>) -> Option<u8> {
        match *call {
            Call::Shorten => self.short = Some(Short::State),
            Call::ShortenStore(part, missing) => self.short = Some(Short::Store(part, missing)),
            Call::Lend(lengths) => self.lengths = lengths,
            Call::Fault | Call::FaultStore(..) | Call::Dump => {}
            // no state memory is lent: the call that lacks some is still to come
            Call::ReadRecord(bytes) => return Some(record::read(bytes).err().unwrap_or(0)),
            _ => {
                let (fits, places) = (self.fits(call), places(&self.lent()));
                self.short = None;
                return Some(match fits {
                    false => STATE_UNFIT,
                    true => self.result(call, places).err().unwrap_or(0),
                });
            }
        }
        None
    }

    /// The next call is on another book.
    pub fn go_on_from(&mut self, book: Book) {
        self.book = book;
    }

    /// A call is refused for what its memory holds: nothing changes, and the next one is lent
    /// the whole again.
    pub fn refuse(&mut self) {
        self.short = None;
    }

    /// Whether enough is lent to a call: to an emptying the fewest places, to another as
    /// many as the last emptying fixed.
    fn fits(&self, call: &Call<'_>) -> bool {
        let needed = match call {
            Call::Empty => FEWEST_PLACES,
            _ => self.book.places(),
        };
        self.short != Some(Short::State) && places(&self.lent()) >= needed
    }

    /// The lengths of the store that the next call is lent.
    pub fn lent(&self) -> StoreLengths {
        let mut lengths = self.lengths;
        if let Some(Short::Store(part, missing)) = self.short {
            lengths[part] = lengths[part].saturating_sub(missing.into());
        }
        lengths
    }

    /// The lengths of the store as the last item `L` said.
    pub fn lengths(&self) -> StoreLengths {
        self.lengths
    }

    /// The bytes that an item `Z` prints.
    pub fn dump_size(&self, parts: &Parts) -> usize {
        parts.size() + PLACE_SIZE * places(&self.lengths).min(MOST_PLACES)
    }

    fn result(&mut self, call: &Call<'_>, places: usize) -> Result<(), u8> {
        match *call {
            Call::Empty => self.book.empty(places.min(MOST_PLACES)),
            Call::Deliver(order) => self.book.deliver(order)?,
            Call::Update(limit, orders) => {
                self.report = update::deliver(&mut self.book, limit, orders);
                if self.report.number != 0 {
                    return Err(self.report.number);
                }
            }
            Call::Mark => self.book.mark(),
            Call::StepBack(steps) => self.book.step_back(steps)?,
            Call::Window(id) => self.book.window(id).map(drop)?,
            Call::Icon(window, icon) => self.book.icon(window, icon).map(drop)?,
            Call::Cell(place) => self.book.cell(place).map(drop)?,
            Call::Shared(one, other) => self.book.shared(one, other).map(drop)?,
            Call::WriteRecord(room) => {
                if record::write(self.book.orders()).len() > usize::from(room) {
                    return Err(OUTPUT_TOO_SMALL);
                }
            }
            Call::Desktop | Call::Lists => {}
            Call::ReadRecord(_) | Call::Lend(_) | Call::Dump => {}
            Call::Shorten | Call::ShortenStore(..) | Call::Fault | Call::FaultStore(..) => {}
        }
        Ok(())
    }

    /// What the last update granted.
    pub fn report(&self) -> Report {
        self.report
    }

    /// The book as the calls have left it.
    pub fn book(&self) -> &Book {
        &self.book
    }

    /// Makes a call and adds the line that it prints, with its end; says whether it has one.
    pub fn make_line(
        &mut self,
        kind: u8,
        call: &Call<'_>,
        parts: &Parts,
        line: &mut Vec<u8>,
    ) -> bool {
        match self.make(call) {
            Some(number) => {
                self.push_line(line, kind, call, number);
                line.push(b'\n');
            }
            None if *call == Call::Dump => push_size(line, self.dump_size(parts)),
            None => return false,
        }
        true
    }

    /// Adds the line of a call just made, without its end.
    fn push_line(&self, line: &mut Vec<u8>, kind: u8, call: &Call<'_>, number: u8) {
        line.push(kind);
        line.extend_from_slice(format!(" {number}").as_bytes());
        let is_update = matches!(call, Call::Update(..));
        if number == STATE_UNFIT || number != 0 && !is_update {
            return;
        }
        if let Call::ReadRecord(bytes) = call {
            return push_bodies(line, bytes);
        }
        if is_update {
            let granted = format!(" {} {}", self.report.orders, self.report.bytes);
            line.extend_from_slice(granted.as_bytes());
        }
        let standing = self.book.standing();
        let counts = format!(" {} {}", standing.orders, standing.bytes);
        line.extend_from_slice(counts.as_bytes());
        if let Call::WriteRecord(_) = call {
            line.push(b' ');
            push_hex(line, &record::write(self.book.orders()));
        }
        push_found(line, self.book.table(), call);
    }
}

/// Adds how many bodies a granted record has, and the bodies.
fn push_bodies(line: &mut Vec<u8>, bytes: &[u8]) {
    let bodies = record::read(bytes).unwrap_or_default();
    line.extend_from_slice(format!(" {} bodies=", bodies.len()).as_bytes());
    for (index, body) in bodies.iter().enumerate() {
        if index > 0 {
            line.push(b',');
        }
        push_hex(line, body);
    }
}

/// Runs a script and prints one line for each call. Of the memory that `Z` prints nothing
/// is known here but its size, which is printed in its place (see [`super::dump`]).
pub fn run(script: &[u8], parts: &Parts, out: &mut (impl io::Write + ?Sized)) -> io::Result<End> {
    let mut session = Session::default();
    let mut line = Vec::new();
    let mut rest = script;
    while !rest.is_empty() {
        let taken =
            take_item(rest).and_then(|(item, tail)| Some((item.kind, call(item, parts)?, tail)));
        let Some((kind, call, tail)) = taken else {
            out.write_all(b"bad item\n")?;
            break;
        };
        if matches!(call, Call::Fault | Call::FaultStore(..)) {
            return Ok(End::Fault);
        }
        line.clear();
        if session.make_line(kind, &call, parts, &mut line) {
            out.write_all(&line)?;
        }
        rest = tail;
    }
    Ok(End::Done)
}
