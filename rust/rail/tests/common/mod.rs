//! Calls on lent memory and on the second program's book, made comparable.
#![allow(dead_code)]

mod alike;
pub mod layout;

use rail::{
    CacheCell, Desktop, Holder, LentSession, Memory, NotificationIcon, NotifyIconId, Picture,
    Refusal, Report, Standing, View, Window, WindowId, BODIES_SIZE, INDEX_SIZE, JOURNAL_SIZE,
    LIST_SIZE, STORE_PARTS,
};
use second::order::CellPlace;
use second::script::parts::{Parts, StoreLengths, FIRST_LENGTHS, PART_LIMIT};
use second::script::session::{call, Call, Session as BookSession};
use second::script::take_item;
use second::table;

/// The lengths needed of the index, the bodies and the journal.
pub const SIZES: [usize; 3] = [INDEX_SIZE, BODIES_SIZE, JOURNAL_SIZE];

/// A part (0 the index, 1 the bodies, 2 the journal) and how many bytes it is lent too short.
pub type Lack = (usize, usize);

/// A call of a list, what its memory lacks, and the lengths in which it is lent the store.
pub struct Step<'a> {
    pub call: Call<'a>,
    pub lack: Option<Lack>,
    pub store: StoreLengths,
}

/// The calls of a script up to a bad item.
pub fn steps(script: &[u8]) -> Vec<Step<'_>> {
    let parts = Parts::default();
    let mut steps = Vec::new();
    let (mut lengths, mut lack, mut shorter) = (FIRST_LENGTHS, None, None);
    let mut rest = script;
    while let Some((item, tail)) = take_item(rest) {
        rest = tail;
        match (call(item, &parts), item.payload) {
            (Some(Call::Shorten), &[part, low, high]) => {
                lack = Some((part.into(), u16::from_le_bytes([low, high]).into()));
                shorter = None;
            }
            (Some(Call::ShortenStore(part, missing)), _) => {
                (lack, shorter) = (None, Some((part, missing)));
            }
            (Some(Call::Lend(lent)), _) => lengths = lent,
            // no state call: tests/session_record.rs has them
            (Some(Call::ReadRecord(_)), _) => {}
            // what the memory holds is for the program alone
            (Some(Call::Dump | Call::Fault | Call::FaultStore(..)), _) => {}
            (Some(call), _) => {
                let mut store = lengths;
                if let Some((part, missing)) = shorter.take() {
                    store[part] = store[part].saturating_sub(missing.into());
                }
                let lack = lack.take();
                steps.push(Step { call, lack, store });
            }
            (None, _) => break,
        }
    }
    steps
}

/// Memory whose store can be lent in parts of any listed lengths.
pub fn memory() -> Memory {
    Memory::with_sizes(SIZES, [PART_LIMIT as usize; STORE_PARTS])
}

/// Lends memory, less what it is to lack, with so much of the store.
pub fn lend<'a>(
    memory: &'a mut Memory,
    lack: Option<Lack>,
    store: &StoreLengths,
) -> LentSession<'a> {
    let lent = |part: usize, length: usize| match lack {
        Some((at, missing)) if at == part => length.saturating_sub(missing),
        _ => length,
    };
    let [index, bodies, journal] =
        [&memory.index, &memory.bodies, &memory.journal].map(|p| p.len());
    let mut lengths = store.iter();
    let parts = memory.store.each_mut().map(|part| {
        let length = lengths.next().map_or(0, |&length| length as usize);
        &mut part[..length]
    });
    LentSession::new(
        &mut memory.index[..lent(0, index)],
        &mut memory.bodies[..lent(1, bodies)],
        parts,
        &mut memory.journal[..lent(2, journal)],
    )
}

/// What a call hands out besides its standing.
#[derive(Debug, PartialEq, Eq)]
pub enum Record {
    Nothing,
    Window(Box<Window>),
    NotificationIcon(NotificationIcon),
    Picture(Picture),
    Desktop(Desktop),
    Report(Report),
    Lists(Vec<WindowId>, Vec<(WindowId, NotifyIconId)>),
    Session(Vec<u8>),
    Shared(bool),
}

/// What a call answers.
pub type Answer = Result<(Standing, Record), Refusal>;

/// Makes a call on lent memory.
///
/// # Panics
/// If it is no call.
pub fn make(lent: &mut LentSession<'_>, call: &Call<'_>) -> Answer {
    let plain = |standing| (standing, Record::Nothing);
    match *call {
        Call::Empty => lent.reset().map(plain),
        Call::Deliver(order) => lent.deliver(order).map(plain),
        Call::Update(limit, orders) => {
            let report = lent.update(limit, orders)?;
            Ok((report.standing, Record::Report(report)))
        }
        Call::Mark => lent.checkpoint().map(plain),
        Call::StepBack(steps) => lent.undo(steps.into()).map(plain),
        Call::Window(id) => {
            let found = lent.view().window(WindowId(id.0))?;
            Ok((found.standing, Record::Window(Box::new(found.record))))
        }
        Call::Icon(window, icon) => {
            let ids = (WindowId(window.0), NotifyIconId(icon.0));
            let found = lent.view().notification_icon(ids.0, ids.1)?;
            Ok((found.standing, Record::NotificationIcon(found.record)))
        }
        Call::Cell(place) => {
            let found = lent.view().picture(cache_cell(place))?;
            Ok((found.standing, Record::Picture(found.record)))
        }
        Call::Desktop => {
            let found = lent.view().desktop()?;
            Ok((found.standing, Record::Desktop(found.record)))
        }
        Call::Lists => {
            let windows = lent.view().window_ids()?;
            let icons = lent.view().notification_icon_ids()?;
            assert_eq!(windows.standing, icons.standing);
            let record = Record::Lists(windows.record, icons.record);
            Ok((windows.standing, record))
        }
        Call::WriteRecord(room) => {
            let mut out = vec![0xEE; room.into()];
            let standing = lent.view().record_bytes(&mut out)?;
            let past = out.split_off(2 + 8 * standing.orders + standing.bytes);
            assert!(past.iter().all(|&byte| byte == 0xEE));
            Ok((standing, Record::Session(out)))
        }
        Call::Shared(one, other) => {
            let found = lent.view().shared(holder(one), holder(other))?;
            Ok((found.standing, Record::Shared(found.record)))
        }
        Call::ReadRecord(_)
        | Call::Shorten
        | Call::ShortenStore(..)
        | Call::Fault
        | Call::FaultStore(..)
        | Call::Lend(_)
        | Call::Dump => unreachable!("steps have calls only"),
    }
}

fn cache_cell(place: CellPlace) -> CacheCell {
    CacheCell {
        cache_id: place.cache,
        cache_entry: place.entry,
    }
}

/// A holder as the crate has it. A cell whose numbers are too great for one becomes another
/// outside the caches.
fn holder(holder: table::Holder) -> Holder {
    match holder {
        table::Holder::Cell(cache, entry) => Holder::Cell(CacheCell {
            cache_id: cache.try_into().unwrap_or(u8::MAX),
            cache_entry: entry.try_into().unwrap_or(u16::MAX),
        }),
        table::Holder::Small(id) => Holder::SmallIcon(WindowId(id.0)),
        table::Holder::Big(id) => Holder::BigIcon(WindowId(id.0)),
        table::Holder::Overlay(id) => Holder::OverlayIcon(WindowId(id.0)),
        table::Holder::Notification(window, icon) => {
            Holder::NotificationIcon(WindowId(window.0), NotifyIconId(icon.0))
        }
    }
}

/// Makes a lookup with output memory; none where the call is no lookup.
pub fn look_up(
    view: View<'_>,
    call: &Call<'_>,
    out: &mut [u8],
) -> Option<Result<Standing, Refusal>> {
    Some(match *call {
        Call::Window(id) => view.window_bytes(WindowId(id.0), out),
        Call::Icon(window, icon) => {
            view.notification_icon_bytes(WindowId(window.0), NotifyIconId(icon.0), out)
        }
        Call::Cell(place) => view.picture_bytes(cache_cell(place), out),
        Call::Desktop => view.desktop_bytes(out),
        Call::Shared(one, other) => view.shared_bytes(holder(one), holder(other), out),
        Call::Lists => {
            let (windows, icons) = out.split_at_mut(LIST_SIZE);
            let answer = view.window_ids_bytes(windows);
            answer.and_then(|_| view.notification_icon_ids_bytes(icons))
        }
        _ => return None,
    })
}

/// Lends to the book what the step is lent.
pub fn lend_to_book(book: &mut BookSession, step: &Step<'_>) {
    book.make(&Call::Lend(step.store));
    if step.lack.is_some() {
        book.make(&Call::Shorten);
    }
}

/// Makes the call on the book too and compares; a text where they differ.
pub fn compare(book: &mut BookSession, call: &Call<'_>, answer: &Answer) -> Result<(), String> {
    let number = book.make(call).expect("a call has a number");
    let answered = number_of(answer);
    if answered != number {
        return Err(format!("answers {answered}, the book {number}"));
    }
    let Ok((standing, record)) = answer else {
        return Ok(());
    };
    let expected = book.book().standing();
    if (standing.orders, standing.bytes) != (expected.orders, expected.bytes) {
        return Err(format!("stands at {standing:?}, the book at {expected:?}"));
    }
    if let Record::Report(report) = record {
        let expected = book.report();
        if (report.orders, report.bytes) != (expected.orders as usize, expected.bytes) {
            return Err(format!("reports {report:?}, the book {expected:?}"));
        }
        return Ok(());
    }
    if let Record::Session(bytes) = record {
        if *bytes != second::record::write(book.book().orders()) {
            return Err("writes another record than the book".into());
        }
        return Ok(());
    }
    alike::found(book.book().table(), call, record)
}

/// The number of an answer; of an update the last one.
pub fn number_of(answer: &Answer) -> u8 {
    match answer {
        Ok((_, Record::Report(report))) => report.refusal.map_or(0, Refusal::number),
        Ok(_) => 0,
        Err(refusal) => refusal.number(),
    }
}

/// Whether a call may change memory.
pub fn may_change(call: &Call<'_>) -> bool {
    matches!(
        call,
        Call::Empty | Call::Deliver(_) | Call::Update(..) | Call::Mark | Call::StepBack(_)
    )
}
