//! A list of calls done in one, by `rail_run`.

use alloc::vec::Vec;

use crate::answer::{refused, state_answer, Refusal, Standing};
use crate::ffi;
use crate::ids::{NotifyIconId, WindowId};
use crate::memory::LentSession;
use crate::record::holder::SHARED_SIZE;
use crate::record::lists::{self, LIST_SIZE};
use crate::record::{CacheCell, Desktop, Holder, NotificationIcon, Picture, Window};
use crate::session_record::{self, RECORD_LIMIT};
use crate::update::Report;

/// A state call or lookup, as an item of a script.
#[derive(Clone, Copy, Debug, PartialEq, Eq)]
#[non_exhaustive]
pub enum Call<'a> {
    /// Empties.
    Reset,
    /// Delivers an order.
    Deliver(&'a [u8]),
    /// Sets a checkpoint.
    Checkpoint,
    /// Takes that many orders back.
    Undo(u64),
    /// Looks up a window.
    Window(WindowId),
    /// Looks up a notification icon.
    NotificationIcon(WindowId, NotifyIconId),
    /// Looks up a picture.
    Picture(CacheCell),
    /// Looks up the desktop state.
    Desktop,
    /// Delivers the orders of a whole update, up to so many.
    Update(u32, &'a [u8]),
    /// Writes the session record.
    Record,
    /// Lists the windows.
    WindowIds,
    /// Lists the notification icons.
    NotificationIconIds,
    /// Tells whether two holders share a place.
    Shared(Holder, Holder),
}

/// What a call of a script hands out.
#[derive(Clone, Debug, PartialEq, Eq)]
#[non_exhaustive]
#[allow(missing_docs, clippy::large_enum_variant)]
pub enum HandedOut {
    None,
    Window(Window),
    NotificationIcon(NotificationIcon),
    Picture(Picture),
    Desktop(Desktop),
    Report(Report),
    Record(Vec<u8>),
    WindowIds(Vec<WindowId>),
    NotificationIconIds(Vec<(WindowId, NotifyIconId)>),
    Shared(bool),
}

/// How a run ended.
#[derive(Clone, Copy, Debug, PartialEq, Eq)]
#[non_exhaustive]
pub struct Run {
    /// The calls that were done.
    pub calls: u64,
    /// Why no further one was: none at the end of the script; [`Refusal::UnfitMemory`]
    /// where the memory is too short, and then nothing has changed; else what is wrong with
    /// the next item, or [`Refusal::OutputTooSmall`] where its block has no room.
    pub ended: Option<Refusal>,
}

/// The packed reply before what a lookup hands out, and what an update has behind it: the
/// orders that it granted and their bytes.
const HEAD: usize = 4;
const UPDATE_MORE: usize = 4;

impl Call<'_> {
    fn kind(&self) -> u8 {
        match self {
            Call::Reset => 0,
            Call::Deliver(_) => 1,
            Call::Checkpoint => 2,
            Call::Undo(_) => 3,
            Call::Window(_) => 4,
            Call::NotificationIcon(..) => 5,
            Call::Picture(_) => 6,
            Call::Desktop => 7,
            Call::Update(..) => 8,
            Call::Record => 9,
            Call::WindowIds => 10,
            Call::NotificationIconIds => 11,
            Call::Shared(..) => 12,
        }
    }

    /// The bytes that its block of the output takes.
    pub fn block_size(&self) -> usize {
        HEAD + match self {
            Call::Window(_) => Window::SIZE,
            Call::NotificationIcon(..) => NotificationIcon::SIZE,
            Call::Picture(_) => Picture::SIZE,
            Call::Desktop => Desktop::SIZE,
            Call::Update(..) => UPDATE_MORE,
            Call::Record => RECORD_LIMIT,
            Call::WindowIds | Call::NotificationIconIds => LIST_SIZE,
            Call::Shared(..) => SHARED_SIZE,
            _ => 0,
        }
    }

    fn push(&self, script: &mut Vec<u8>) {
        let mut carried = Vec::new();
        match *self {
            Call::Deliver(order) => carried.extend_from_slice(order),
            Call::Update(limit, update) => {
                carried.extend(limit.to_le_bytes());
                carried.extend_from_slice(update);
            }
            Call::Undo(steps) => carried.extend(steps.to_le_bytes()),
            Call::Window(window) => carried.extend(window.0.to_le_bytes()),
            Call::NotificationIcon(window, icon) => {
                carried.extend(window.0.to_le_bytes());
                carried.extend(icon.0.to_le_bytes());
            }
            Call::Picture(cell) => {
                carried.push(cell.cache_id);
                carried.extend(cell.cache_entry.to_le_bytes());
            }
            Call::Shared(one, other) => {
                for (kind, first, second) in [one.numbers(), other.numbers()] {
                    carried.push(kind);
                    carried.extend(first.to_le_bytes());
                    carried.extend(second.to_le_bytes());
                }
            }
            _ => {}
        }
        let size = u16::try_from(carried.len()).expect("an item carries fewer than 65,536 bytes");
        script.push(self.kind());
        script.extend(size.to_le_bytes());
        script.extend(carried);
    }

    /// What a granted call of its kind handed out; the bytes are those of its block.
    fn handed_out(&self, standing: Standing, bytes: &[u8]) -> HandedOut {
        fn fixed<const N: usize>(bytes: &[u8]) -> &[u8; N] {
            bytes.try_into().expect("a block of its call's size")
        }
        match self {
            Call::Window(_) => HandedOut::Window(Window::of(fixed(bytes))),
            Call::NotificationIcon(..) => {
                HandedOut::NotificationIcon(NotificationIcon::of(fixed(bytes)))
            }
            Call::Picture(_) => HandedOut::Picture(Picture::of(fixed(bytes))),
            Call::Desktop => HandedOut::Desktop(Desktop::of(fixed(bytes))),
            Call::Record => HandedOut::Record(bytes[..session_record::size(standing)].to_vec()),
            Call::WindowIds => HandedOut::WindowIds(lists::window_ids(fixed(bytes))),
            Call::NotificationIconIds => {
                HandedOut::NotificationIconIds(lists::notification_icon_ids(fixed(bytes)))
            }
            Call::Shared(..) => HandedOut::Shared(bytes != [0]),
            _ => HandedOut::None,
        }
    }
}

/// The bytes of a list of calls, as [`run`] takes them.
///
/// # Panics
/// If an order has 65,536 bytes or more, which none that is granted has, or an update
/// 65,532 or more.
pub fn script(calls: &[Call<'_>]) -> Vec<u8> {
    let mut script = Vec::new();
    for call in calls {
        call.push(&mut script);
    }
    script
}

/// Empties the memory and does the calls of a script on it, in turn. Each answer takes a
/// block of `out`, of [`Call::block_size`] bytes.
///
/// That the blocks are what the plain book of the orders answers is the proved contract
/// of this call.
///
/// ```
/// use rail::{answers, run, script, Call, HandedOut, Memory, WindowId};
///
/// let order = [0x2E, 11, 0, 0, 0, 0, 0x11, 7, 0, 0, 0];
/// let calls = [Call::Deliver(&order), Call::WindowIds];
/// let mut out = vec![0; calls.iter().map(Call::block_size).sum()];
/// let mut memory = Memory::new();
/// let ran = run(&mut memory.lend(), &script(&calls), &mut out);
/// assert_eq!((ran.calls, ran.ended), (2, None));
///
/// let last = answers(&calls, &out).last().unwrap()?;
/// assert_eq!(last.0.orders, 1);
/// assert_eq!(last.1, HandedOut::WindowIds(vec![WindowId(7)]));
/// # Ok::<(), rail::Refusal>(())
/// ```
pub fn run(lent: &mut LentSession<'_>, script: &[u8], out: &mut [u8]) -> Run {
    let answer = ffi::run(lent, script, out);
    Run {
        calls: answer >> 8,
        ended: refused(answer as u8).err(),
    }
}

/// What each of the calls answered, from the blocks that [`run`] wrote; it ends where a
/// block is cut.
pub fn answers<'a>(
    calls: &'a [Call<'a>],
    out: &'a [u8],
) -> impl Iterator<Item = Result<(Standing, HandedOut), Refusal>> + 'a {
    let mut rest = out;
    calls.iter().map_while(move |call| {
        let (block, after) = rest.split_at_checked(call.block_size())?;
        rest = after;
        let (head, bytes) = block.split_at(HEAD);
        let reply = u32::from_le_bytes([head[0], head[1], head[2], head[3]]);
        if let Call::Update(..) = call {
            let more = u32::from_le_bytes([bytes[0], bytes[1], bytes[2], bytes[3]]);
            let report = Report::of(u64::from(reply) | u64::from(more) << 32);
            return Some(report.map(|report| (report.standing, HandedOut::Report(report))));
        }
        let answer = state_answer(reply);
        Some(answer.map(|standing| (standing, call.handed_out(standing, bytes))))
    })
}

#[cfg(test)]
mod tests {
    use super::*;
    use crate::memory::Memory;

    const NEW_WINDOW: [u8; 11] = [0x2E, 11, 0, 0, 0, 0, 0x11, 7, 0, 0, 0];
    const NEW_ICON: [u8; 15] = [0x2E, 15, 0, 0, 0, 0, 0x12, 7, 0, 0, 0, 9, 0, 0, 0];
    /// A picture of 2 bytes in cell 5 of cache 1, for the window's small icon.
    const PICTURE: [u8; 25] = [
        0x2E, 25, 0, 0, 0, 0, 0x41, 7, 0, 0, 0, 5, 0, 1, 16, 1, 0, 1, 0, 0, 0, 2, 0, 7, 7,
    ];

    /// Every call by itself on the same memory answers as it does in a run.
    #[test]
    fn a_run_is_its_calls() {
        let window = WindowId(7);
        let icon = NotifyIconId(9);
        let twice = [NEW_ICON, NEW_ICON].concat();
        let cell = CacheCell {
            cache_id: 1,
            cache_entry: 5,
        };
        let calls = [
            Call::Deliver(&NEW_WINDOW),
            Call::Deliver(&NEW_WINDOW),
            Call::Deliver(&NEW_ICON),
            Call::Deliver(&PICTURE),
            Call::Window(window),
            Call::NotificationIcon(window, icon),
            Call::Picture(cell),
            Call::Shared(cell.into(), Holder::SmallIcon(window)),
            Call::Shared(cell.into(), Holder::BigIcon(window)),
            Call::Shared(Holder::OverlayIcon(window), cell.into()),
            Call::Desktop,
            Call::WindowIds,
            Call::NotificationIconIds,
            Call::Record,
            Call::Undo(2),
            Call::NotificationIconIds,
            Call::Update(9, &twice),
            Call::Update(0, &twice),
            Call::Undo(u64::MAX),
            Call::Checkpoint,
            Call::Reset,
            Call::WindowIds,
            Call::Record,
        ];
        let mut memory = Memory::new();
        memory.index.fill(0xFF);
        let mut out = vec![0; calls.iter().map(Call::block_size).sum()];
        let ran = run(&mut memory.lend(), &script(&calls), &mut out);
        assert_eq!((ran.calls, ran.ended), (23, None));
        let mut alone = Memory::new();
        alone.lend().reset().unwrap();
        let ours = calls.map(|call| make(&mut alone, &call));
        assert!(answers(&calls, &out).eq(ours));
        let shared = answers(&calls, &out).nth(7).expect("an answer");
        assert_eq!(shared.map(|(_, found)| found), Ok(HandedOut::Shared(true)));
        assert_eq!(memory.view().window_ids(), alone.view().window_ids());
    }

    fn make(memory: &mut Memory, call: &Call<'_>) -> Result<(Standing, HandedOut), Refusal> {
        let none = |standing| (standing, HandedOut::None);
        let view = memory.view();
        match *call {
            Call::Reset => memory.lend().reset().map(none),
            Call::Deliver(order) => memory.lend().deliver(order).map(none),
            Call::Checkpoint => memory.lend().checkpoint().map(none),
            Call::Update(limit, update) => memory
                .lend()
                .update(limit, update)
                .map(|report| (report.standing, HandedOut::Report(report))),
            Call::Undo(steps) => memory.lend().undo(steps).map(none),
            Call::Window(id) => view
                .window(id)
                .map(|f| (f.standing, HandedOut::Window(f.record))),
            Call::NotificationIcon(window, icon) => view
                .notification_icon(window, icon)
                .map(|f| (f.standing, HandedOut::NotificationIcon(f.record))),
            Call::Picture(cell) => view
                .picture(cell)
                .map(|f| (f.standing, HandedOut::Picture(f.record))),
            Call::Desktop => view
                .desktop()
                .map(|f| (f.standing, HandedOut::Desktop(f.record))),
            Call::Record => {
                let mut out = [0; RECORD_LIMIT];
                let standing = view.record_bytes(&mut out)?;
                let record = out[..session_record::size(standing)].to_vec();
                Ok((standing, HandedOut::Record(record)))
            }
            Call::WindowIds => view
                .window_ids()
                .map(|f| (f.standing, HandedOut::WindowIds(f.record))),
            Call::NotificationIconIds => view
                .notification_icon_ids()
                .map(|f| (f.standing, HandedOut::NotificationIconIds(f.record))),
            Call::Shared(one, other) => view
                .shared(one, other)
                .map(|f| (f.standing, HandedOut::Shared(f.record))),
        }
    }

    #[test]
    fn why_a_run_ends() {
        let mut memory = Memory::new();
        let calls = [Call::Deliver(&NEW_WINDOW), Call::WindowIds];
        let good = script(&calls);
        let mut out = [0; 140];
        let mut ended = |script: &[u8], room: usize| {
            let ran = run(&mut memory.lend(), script, &mut out[..room]);
            (ran.calls, ran.ended)
        };
        assert_eq!(ended(&good, 140), (2, None));
        assert_eq!(ended(&good, 139), (1, Some(Refusal::OutputTooSmall)));
        assert_eq!(ended(&good[..15], 140), (1, Some(Refusal::TooShort)));
        assert_eq!(ended(&good[..13], 140), (0, Some(Refusal::LengthDiffers)));
        assert_eq!(ended(&[255, 0, 0], 140), (0, Some(Refusal::UnknownType)));
        let mut short = Memory::with_places(11);
        let ran = run(&mut short.lend(), &good, &mut out);
        assert_eq!((ran.calls, ran.ended), (0, Some(Refusal::UnfitMemory)));
        assert_eq!(answers(&calls, &out[..3]).count(), 0);
    }
}
