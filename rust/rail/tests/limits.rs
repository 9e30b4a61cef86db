//! Memory longer and shorter than needed, output memory too, and numbers past limits.

use rail::{
    CacheCell, Desktop, Figure, Holder, LentSession, Memory, NotificationIcon, NotifyIconId,
    Picture, Refusal, Session, Standing, View, Window, WindowId, MOST_PLACES, PLACE_SIZE,
    STORE_PARTS,
};
use second::generate::session::script;
use second::script::parts::Parts;
use second::script::session::{Call, Session as BookSession};

mod common;

use common::{compare, make, steps, SIZES};

/// A new window without fields.
const NEW_WINDOW: [u8; 11] = [0x2E, 11, 0, 0, 0, 0, 0x11, 1, 0, 0, 0];

/// Bytes past the need have no meaning and are never changed. Of the store these are the
/// rest of a part past its whole places, and all past the 64th.
#[test]
fn longer_memory() {
    const MORE: usize = 70_000;
    const REST: usize = PLACE_SIZE - 1;
    let places = [20, 0, 1, 40, 50];
    let used = [20, 0, 1, 40, 3];
    assert_eq!(used.iter().sum::<usize>(), MOST_PLACES);
    let store = places.map(|places| places * PLACE_SIZE + REST);
    let mut memory = Memory::with_sizes(SIZES.map(|size| size + MORE), store);
    let state = [&mut memory.index, &mut memory.bodies, &mut memory.journal];
    for part in state.into_iter().chain(&mut memory.store) {
        part.fill(0xEE);
    }
    memory.lend().reset().unwrap();
    let mut book = BookSession::default();
    for seed in [7, 8, 9] {
        for step in steps(&script(seed, 300, &Parts::default())) {
            let answer = make(&mut memory.lend(), &step.call);
            compare(&mut book, &step.call, &answer)
                .unwrap_or_else(|text| panic!("{:?}: {text}", step.call));
        }
    }
    for part in [&memory.index, &memory.bodies, &memory.journal] {
        assert!(part.ends_with(&[0xEE; MORE]));
    }
    for (part, used) in memory.store.iter().zip(used) {
        assert!(part[used * PLACE_SIZE..].iter().all(|&byte| byte == 0xEE));
    }
    assert!(memory.store[0][..PLACE_SIZE] != [0xEE; PLACE_SIZE]);
}

/// Calls that are granted in turn on memory that is just emptied.
const CALLS: [Call<'static>; 8] = [
    Call::Empty,
    Call::Deliver(&NEW_WINDOW),
    Call::Update(1, &NEW_WINDOW),
    Call::Update(0, &[]),
    Call::Mark,
    Call::StepBack(0),
    Call::Desktop,
    Call::Lists,
];

/// Each part one byte short is refused by every call, with no byte changed.
#[test]
fn shorter_memory() {
    let store = Memory::new().store.map(|part| part.len());
    for part in 0..SIZES.len() {
        let mut sizes = SIZES;
        sizes[part] -= 1;
        let mut memory = Memory::with_sizes(sizes, store);
        let before = memory.clone();
        for call in CALLS {
            let answer = make(&mut memory.lend(), &call);
            assert_eq!(answer, Err(Refusal::UnfitMemory), "part {part}, {call:?}");
        }
        assert_eq!(memory, before);
    }
}

/// A store with one place fewer than the last emptying fixed is refused by every call but an
/// emptying, and one of 11 by that too; with one more, all are as before.
#[test]
fn shorter_store() {
    for places in [12, 13, 63, 64] {
        let mut memory = Memory::with_places(places);
        memory.lend().reset().unwrap();
        let last = (places - 1) / 15;
        let part = memory.store[last].clone();
        memory.store[last] = part[..part.len() - 1].into();
        let before = memory.clone();
        for call in CALLS {
            let is_fine = call == Call::Empty && places > 12;
            let answer = make(&mut memory.clone().lend(), &call);
            let expected = if is_fine {
                None
            } else {
                Some(Refusal::UnfitMemory)
            };
            assert_eq!(answer.err(), expected, "{places} places, {call:?}");
        }
        for call in &CALLS[1..] {
            make(&mut memory.lend(), call).unwrap_err();
        }
        assert_eq!(memory, before);
        memory.store[last] = part;
        memory.store[4] = vec![0xEE; memory.store[4].len() + PLACE_SIZE].into();
        for call in &CALLS[1..] {
            make(&mut memory.lend(), call).unwrap();
        }
    }
}

#[test]
fn no_memory() {
    let store: [&mut [u8]; STORE_PARTS] = Default::default();
    let mut lent = LentSession::new(&mut [], &mut [], store, &mut []);
    assert_eq!(lent.reset(), Err(Refusal::UnfitMemory));
    assert_eq!(lent.deliver(&[]), Err(Refusal::UnfitMemory));
    let desktop = lent.view().desktop();
    assert_eq!(
        desktop.map(|found| found.standing),
        Err(Refusal::UnfitMemory)
    );
}

/// Numbers of steps whose low 32 bits would be granted.
#[test]
fn steps_past_all_orders() {
    let mut session = Session::new();
    session.deliver(&NEW_WINDOW).unwrap();
    for steps in [2, 1 << 32, (1 << 32) + 1, 1 << 63, u64::MAX] {
        assert_eq!(session.undo(steps), Err(Refusal::TooManySteps), "{steps}");
    }
    let standing = Standing {
        orders: 1,
        bytes: 11,
    };
    assert_eq!(session.undo(0), Ok(standing));
    assert_eq!(session.undo(1), Ok(Standing::default()));
}

/// 128 orders, one more, and again after a checkpoint and after an undo.
#[test]
fn room_for_orders() {
    let hooked = [0x2E, 7, 0, 2, 0, 0, 4];
    let mut session = Session::new();
    for orders in 1..=Standing::ORDERS_LIMIT {
        let bytes = 7 * orders;
        assert_eq!(session.deliver(&hooked), Ok(Standing { orders, bytes }));
    }
    assert_eq!(session.deliver(&hooked), Err(Refusal::HistoryFull));
    session.undo(1).unwrap();
    session.deliver(&hooked).unwrap();
    assert_eq!(session.deliver(&hooked), Err(Refusal::HistoryFull));
    session.checkpoint();
    assert_eq!(session.deliver(&hooked).unwrap().orders, 1);
}

/// A longer order than any, and one with no bytes.
#[test]
fn orders_of_any_length() {
    let mut session = Session::new();
    assert_eq!(session.deliver(&[]), Err(Refusal::TooShort));
    let mut order = vec![0; 70_000];
    order[..11].copy_from_slice(&NEW_WINDOW);
    assert_eq!(session.deliver(&order), Err(Refusal::LengthDiffers));
}

/// New: a notification icon with a picture in cell 0 of cache 0.
const NEW_ICON: [u8; 29] = [
    0x2E, 29, 0, 0, 0, 0, 0x52, 1, 0, 0, 0, 2, 0, 0, 0, // the two ids
    0, 0, 0, 16, 1, 0, 1, 0, 0, 0, 2, 0, 7, 7, // 16 bits, 1 by 1, color of 2 bytes
];

/// A lookup of what is there or not, with its output memory.
type Lookup = fn(View<'_>, bool, &mut [u8]) -> Result<Standing, Refusal>;

const LOOKUPS: [(usize, Lookup); 6] = [
    (Window::SIZE, |view, there, out| {
        view.window_bytes(WindowId(there.into()), out)
    }),
    (NotificationIcon::SIZE, |view, there, out| {
        view.notification_icon_bytes(WindowId(1), NotifyIconId(1 + u32::from(there)), out)
    }),
    (Picture::SIZE, |view, there, out| {
        let cell = CacheCell {
            cache_id: u8::from(!there),
            cache_entry: 0,
        };
        view.picture_bytes(cell, out)
    }),
    (Desktop::SIZE, |view, _, out| view.desktop_bytes(out)),
    (Figure::SIZE, |view, _, out| view.figure_bytes(out)),
    (1, |view, there, out| {
        let icon = Holder::NotificationIcon(WindowId(1), NotifyIconId(1 + u32::from(there)));
        view.shared_bytes(CacheCell::default().into(), icon, out)
    }),
];

/// A lookup writes its record and no more; with less room it is refused with 14, after
/// 1 and 9, and writes nothing.
#[test]
fn output_of_lookups() {
    let mut memory = Memory::new();
    memory.lend().reset().unwrap();
    memory.lend().deliver(&NEW_WINDOW).unwrap();
    let granted = memory.lend().deliver(&NEW_ICON);
    let unfit = Memory::with_sizes([0; 3], [0; STORE_PARTS]);
    for (needed, lookup) in LOOKUPS {
        let mut out = vec![0xEE; needed + 5];
        for room in [0, needed / 2, needed - 1] {
            let out = &mut out[..room];
            assert_eq!(
                lookup(memory.view(), true, out),
                Err(Refusal::OutputTooSmall)
            );
            assert_eq!(lookup(unfit.view(), true, out), Err(Refusal::UnfitMemory));
            if ![Desktop::SIZE, Figure::SIZE].contains(&needed) {
                assert_eq!(lookup(memory.view(), false, out), Err(Refusal::WrongId));
            }
        }
        assert!(out.iter().all(|&byte| byte == 0xEE));
        assert_eq!(lookup(memory.view(), true, &mut out), granted);
        assert!(out[needed..].iter().all(|&byte| byte == 0xEE));
        // Every byte of the record is written, whatever the memory held.
        let mut other = vec![0x11; needed];
        assert_eq!(lookup(memory.view(), true, &mut other), granted);
        assert_eq!(out[..needed], other);
    }
}
