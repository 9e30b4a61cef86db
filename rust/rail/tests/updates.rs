//! Whole updates: beside orders taken one by one, and longer than an OrderSize can say.

use rail::{orders, Change, Refusal, Session, Standing};
use second::generate::session::script;
use second::script::parts::Parts;
use second::script::session::Call;

mod common;

use common::steps;

const HOOKED: [u8; 7] = [0x2E, 7, 0, 2, 0, 0, 4];
const SYNC_BEGINS: [u8; 7] = [0x2E, 7, 0, 8, 0, 0, 4];

fn new_window(id: u8) -> [u8; 11] {
    [0x2E, 11, 0, 0, 0, 0, 0x11, id, 0, 0, 0]
}

/// More than 65,535 bytes: 128 are granted, and the next meets 12. The rest goes on
/// after a checkpoint.
#[test]
fn longer_than_an_order_can_be() {
    let update = HOOKED.repeat(20_000);
    let mut session = Session::new();
    let (mut at, mut granted) = (0, 0);
    loop {
        let report = session.update(u32::MAX, &update[at..]);
        at += report.bytes;
        granted += report.orders;
        match report.refusal {
            Some(Refusal::HistoryFull) => session.checkpoint(),
            refusal => break assert_eq!(refusal, None),
        }
    }
    assert_eq!((at, granted), (140_000, 20_000));
    let taken = Session::new().take_update(&update);
    assert_eq!((taken.changed.len(), taken.refused.len()), (20_000, 0));
}

/// A rest of more than 65,535 bytes that cannot be cut is one order, and refused.
#[test]
fn a_long_rest() {
    let mut update = HOOKED.to_vec();
    update.extend([0x2E, 3, 0]);
    update.resize(7 + 0x1_0003, 0);
    let report = Session::new().update(9, &update);
    let standing = Standing {
        orders: 1,
        bytes: 7,
    };
    assert_eq!((report.orders, report.bytes), (1, 7));
    assert_eq!(report.refusal, Some(Refusal::LengthDiffers));
    assert_eq!(report.standing, standing);
}

/// The limit counts granted orders; nothing to deliver is no refusal.
#[test]
fn limits() {
    let update = [new_window(1), new_window(2), new_window(2)].concat();
    for (limit, orders, refusal) in [
        (0, 0, None),
        (1, 1, None),
        (2, 2, None),
        (3, 2, Some(Refusal::WrongId)),
        (u32::MAX, 2, Some(Refusal::WrongId)),
    ] {
        let mut session = Session::new();
        let report = session.update(limit, &update);
        assert_eq!((report.orders, report.refusal), (orders, refusal));
        assert_eq!(report.bytes, 11 * orders);
        assert_eq!(session.windows().count(), orders);
        assert_eq!(session.update(limit, &[]).refusal, None);
        session.undo(orders as u64).unwrap();
        assert_eq!(session.windows().count(), 0);
    }
}

/// Taken whole, an update does as its orders taken one by one.
#[test]
fn taken_as_one_by_one() {
    for seed in 0..60 {
        let script = script(seed, 200, &Parts::default());
        let (mut whole, mut single) = (Session::new(), Session::new());
        for step in steps(&script) {
            let update = match step.call {
                Call::Update(_, update) => update,
                Call::Deliver(order) => order,
                _ => continue,
            };
            let taken = whole.take_update(update);
            let (mut changed, mut refused, mut at) = (Vec::new(), Vec::new(), 0);
            for order in orders(update) {
                match single.take(order) {
                    Ok(change) => changed.push(change),
                    Err(refusal) => refused.push((at, refusal)),
                }
                at += order.len();
            }
            assert_eq!((taken.changed, taken.refused), (changed, refused));
            assert_eq!(whole.standing(), single.standing());
        }
        let listed = |session: &Session| session.windows().collect::<Vec<_>>();
        assert_eq!(listed(&whole), listed(&single));
        assert_eq!(whole.desktop(), single.desktop());
    }
}

/// A synchronization in the middle: what was listed goes first.
#[test]
fn a_synchronization_within() {
    let update = [
        &new_window(1)[..],
        &new_window(2),
        &SYNC_BEGINS,
        &new_window(1),
        &new_window(1),
    ]
    .concat();
    let mut session = Session::new();
    let taken = session.take_update(&update);
    assert_eq!(taken.changed[2].what, Change::AllGone);
    assert_eq!(taken.changed.len(), 4);
    assert_eq!(taken.refused, [(40, Refusal::WrongId)]);
    assert_eq!(session.windows().count(), 1);
}
