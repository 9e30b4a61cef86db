use super::*;
use crate::protocol::{
    WINDOW_ORDER_ICON as ICON, WINDOW_ORDER_STATE_DELETED as DELETED,
    WINDOW_ORDER_STATE_NEW as NEW, WINDOW_ORDER_TYPE_DESKTOP as DESKTOP_TYPE,
    WINDOW_ORDER_TYPE_NOTIFY as NOTIFICATION_TYPE, WINDOW_ORDER_TYPE_WINDOW as WINDOW_TYPE,
};
use crate::record::lists::LIST_SIZE;

fn order(flags: u32, ids: &[u32]) -> Vec<u8> {
    let mut order = vec![0x2E, 7 + 4 * ids.len() as u8, 0];
    order.extend_from_slice(&flags.to_le_bytes());
    order.extend(ids.iter().flat_map(|id| id.to_le_bytes()));
    order
}

fn new_window(id: u32) -> Vec<u8> {
    order(NEW | WINDOW_TYPE, &[id])
}

fn delete_window(id: u32) -> Vec<u8> {
    order(DELETED | WINDOW_TYPE, &[id])
}

fn ids(session: &Session) -> Vec<u32> {
    session.windows().map(|(id, _)| id.0).collect()
}

#[test]
fn windows_come_and_go_with_orders_and_undo() {
    let mut session = Session::new();
    session.deliver(&new_window(2)).unwrap();
    session.deliver(&new_window(1)).unwrap();
    assert_eq!(ids(&session), [1, 2]);
    session.deliver(&delete_window(2)).unwrap();
    assert_eq!(ids(&session), [1]);
    session.undo(1).unwrap();
    assert_eq!(ids(&session), [1, 2]);
    session.undo(1).unwrap();
    assert_eq!(ids(&session), [2]);
    session.reset();
    assert!(ids(&session).is_empty());
    assert_eq!(session.standing(), Standing::default());
}

/// The lists are those of the table, with all 32 windows and 16 notification icons.
#[test]
fn full_lists() {
    let mut session = Session::new();
    for id in (0..32).rev() {
        session.deliver(&new_window(id << 27)).unwrap();
    }
    for (window, icon) in (0..16).rev().map(|i| (i / 4, u32::MAX - i % 4)) {
        let new = order(NEW | NOTIFICATION_TYPE, &[window, icon]);
        session.deliver(&new).unwrap();
    }
    let windows: Vec<WindowId> = (0..32).map(|id| WindowId(id << 27)).collect();
    assert_eq!(session.window_ids(), windows);
    let icons: Vec<_> = (0..16)
        .map(|i| (WindowId(i / 4), NotifyIconId(u32::MAX - 3 + i % 4)))
        .collect();
    assert_eq!(session.notification_icon_ids(), icons);
    let mut short = [0xEE; LIST_SIZE - 1];
    let view = session.memory.view();
    assert_eq!(
        view.window_ids_bytes(&mut short),
        Err(Refusal::OutputTooSmall)
    );
    assert_eq!(
        view.notification_icon_ids_bytes(&mut short),
        Err(Refusal::OutputTooSmall)
    );
    assert_eq!(short, [0xEE; LIST_SIZE - 1]);
}

/// What is deleted after a checkpoint, also by desktop none, can be brought back;
/// what is new after it goes.
#[test]
fn lists_after_undo() {
    let mut session = Session::new();
    for icon in 1..=16 {
        let new = order(NEW | NOTIFICATION_TYPE, &[7, icon]);
        session.deliver(&new).unwrap();
    }
    session.deliver(&new_window(7)).unwrap();
    session.checkpoint();
    let gone = order(DELETED | NOTIFICATION_TYPE, &[7, 1]);
    session.deliver(&gone).unwrap();
    session
        .deliver(&order(NEW | NOTIFICATION_TYPE, &[7, 17]))
        .unwrap();
    session.deliver(&DESKTOP_NONE).unwrap();
    session.deliver(&new_window(8)).unwrap();
    session.undo(4).unwrap();
    let icons: Vec<u32> = session
        .notification_icons()
        .map(|((_, i), _)| i.0)
        .collect();
    assert_eq!(icons, (1..=16).collect::<Vec<u32>>());
    assert_eq!(ids(&session), [7]);
}

fn titled(id: u32, title: u8) -> Vec<u8> {
    let mut order = order(NEW | WINDOW_TYPE | 4, &[id]);
    order.extend([2, 0, title, 0]);
    order[1] = order.len() as u8;
    order
}

/// A server that tells all its windows again: those of before go first, and the
/// desktop stays hooked.
#[test]
fn taking_a_synchronization() {
    let mut session = Session::new();
    let began = order(DESKTOP_TYPE | 8, &[]);
    let changed = session.take(&order(DESKTOP_TYPE | 10, &[])).unwrap();
    assert_eq!(changed.what, Change::Desktop);
    session.take(&titled(7, b'A')).unwrap();
    session.take(&titled(8, b'B')).unwrap();
    session.take(&order(DESKTOP_TYPE | 4, &[])).unwrap();
    assert_eq!(session.take(&began).unwrap().what, Change::AllGone);
    session.take(&titled(7, b'C')).unwrap();
    let titles: Vec<_> = session.windows().map(|(id, w)| (id.0, w.title())).collect();
    assert_eq!(titles, [(7, "C".into())]);
    let desktop = session.desktop();
    assert!(desktop.hooked && desktop.syncing);
    let clash = order(DESKTOP_TYPE | 12, &[]);
    assert_eq!(session.take(&clash), Err(Refusal::FlagsClash));
    assert_eq!(ids(&session), [7]);
}

/// A full history is no fault of an order that is taken.
#[test]
fn taking_more_than_the_history_holds() {
    let mut session = Session::new();
    for _ in 0..=Standing::ORDERS_LIMIT {
        session.take(&DESKTOP_HOOKED).unwrap();
    }
    assert_eq!(session.standing().orders, 1);
}

/// Resetting erases nothing, wiping does.
#[test]
fn wiping() {
    let mut session = Session::new();
    let secret = titled(7, 0xA7);
    session.deliver(&secret).unwrap();
    session.checkpoint();
    session.deliver(&titled(8, 0xA7)).unwrap();
    let holds = |part: &[u8]| part.contains(&0xA7);
    session.reset();
    assert!(holds(&session.memory.bodies) && holds(&session.memory.journal));
    session.wipe();
    let mut emptied = Memory::new();
    emptied.lend().reset().unwrap();
    assert!(session.memory == emptied);
    assert!(ids(&session).is_empty());
}

#[test]
fn notification_icons_by_both_ids() {
    let mut session = Session::new();
    for ids in [[1, 1], [1, 2], [2, 1]] {
        let new = order(NEW | NOTIFICATION_TYPE, &ids);
        session.deliver(&new).unwrap();
    }
    let listed: Vec<[u32; 2]> = session
        .notification_icons()
        .map(|((window, icon), _)| [window.0, icon.0])
        .collect();
    assert_eq!(listed, [[1, 1], [1, 2], [2, 1]]);
    assert!(session.windows().next().is_none());
}

/// An id that stands twice, one that is not listed, and windows that it does not
/// name.
#[test]
fn z_order_has_each_window_once() {
    let mut session = Session::new();
    for id in [1, 4, 3, 2] {
        session.deliver(&new_window(id)).unwrap();
    }
    let mut desktop = order(DESKTOP_TYPE | 0x10, &[]);
    desktop.extend([4, 3, 0, 0, 0, 9, 0, 0, 0, 1, 0, 0, 0, 3, 0, 0, 0]);
    desktop[1] = desktop.len() as u8;
    session.deliver(&desktop).unwrap();
    let stacked: Vec<u32> = session.windows_in_z_order().map(|(id, _)| id.0).collect();
    assert_eq!(stacked, [3, 1, 2, 4]);
}

#[test]
fn sessions_can_go_to_other_threads() {
    fn shared<T: Send + Sync + 'static>() {}
    shared::<Session>();
    shared::<Memory>();
}

/// A new window, and an order that gives it a picture of 2 equal bytes by way of a cell.
fn new_window_with_icon(id: u32, cell: u8, color: u8) -> [Vec<u8>; 2] {
    let mut icon = order(WINDOW_TYPE | ICON, &[id]);
    icon.extend([
        cell % 6,
        0,
        cell / 6,
        16,
        1,
        0,
        1,
        0,
        0,
        0,
        2,
        0,
        color,
        color,
    ]);
    icon[1] = icon.len() as u8;
    [new_window(id), icon]
}

fn small(session: &Session, id: u32) -> Option<Vec<u8>> {
    let small = session.window(WindowId(id)).unwrap().small;
    small.map(|picture| picture.color)
}

/// A window keeps the picture that it was given while its cell gets others.
#[test]
fn pictures_stay() {
    let mut session = Session::new();
    for id in 1..=20 {
        for order in new_window_with_icon(id, 0, id as u8) {
            session.deliver(&order).unwrap();
        }
    }
    for id in 1..=20 {
        assert_eq!(small(&session, id), Some(vec![id as u8; 2]));
    }
    let cell = CacheCell::default();
    assert_eq!(session.picture(cell).unwrap().color, [20, 20]);
    let with_cell = |id| session.shared(cell.into(), Holder::SmallIcon(WindowId(id)));
    assert_eq!((with_cell(20), with_cell(19)), (Ok(true), Ok(false)));
    assert_eq!(with_cell(21), Err(Refusal::WrongId));
    let big = Holder::BigIcon(WindowId(20));
    assert_eq!(session.shared(big, cell.into()), Err(Refusal::WrongId));
}

/// A third icon of a window, which an order takes away again; its description stays.
#[test]
fn an_overlay_icon() {
    let mut session = Session::new();
    let [window, mut icon] = new_window_with_icon(1, 0, 7);
    session.deliver(&window).unwrap();
    icon[5] |= 0x10;
    session.deliver(&icon).unwrap();
    let overlay = Holder::OverlayIcon(WindowId(1));
    let cell = CacheCell::default();
    let color = |session: &Session| {
        let found = session.window(WindowId(1)).unwrap();
        assert!(found.small.is_none() && found.big.is_none());
        found.overlay.map(|picture| picture.color)
    };
    assert_eq!(color(&session), Some(vec![7, 7]));
    assert_eq!(session.shared(overlay, cell.into()), Ok(true));
    // Margins, a description, and all four bytes.
    let mut newer = vec![0x2E, 35, 0, 0xC1, 0, 0xC8, 0x01, 1, 0, 0, 0];
    newer.extend([1, 0, 0, 0, 2, 0, 0, 0, 4, 0, 0x41, 0, 0x42, 0, 1, 1, 0, 2]);
    newer[1] = newer.len() as u8;
    session.deliver(&newer).unwrap();
    let found = session.window(WindowId(1)).unwrap();
    assert_eq!(
        (found.resize_margins.left, found.resize_margins.right),
        (1, 2)
    );
    assert_eq!(found.overlay_description(), "AB");
    assert!(found.taskbar_button && found.enforce_server_z_order && !found.app_bar);
    assert_eq!(found.app_bar_edge, 2);
    let none = [0x2E, 11, 0, 0, 0, 0x20, 0x01, 1, 0, 0, 0];
    session.deliver(&none).unwrap();
    assert_eq!(color(&session), None);
    assert_eq!(session.shared(overlay, overlay), Err(Refusal::WrongId));
    let found = session.window(WindowId(1)).unwrap();
    assert_eq!(found.overlay_description(), "AB");
    session.undo(1).unwrap();
    assert_eq!(color(&session), Some(vec![7, 7]));
}

/// Every place in use: the next icon is refused, and granted once one is free.
#[test]
fn a_full_store() {
    for places in [12, 13, 31] {
        let mut session = Session::with_places(places as usize);
        for id in 1..=places {
            for order in new_window_with_icon(id, 3, id as u8) {
                session.deliver(&order).unwrap();
            }
        }
        let [window, icon] = new_window_with_icon(99, 3, 99);
        session.deliver(&window).unwrap();
        let before = session.memory.clone();
        assert_eq!(session.deliver(&icon), Err(Refusal::NoPlace));
        assert!(session.memory == before);
        assert_eq!(session.update(9, &icon).refusal, Some(Refusal::NoPlace));
        session.deliver(&delete_window(1)).unwrap();
        session.take(&icon).unwrap();
        session.undo(2).unwrap();
        assert_eq!(session.deliver(&icon), Err(Refusal::NoPlace));
        // Its own window lets go of the place that only it and the cell have.
        let [_, again] = new_window_with_icon(places, 3, 98);
        session.deliver(&again).unwrap();
        assert_eq!(small(&session, places), Some(vec![98, 98]));
        session.reset();
        assert_eq!(session.places(), places as usize);
    }
}

#[test]
#[should_panic = "12 to 64 places for pictures, not 11"]
fn too_few_places() {
    Session::with_places(11);
}

#[test]
#[should_panic = "12 to 64 places for pictures, not 65"]
fn too_many_places() {
    Session::with_places(65);
}
