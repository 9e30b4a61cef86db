//! What a granted order is told to have changed is all that changed, on generated lists
//! of calls, beside the second program's table.

mod common;

use common::{lend_to_book, steps};
use rail::{CacheCell, Change, Changed, NotifyIconId, WindowId};
use second::generate::session::script;
use second::order::CellPlace;
use second::script::parts::Parts;
use second::script::session::{Call, Session as BookSession};
use second::table::{Holder, Table};

const SEEDS: u64 = 200;
const CALLS: usize = 300;

/// What differs between two tables.
#[derive(Debug)]
struct Differences {
    windows: Vec<u32>,
    icons: Vec<(u32, u32)>,
    cells: Vec<(u8, u16)>,
    desktop: bool,
}

impl Differences {
    fn between(before: &Table, after: &Table) -> Self {
        let tables = [before, after];
        let windows = tables.iter().flat_map(|table| table.window_ids());
        let icons = tables.iter().flat_map(|table| table.icon_ids());
        let shown = |holder| before.shown(holder) != after.shown(holder);
        Self {
            windows: windows
                .filter(|&id| {
                    let pictures = Holder::of_window(id);
                    before.window(id) != after.window(id) || pictures.into_iter().any(shown)
                })
                .map(|id| id.0)
                .collect(),
            icons: icons
                .filter(|&(window, icon)| {
                    before.icon(window, icon) != after.icon(window, icon)
                        || shown(Holder::Notification(window, icon))
                })
                .map(|(window, icon)| (window.0, icon.0))
                .collect(),
            cells: CacheCell::all()
                .map(|cell| (cell.cache_id, cell.cache_entry))
                .filter(|&(cache, entry)| {
                    let place = CellPlace { cache, entry };
                    before.cell(place) != after.cell(place)
                })
                .collect(),
            desktop: before.desktop() != after.desktop(),
        }
    }

    /// All of it is told.
    fn are_told(&self, changed: &Changed) -> bool {
        let (mut windows, mut icons) = (Vec::new(), Vec::new());
        let mut desktop = false;
        match changed.what {
            Change::WindowNew(id) | Change::WindowUpdated(id) | Change::WindowDeleted(id) => {
                windows.push(id.0);
            }
            Change::NotificationIconNew(WindowId(window), NotifyIconId(icon))
            | Change::NotificationIconUpdated(WindowId(window), NotifyIconId(icon))
            | Change::NotificationIconDeleted(WindowId(window), NotifyIconId(icon)) => {
                icons.push((window, icon));
            }
            Change::Desktop => desktop = true,
            Change::AllGone => return self.cells.is_empty() && changed.filled.is_none(),
            _ => return false,
        }
        let filled = changed.filled.map(|cell| (cell.cache_id, cell.cache_entry));
        self.windows.iter().all(|id| windows.contains(id))
            && self.icons.iter().all(|ids| icons.contains(ids))
            && self.cells.iter().all(|&cell| Some(cell) == filled)
            && (desktop || !self.desktop)
    }
}

/// New and deleted are told for what comes and goes, and for nothing else.
fn comes_and_goes(changed: &Changed, before: &Table, after: &Table) -> bool {
    use second::ids::{NotifyIconId as IconOf, WindowId as WindowOf};
    let window = |id: WindowId| {
        let id = WindowOf(id.0);
        (before.window(id).is_some(), after.window(id).is_some())
    };
    let icon = |window: WindowId, icon: NotifyIconId| {
        let (window, icon) = (WindowOf(window.0), IconOf(icon.0));
        let listed = |table: &Table| table.icon(window, icon).is_some();
        (listed(before), listed(after))
    };
    match changed.what {
        Change::WindowNew(id) => window(id) == (false, true),
        Change::WindowUpdated(id) => window(id) == (true, true),
        Change::WindowDeleted(id) => window(id) == (true, false),
        Change::NotificationIconNew(w, i) => icon(w, i) == (false, true),
        Change::NotificationIconUpdated(w, i) => icon(w, i) == (true, true),
        Change::NotificationIconDeleted(w, i) => icon(w, i) == (true, false),
        Change::AllGone => after.window_ids().next().is_none() && after.icon_ids().next().is_none(),
        _ => true,
    }
}

#[test]
fn all_that_changed_is_told() {
    let mut told = [0_u64; 8];
    let mut filled = 0;
    for seed in 0..SEEDS {
        let script = script(seed, CALLS, &Parts::default());
        let mut book = BookSession::default();
        for step in steps(&script) {
            let before = book.book().table().clone();
            lend_to_book(&mut book, &step);
            if book.make(&step.call) != Some(0) {
                continue;
            }
            let Call::Deliver(order) = step.call else {
                continue;
            };
            let changed = Changed::of(order).expect("a granted order");
            let after = book.book().table();
            let differences = Differences::between(&before, after);
            assert!(
                differences.are_told(&changed) && comes_and_goes(&changed, &before, after),
                "seed {seed}: {changed:?} for {differences:?}"
            );
            filled += u64::from(changed.filled.is_some());
            told[match changed.what {
                Change::WindowNew(_) => 0,
                Change::WindowUpdated(_) => 1,
                Change::WindowDeleted(_) => 2,
                Change::NotificationIconNew(..) => 3,
                Change::NotificationIconUpdated(..) => 4,
                Change::NotificationIconDeleted(..) => 5,
                Change::Desktop => 6,
                _ => 7,
            }] += 1;
        }
    }
    assert!(
        filled > 50 && told.iter().all(|&count| count > 50),
        "{told:?} {filled}"
    );
}
