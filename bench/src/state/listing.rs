//! What is listed at the mark.

use crate::kinds::{self, Order};

/// The notify-icon id that is looked up.
const ICON: u32 = 7;

/// Windows, notification icons and cells that are listed before the orders of a call.
pub struct Listing {
    /// For the command line.
    pub name: &'static str,
    /// For the table.
    pub label: &'static str,
    /// The ids of the windows beside that of the orders.
    windows: Vec<u32>,
    /// The notification icons, and all 12 cells, stand where it is full.
    icons: Vec<(u32, u32)>,
    /// Whether all 64 places of the store are in use.
    is_store_full: bool,
    /// How many visibility rectangles each window of a full table has, none over another;
    /// else 16 times the same one.
    apart: Option<u16>,
}

/// All listings: one window, 8, and a table as full as it can be before a new window, with
/// few pictures and with as many as the store holds.
pub fn listings() -> Vec<Listing> {
    let counted = |count: u32| (0..count).map(|index| 0x0001_0001 + index).collect();
    let equal_low = |count: u32| (1..=count).map(|index| kinds::WINDOW + (index << 24));
    let full = |name, label, windows: Vec<u32>, icon: fn(u32) -> u32| {
        let last = windows[windows.len() - 1];
        let icons = (0..15).map(|index| (windows[index as usize], icon(index)));
        let icons = icons.chain([(last, ICON)]).collect();
        Listing {
            name,
            label,
            windows,
            icons,
            is_store_full: false,
            apart: None,
        }
    };
    let store = full("store", "Full table, 64 places", counted(31), |index| index);
    vec![
        Listing {
            name: "one",
            label: "One window",
            windows: counted(1),
            icons: Vec::new(),
            is_store_full: false,
            apart: None,
        },
        Listing {
            name: "eight",
            label: "8 windows",
            windows: counted(8),
            icons: Vec::new(),
            is_store_full: false,
            apart: None,
        },
        full("full", "Full table", counted(31), |index| index),
        full(
            "equal",
            "Full table, ids with equal low bytes",
            equal_low(31).collect(),
            |index| ICON + (index << 24),
        ),
        Listing {
            is_store_full: true,
            ..store
        },
    ]
}

/// Full tables whose windows have 0, 1, 4 and 16 visibility rectangles that are apart.
pub fn with_rectangles() -> Vec<Listing> {
    let counts = [
        ("apart-0", 0),
        ("apart-1", 1),
        ("apart-4", 4),
        ("apart-16", 16),
    ];
    let full = |name, count| {
        let full = listings().into_iter().find(|one| one.name == "full");
        Listing {
            name,
            label: "Full table, rectangles apart",
            apart: Some(count),
            ..full.expect("a listing")
        }
    };
    counts.map(|(name, count)| full(name, count)).into()
}

impl Listing {
    /// How many visibility rectangles that are apart each of its windows has.
    pub fn apart(&self) -> Option<u16> {
        self.apart
    }

    pub fn is_full(&self) -> bool {
        !self.icons.is_empty()
    }

    /// The window whose updates are in the journal, and which is looked up: the last listed.
    pub fn updated(&self) -> u32 {
        self.windows[self.windows.len() - 1]
    }

    /// The notification icon that is looked up, of that window.
    pub fn notification(&self) -> (u32, u32) {
        (self.updated(), ICON)
    }

    /// The window in that place of a full table, counted from 1: the orders' window is the last.
    pub fn window_in(&self, place: usize) -> u32 {
        *self.windows.get(place - 1).unwrap_or(&kinds::WINDOW)
    }

    /// What is listed before the orders of a delivery.
    pub fn orders(&self) -> Vec<Order> {
        if !self.is_full() {
            let ids = self.windows.iter();
            return ids.map(|&id| kinds::small_window(id)).collect();
        }
        let windows = self.windows.iter().map(|&id| match self.apart {
            Some(count) => kinds::visible_window(id, count),
            None => kinds::large_window(id),
        });
        let icons = self.icons.iter();
        let icons = icons.map(|&(window, icon)| kinds::notification(window, icon));
        let mut orders: Vec<Order> = windows.collect();
        if self.is_store_full {
            orders.extend(self.pictures());
            orders.extend(icons);
            orders.extend(self.last_pictures());
        } else {
            let ids = self.windows.iter().zip(0..12);
            orders.extend(ids.map(|(&id, cell)| picture(id, false, cell)));
            orders.extend(icons);
        }
        orders
    }

    /// A picture at a place of its own for each window's small icon and for its big one: 62.
    /// The cells come in turn, and what had the picture of one keeps it.
    fn pictures(&self) -> impl Iterator<Item = Order> + '_ {
        let icons = self
            .windows
            .iter()
            .flat_map(|&id| [(id, false), (id, true)]);
        let cells = (0..12).cycle();
        icons
            .zip(cells)
            .map(|((id, is_big), cell)| picture(id, is_big, cell))
    }

    /// The last two places: one for a notification icon and cell 1, one for cell 0 alone, so
    /// that an icon for it is granted.
    fn last_pictures(&self) -> [Order; 4] {
        let (window, icon) = self.notification();
        [
            kinds::notification_icon(window, icon, 0, 1),
            kinds::small_window(kinds::WINDOW),
            picture(kinds::WINDOW, false, 0),
            kinds::deleted_window(kinds::WINDOW),
        ]
    }

    /// Something of each sort besides: the orders' window with the largest icon, a
    /// notification icon with texts, and 30 ids in the stacking list.
    pub fn records(&self) -> Vec<Order> {
        let icon = kinds::of_size(kinds::LARGEST_ICON);
        let mut orders = self.orders();
        orders.extend(icon.before.iter().cloned());
        orders.push(icon.order().clone());
        if !self.is_full() {
            let (window, icon) = self.notification();
            orders.push(kinds::notification(window, icon));
        }
        orders.push(kinds::of_size(132).order().clone());
        orders
    }
}

/// The largest icon for a window, in the cell of that number.
fn picture(window: u32, is_big: bool, cell: u16) -> Order {
    kinds::icon_of(window, is_big, (cell / 6) as u8, cell % 6)
}

#[cfg(test)]
mod tests {
    use super::*;
    use second::book::Book;

    /// With the orders' window a full listing is a full table.
    #[test]
    fn listings_have_what_they_say() {
        for listing in listings() {
            let mut book = Book::new();
            for order in listing.records() {
                assert_eq!(book.deliver(&order), Ok(()), "{}", listing.label);
                book.mark();
            }
            let table = book.table();
            let listed = [
                table.window_ids().count(),
                table.icon_ids().count(),
                table.filled_cells().count(),
                table.store().used(),
            ];
            let expected = match listing.name {
                "one" => [2, 1, 1, 1],
                "eight" => [9, 1, 1, 1],
                "store" => [32, 16, 12, 64],
                _ => [32, 16, 12, 13],
            };
            assert_eq!(listed, expected, "{}", listing.label);
        }
    }

    /// Each window has as many pixels as its rectangles together.
    #[test]
    fn rectangles_are_apart() {
        for listing in with_rectangles() {
            let mut book = Book::new();
            for order in listing.orders() {
                assert_eq!(book.deliver(&order), Ok(()), "{}", listing.name);
                book.mark();
            }
            let count = u64::from(listing.apart().expect("a count"));
            assert_eq!(book.figure().windows, 31);
            assert_eq!(book.figure().pixels, 31 * 100 * count);
        }
    }

    #[test]
    fn equal_ids_differ_in_their_highest_byte_alone() {
        let equal = listings().into_iter().find(|one| one.name == "equal");
        let listing = equal.expect("a name");
        let low = |id: u32| id & 0x00FF_FFFF;
        assert!(listing
            .windows
            .iter()
            .all(|&id| low(id) == low(kinds::WINDOW)));
        assert!(listing.icons.iter().all(|&(_, icon)| low(icon) == ICON));
    }
}
