//! The benchmark orders.

use second::order::flags;

/// An order's bytes.
pub type Order = Vec<u8>;

/// A kind of order, with what has to stand around it.
pub struct Kind {
    pub label: &'static str,
    /// Delivered once before.
    pub before: Vec<Order>,
    /// Orders that together leave the records as they were, one of them this one.
    pub turn: Vec<Order>,
    /// Where it stands in the turn.
    pub at: usize,
}

impl Kind {
    /// The order itself.
    pub fn order(&self) -> &Order {
        &self.turn[self.at]
    }
}

/// The bytes of the order with the largest icon.
pub const LARGEST_ICON: usize = 4_247;

/// The window of the orders. Its id is above those of the other windows.
pub const WINDOW: u32 = 0x0001_0058;

/// All kinds, in the table's order.
pub fn all() -> Vec<Kind> {
    let new = || new_window(WINDOW, 40);
    let icon = || window(flags::ICON, &icon());
    let delete = || window(flags::DELETED, &[]);
    vec![
        with_delete("New window, title of 40 bytes", new()),
        with_delete("New window, 14 fields", new_with_all()),
        repeated(
            "Update: title of 200 bytes, 16 and 16 rectangles",
            vec![new()],
            titled_update(),
        ),
        repeated(
            "Update: style, offsets, 4 and 4 rectangles",
            vec![new()],
            placed_update(),
        ),
        repeated("Icon, 32 by 32 at 32 bits", vec![new()], icon()),
        repeated(
            "Cached icon",
            vec![new(), icon()],
            window(flags::CACHED_ICON, &CELL),
        ),
        Kind {
            label: "Delete, window with no field",
            before: Vec::new(),
            turn: vec![window(flags::NEW, &[]), delete()],
            at: 1,
        },
        repeated("Desktop: 30 ids, active id", Vec::new(), desktop()),
    ]
}

/// The kind whose order has so many bytes.
pub fn of_size(bytes: usize) -> Kind {
    let found = all().into_iter().find(|kind| kind.order().len() == bytes);
    found.expect("a kind of that size")
}

/// A new window with a title of 40 bytes.
pub fn small_window(id: u32) -> Order {
    new_window(id, 40)
}

/// A new window with every field at its largest.
pub fn large_window(id: u32) -> Order {
    let fields = fields(520, 16);
    let mut order = of_fields(flags::NEW, &fields);
    order[7..11].copy_from_slice(&id.to_le_bytes());
    order
}

/// The same with so many visibility rectangles, none over another.
pub fn visible_window(id: u32, count: u16) -> Order {
    let mut fields = fields(520, 16);
    for (flag, bytes) in &mut fields {
        if *flag == flags::VISIBILITY {
            *bytes = apart(count);
        }
    }
    let mut order = of_fields(flags::NEW, &fields);
    order[7..11].copy_from_slice(&id.to_le_bytes());
    order
}

/// The largest icon in a cell, as the small or the big icon of a window.
pub fn icon_of(id: u32, is_big: bool, cache: u8, entry: u16) -> Order {
    let fields = [&id.to_le_bytes()[..], &icon_in(cache, entry)].concat();
    let big = if is_big { flags::BIG } else { 0 };
    order(flags::WINDOW | flags::ICON | big, &fields)
}

/// A window is deleted.
pub fn deleted_window(id: u32) -> Order {
    order(flags::WINDOW | flags::DELETED, &id.to_le_bytes())
}

/// The largest icon in a cell, as that of a notification icon.
pub fn notification_icon(window: u32, icon: u32, cache: u8, entry: u16) -> Order {
    let mut fields = [window, icon].map(u32::to_le_bytes).concat();
    fields.extend(icon_in(cache, entry));
    order(flags::NOTIFICATION | flags::ICON, &fields)
}

/// A new notification icon with version, a tip of 60 bytes, a balloon, and the picture of
/// entry 0 in cache 0.
pub fn notification(window: u32, icon: u32) -> Order {
    let all = flags::VERSION | flags::TIP | flags::BALLOON | flags::CACHED_ICON;
    let mut fields = Vec::new();
    for number in [window, icon, 4] {
        fields.extend(number.to_le_bytes());
    }
    fields.extend(string(60));
    fields.extend([16, 39, 0, 0, 1, 0, 0, 0]);
    fields.extend(string(80));
    fields.extend(string(20));
    fields.extend(CELL);
    order(flags::NOTIFICATION | flags::NEW | all, &fields)
}

/// An order that can be delivered again and again.
fn repeated(label: &'static str, before: Vec<Order>, order: Order) -> Kind {
    Kind {
        label,
        before,
        turn: vec![order],
        at: 0,
    }
}

/// A new window, which has to be deleted before it can come again.
fn with_delete(label: &'static str, order: Order) -> Kind {
    Kind {
        label,
        before: Vec::new(),
        turn: vec![order, window(flags::DELETED, &[])],
        at: 0,
    }
}

fn new_window(id: u32, title: usize) -> Order {
    let fields = [&id.to_le_bytes()[..], &string(title)].concat();
    order(flags::WINDOW | flags::NEW | flags::TITLE, &fields)
}

fn new_with_all() -> Order {
    of_fields(flags::NEW, &fields(60, 1))
}

/// The 14 fields that there were before request No. 12, with a title and rectangles of that length.
fn fields(title: usize, count: u16) -> [(u32, Vec<u8>); 14] {
    [
        (flags::OWNER, numbers(1)),
        (flags::STYLE, numbers(2)),
        (flags::SHOW, vec![5]),
        (flags::TITLE, string(title)),
        (flags::CLIENT_OFFSET, numbers(2)),
        (flags::CLIENT_SIZE, numbers(2)),
        (flags::RP_CONTENT, vec![1]),
        (flags::ROOT_PARENT, numbers(1)),
        (flags::WINDOW_OFFSET, numbers(2)),
        (flags::CLIENT_DELTA, numbers(2)),
        (flags::WINDOW_SIZE, numbers(2)),
        (flags::WINDOW_RECTS, rects(count)),
        (flags::VISIBLE_OFFSET, numbers(2)),
        (flags::VISIBILITY, rects(count)),
    ]
}

fn titled_update() -> Order {
    let fields = [
        (flags::TITLE, string(200)),
        (flags::WINDOW_RECTS, rects(16)),
        (flags::VISIBILITY, rects(16)),
    ];
    of_fields(0, &fields)
}

fn placed_update() -> Order {
    let fields = [
        (flags::STYLE, numbers(2)),
        (flags::CLIENT_OFFSET, numbers(2)),
        (flags::WINDOW_OFFSET, numbers(2)),
        (flags::WINDOW_RECTS, rects(4)),
        (flags::VISIBLE_OFFSET, numbers(2)),
        (flags::VISIBILITY, rects(4)),
    ];
    of_fields(0, &fields)
}

/// Entry 0 of cache 0.
const CELL: [u8; 3] = [0, 0, 0];

/// Its cell, 32 bits, 32 by 32, a mask of 128 bytes and colors of 4,096.
fn icon() -> Vec<u8> {
    let mut icon = CELL.to_vec();
    icon.extend_from_slice(&[32, 32, 0, 32, 0, 128, 0, 0, 16]);
    icon.resize(icon.len() + 128 + 4_096, 7);
    icon
}

/// The same in another cell.
fn icon_in(cache: u8, entry: u16) -> Vec<u8> {
    let mut icon = icon();
    icon[..2].copy_from_slice(&entry.to_le_bytes());
    icon[2] = cache;
    icon
}

fn desktop() -> Order {
    let mut fields = WINDOW.to_le_bytes().to_vec();
    fields.push(30);
    for index in 0..30 {
        fields.extend_from_slice(&(0x0001_0001u32 + index).to_le_bytes());
    }
    order(flags::DESKTOP | flags::ACTIVE | flags::STACK, &fields)
}

/// An order on the window with fields in carried order.
fn of_fields(state: u32, fields: &[(u32, Vec<u8>)]) -> Order {
    let flags = fields.iter().fold(state, |flags, (flag, _)| flags | flag);
    let bytes: Vec<u8> = fields
        .iter()
        .flat_map(|(_, bytes)| bytes)
        .copied()
        .collect();
    window(flags, &bytes)
}

fn window(flags: u32, fields: &[u8]) -> Order {
    let fields = [&WINDOW.to_le_bytes()[..], fields].concat();
    order(flags::WINDOW | flags, &fields)
}

fn order(flags: u32, rest: &[u8]) -> Order {
    let size = 7 + rest.len() as u16;
    let mut order = vec![0x2E];
    order.extend_from_slice(&size.to_le_bytes());
    order.extend_from_slice(&flags.to_le_bytes());
    order.extend_from_slice(rest);
    order
}

fn numbers(count: usize) -> Vec<u8> {
    [0x10, 0, 0, 0].repeat(count)
}

fn string(length: usize) -> Vec<u8> {
    let mut string = (length as u16).to_le_bytes().to_vec();
    string.extend(b"A\0".repeat(length / 2));
    string
}

/// Rectangles in rows of 4, none over another.
fn apart(count: u16) -> Vec<u8> {
    let mut rects = count.to_le_bytes().to_vec();
    for index in 0..count {
        let (left, top) = (20 * (index % 4), 20 * (index / 4));
        for number in [left, top, left + 10, top + 10] {
            rects.extend(number.to_le_bytes());
        }
    }
    rects
}

fn rects(count: u16) -> Vec<u8> {
    let mut rects = count.to_le_bytes().to_vec();
    rects.extend([1, 0, 2, 0, 3, 0, 4, 0].repeat(count.into()));
    rects
}

#[cfg(test)]
mod tests {
    use super::*;
    use second::table::{number, Table};

    /// The numbers of these orders on a table, one after the other.
    fn delivered(table: &mut Table, orders: &[Order]) -> Vec<u8> {
        let deliver = |bytes: &Order| {
            let order = second::order::judge(bytes).expect("an order judged good");
            let number = number(table, &order);
            if number == 0 {
                table.apply(&order);
            }
            number
        };
        orders.iter().map(deliver).collect()
    }

    #[test]
    fn every_turn_can_come_again() {
        for kind in all() {
            let mut table = Table::default();
            let others = (1..31).map(|index| large_window(WINDOW + (index << 24)));
            let first: Vec<Order> = others.chain(kind.before.clone()).collect();
            assert!(delivered(&mut table, &first).iter().all(|&n| n == 0));
            assert!(delivered(&mut table, &kind.turn).iter().all(|&n| n == 0));
            let after = table.clone();
            assert!(delivered(&mut table, &kind.turn).iter().all(|&n| n == 0));
            assert_eq!(table, after, "{}", kind.label);
        }
    }

    #[test]
    fn sizes() {
        let sizes: Vec<usize> = all().iter().map(|kind| kind.order().len()).collect();
        assert_eq!(sizes, [53, 159, 473, 111, 4_247, 14, 11, 132]);
    }
}
