//! The session record for those who look at a case: made of a call script, and listed.

use crate::book::Book;
use crate::record;
use crate::script::parts::Parts;
use crate::script::session::{call, Call, Session};
use crate::script::take_item;

/// MS-RDPERP's names of the flags of all orders, and of each kind.
const OF_ALL: [(u32, &str); 7] = [
    (0x0100_0000, "WINDOW_ORDER_TYPE_WINDOW"),
    (0x0200_0000, "WINDOW_ORDER_TYPE_NOTIFY"),
    (0x0400_0000, "WINDOW_ORDER_TYPE_DESKTOP"),
    (0x1000_0000, "WINDOW_ORDER_STATE_NEW"),
    (0x2000_0000, "WINDOW_ORDER_STATE_DELETED"),
    (0x4000_0000, "WINDOW_ORDER_ICON"),
    (0x8000_0000, "WINDOW_ORDER_CACHEDICON"),
];
const OF_WINDOWS: [(u32, &str); 24] = [
    (0x0000_0002, "WINDOW_ORDER_FIELD_OWNER"),
    (0x0000_0008, "WINDOW_ORDER_FIELD_STYLE"),
    (0x0000_0010, "WINDOW_ORDER_FIELD_SHOW"),
    (0x0000_0004, "WINDOW_ORDER_FIELD_TITLE"),
    (0x0000_4000, "WINDOW_ORDER_FIELD_CLIENTAREAOFFSET"),
    (0x0001_0000, "WINDOW_ORDER_FIELD_CLIENTAREASIZE"),
    (0x0000_0080, "WINDOW_ORDER_FIELD_RESIZE_MARGIN_X"),
    (0x0800_0000, "WINDOW_ORDER_FIELD_RESIZE_MARGIN_Y"),
    (0x0002_0000, "WINDOW_ORDER_FIELD_RPCONTENT"),
    (0x0004_0000, "WINDOW_ORDER_FIELD_ROOTPARENT"),
    (0x0000_0800, "WINDOW_ORDER_FIELD_WNDOFFSET"),
    (0x0000_8000, "WINDOW_ORDER_FIELD_WNDCLIENTDELTA"),
    (0x0000_0400, "WINDOW_ORDER_FIELD_WNDSIZE"),
    (0x0000_0100, "WINDOW_ORDER_FIELD_WNDRECTS"),
    (0x0000_1000, "WINDOW_ORDER_FIELD_VISOFFSET"),
    (0x0000_0200, "WINDOW_ORDER_FIELD_VISIBILITY"),
    (0x0040_0000, "WINDOW_ORDER_FIELD_OVERLAY_DESCRIPTION"),
    (0x0080_0000, "WINDOW_ORDER_FIELD_TASKBAR_BUTTON"),
    (0x0008_0000, "WINDOW_ORDER_FIELD_ENFORCE_SERVER_ZORDER"),
    (0x0000_0040, "WINDOW_ORDER_FIELD_APPBAR_STATE"),
    (0x0000_0001, "WINDOW_ORDER_FIELD_APPBAR_EDGE"),
    (0x0000_2000, "WINDOW_ORDER_FIELD_ICON_BIG"),
    (0x0010_0000, "WINDOW_ORDER_FIELD_ICON_OVERLAY"),
    (0x0020_0000, "WINDOW_ORDER_FIELD_ICON_OVERLAY_NULL"),
];
const OF_NOTIFICATIONS: [(u32, &str); 4] = [
    (0x0000_0008, "WINDOW_ORDER_FIELD_NOTIFY_VERSION"),
    (0x0000_0001, "WINDOW_ORDER_FIELD_NOTIFY_TIP"),
    (0x0000_0002, "WINDOW_ORDER_FIELD_NOTIFY_INFO_TIP"),
    (0x0000_0004, "WINDOW_ORDER_FIELD_NOTIFY_STATE"),
];
const OF_DESKTOP: [(u32, &str); 6] = [
    (0x0000_0020, "WINDOW_ORDER_FIELD_DESKTOP_ACTIVEWND"),
    (0x0000_0010, "WINDOW_ORDER_FIELD_DESKTOP_ZORDER"),
    (0x0000_0001, "WINDOW_ORDER_FIELD_DESKTOP_NONE"),
    (0x0000_0002, "WINDOW_ORDER_FIELD_DESKTOP_HOOKED"),
    (0x0000_0004, "WINDOW_ORDER_FIELD_DESKTOP_ARC_COMPLETED"),
    (0x0000_0008, "WINDOW_ORDER_FIELD_DESKTOP_ARC_BEGAN"),
];

/// The book that the calls of a script leave, or which item is bad.
fn book_after(script: &[u8]) -> Result<Book, String> {
    let parts = Parts::default();
    let mut session = Session::default();
    let mut rest = script;
    for number in 1.. {
        if rest.is_empty() {
            break;
        }
        let taken = take_item(rest).and_then(|(item, tail)| Some((call(item, &parts)?, tail)));
        let (call, tail) = taken.ok_or_else(|| format!("item {number} of the script is bad"))?;
        if matches!(call, Call::Fault | Call::FaultStore(..)) {
            return Err(format!(
                "item {number} changes state memory, which is not kept here"
            ));
        }
        session.make(&call);
        rest = tail;
    }
    Ok(session.book().clone())
}

/// The record of the orders that stand after the mark when a script has run.
pub fn of_script(script: &[u8]) -> Result<Vec<u8>, String> {
    Ok(record::write(book_after(script)?.orders()))
}

/// A line for each order of a record: its offset and size, its kind and ids, its flags,
/// and the number that it gets when all are delivered in turn, from the mark that the
/// script before them leaves (an emptied state, if there is none).
pub fn list(bytes: &[u8], before: &[u8]) -> Result<String, String> {
    let mut book = book_after(before)?;
    book.mark();
    let bodies = record::read(bytes).map_err(|number| {
        let condition = super::words::condition(number);
        format!("refused, {number}: {condition}")
    })?;
    let mut text = String::from("order offset size number kind ids flags\n");
    let mut offset = record::COUNT_SIZE + record::ENTRY_SIZE * bodies.len();
    for (index, body) in bodies.iter().enumerate() {
        let number = book.deliver(body).err().unwrap_or(0);
        let (order, size) = (index + 1, body.len());
        text += &format!("{order} {offset} {size} {number} {}\n", about(body));
        offset += size;
    }
    Ok(text)
}

/// Kind, ids and flags of an order by its header.
fn about(order: &[u8]) -> String {
    let Some((&[_, _, _, a, b, c, d], rest)) = order.split_first_chunk::<7>() else {
        return "unknown - -".into();
    };
    let flags = u32::from_le_bytes([a, b, c, d]);
    let (kind, ids, of_kind): (&str, usize, &[(u32, &str)]) = match flags & 0x0700_0000 {
        0x0100_0000 => ("window", 1, &OF_WINDOWS),
        0x0200_0000 => ("notification", 2, &OF_NOTIFICATIONS),
        0x0400_0000 => ("desktop", 0, &OF_DESKTOP),
        _ => ("unknown", 0, &[]),
    };
    let ids: Vec<String> = rest
        .chunks_exact(4)
        .take(ids)
        .map(|id| u32::from_le_bytes([id[0], id[1], id[2], id[3]]).to_string())
        .collect();
    let ids = if ids.is_empty() {
        "-".into()
    } else {
        ids.join("/")
    };
    let named = OF_ALL.iter().chain(of_kind);
    let mut names = Vec::new();
    let mut unnamed = flags;
    for &(flag, name) in named.filter(|&&(flag, _)| flags & flag != 0) {
        names.push(name.to_string());
        unnamed &= !flag;
    }
    if unnamed != 0 {
        names.push(format!("{unnamed:08X}"));
    }
    let names = if names.is_empty() {
        "-".into()
    } else {
        names.join("|")
    };
    format!("{kind} {ids} {names}")
}
