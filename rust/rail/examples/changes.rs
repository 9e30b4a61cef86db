//! Reads a call script and prints for each delivery, granted or not, what [`Changed`]
//! tells of its bytes, as tests/c/programs/changes.c does for C.

use std::io::{self, Read, Write};

use rail::{Change, Changed};

fn main() -> io::Result<()> {
    let mut script = Vec::new();
    io::stdin().read_to_end(&mut script)?;
    let mut out = io::BufWriter::new(io::stdout().lock());
    let mut rest = &script[..];
    while let Some((&[kind, low, high], tail)) = rest.split_first_chunk() {
        let size = usize::from(u16::from_le_bytes([low, high]));
        let Some((order, tail)) = tail.split_at_checked(size) else {
            break;
        };
        if kind == b'D' {
            writeln!(out, "{}", told(order))?;
        }
        rest = tail;
    }
    out.flush()
}

fn told(order: &[u8]) -> String {
    let Some(changed) = Changed::of(order) else {
        return "0 00000000 0 0 ".into();
    };
    let (kind, window, icon) = match changed.what {
        Change::WindowNew(id) => (1, id.0, 0),
        Change::WindowUpdated(id) => (2, id.0, 0),
        Change::WindowDeleted(id) => (3, id.0, 0),
        Change::NotificationIconNew(window, icon) => (4, window.0, icon.0),
        Change::NotificationIconUpdated(window, icon) => (5, window.0, icon.0),
        Change::NotificationIconDeleted(window, icon) => (6, window.0, icon.0),
        Change::Desktop => (7, 0, 0),
        Change::AllGone => (8, 0, 0),
        _ => (9, 0, 0),
    };
    let cell = changed.filled.map_or(String::new(), |cell| {
        format!("{}/{}", cell.cache_id, cell.cache_entry)
    });
    let sync = if changed.begins_sync() { " sync" } else { "" };
    format!("{kind} {:08X} {window} {icon} {cell}{sync}", changed.flags)
}
