//! What changed in the table between two items of a session script.

use std::collections::{BTreeMap, BTreeSet};

use super::explain::field;
use crate::script::lookup::push_found;
use crate::script::parts::Parts;
use crate::script::session::{call, Call, Session};
use crate::script::take_item;
use crate::table::Table;

/// The fields of each record, in words, by what it is.
type Records = BTreeMap<String, Vec<String>>;

/// A line for each record that is new or gone, and for each that has other fields, after
/// item `to` than after item `from` (0: before the first).
pub fn diff(script: &[u8], from: usize, to: usize) -> Result<String, String> {
    let mut session = Session::default();
    let mut tables = [None, None];
    let mut rest = script;
    for number in 0.. {
        for (table, at) in tables.iter_mut().zip([from, to]) {
            if number == at {
                *table = Some(records(session.book().table()));
            }
        }
        if tables.iter().all(Option::is_some) {
            break;
        }
        let (item, tail) = take_item(rest).ok_or(format!("the script has {number} items"))?;
        match call(item, &Parts::default()) {
            None => return Err(format!("item {} is a bad one", number + 1)),
            Some(Call::Fault | Call::FaultStore(..)) => {
                return Err(format!("item {} is a fault", number + 1))
            }
            Some(call) => session.make(&call),
        };
        rest = tail;
    }
    let [before, after] = tables.map(Option::unwrap_or_default);
    Ok(lines(&before, &after))
}

fn lines(before: &Records, after: &Records) -> String {
    let names: BTreeSet<&String> = before.keys().chain(after.keys()).collect();
    let mut text = String::new();
    for name in names {
        match (before.get(name), after.get(name)) {
            (None, Some(fields)) => text += &format!("{name} is new: {}\n", fields.join(" ")),
            (Some(_), None) => text += &format!("{name} is gone\n"),
            (Some(old), Some(new)) if old != new => {
                let pairs = old.iter().zip(new).filter(|(old, new)| old != new);
                let changes: Vec<String> = pairs.map(|(old, new)| became(old, new)).collect();
                text += &format!("{name}: {}\n", changes.join("; "));
            }
            _ => {}
        }
    }
    text
}

/// A field before and after; its name once.
fn became(old: &str, new: &str) -> String {
    let value = new.split_once('=').map_or(new, |(_, value)| value);
    format!("{old} became {value}")
}

fn records(table: &Table) -> Records {
    let windows = table
        .window_ids()
        .map(|id| (format!("window {}", id.0), Call::Window(id)));
    let icons = table.icon_ids().map(|(window, icon)| {
        let name = format!("notification icon {}/{}", window.0, icon.0);
        (name, Call::Icon(window, icon))
    });
    let cells = table.filled_cells().map(|place| {
        let name = format!("cell {}/{}", place.cache, place.entry);
        (name, Call::Cell(place))
    });
    let desktop = [(String::from("desktop"), Call::Desktop)];
    windows
        .chain(icons)
        .chain(cells)
        .chain(desktop)
        .map(|(name, call)| (name, fields(table, &call)))
        .collect()
}

/// The fields of what a lookup finds, as `explain` tells them.
fn fields(table: &Table, call: &Call<'_>) -> Vec<String> {
    let mut line = Vec::new();
    push_found(&mut line, table, call);
    let text = String::from_utf8(line).expect("a printed line is text");
    text.split_whitespace().filter_map(field).collect()
}
