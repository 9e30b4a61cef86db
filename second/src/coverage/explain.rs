//! What generated pairs of a state and an order reach.

use super::Facts;
use crate::generate::explain::{pairs, states, Pair};
use crate::memory::{self, Memory};
use crate::order::fields::{fields, Field};
use crate::order::flags;
use crate::why::{on_book, Explanation};

/// Every number that delivery gives.
const NUMBERS: [u8; 14] = [0, 1, 2, 3, 4, 5, 6, 7, 8, 9, 10, 11, 12, 17];

/// The fields of a window, those of more than one byte first.
const WINDOW: [&str; 41] = [
    "owner",
    "style",
    "extended style",
    "title length",
    "title",
    "client x",
    "client y",
    "client width",
    "client height",
    "root parent",
    "window x",
    "window y",
    "delta x",
    "delta y",
    "window width",
    "window height",
    "window rectangles",
    "window left",
    "window top",
    "window right",
    "window bottom",
    "visible x",
    "visible y",
    "visible rectangles",
    "visible left",
    "visible top",
    "visible right",
    "visible bottom",
    "left margin",
    "right margin",
    "top margin",
    "bottom margin",
    "overlay text length",
    "overlay text",
    "window id",
    "show state",
    "RPContent",
    "taskbar",
    "server z",
    "application bar",
    "edge",
];
const NOTIFICATION: [&str; 12] = [
    "window id",
    "notify-icon id",
    "version",
    "tip length",
    "tip",
    "timeout",
    "balloon flags",
    "balloon text length",
    "balloon text",
    "balloon title length",
    "balloon title",
    "state",
];
const DESKTOP: [&str; 3] = ["active id", "stack id", "stack count"];
const ICON: [&str; 11] = [
    "entry",
    "icon width",
    "icon height",
    "color table length",
    "mask length",
    "color length",
    "mask",
    "color table",
    "color",
    "cache id",
    "bits per pixel",
];
const CACHED: [&str; 2] = ["entry", "cache id"];

/// Fields of one byte, which cannot be cut inside.
const BYTES: [&str; 9] = [
    "show state",
    "RPContent",
    "taskbar",
    "server z",
    "application bar",
    "edge",
    "stack count",
    "cache id",
    "bits per pixel",
];

/// Fields with a set, of each of the lists above.
const WINDOW_SETS: [&str; 10] = [
    "show state",
    "title length",
    "RPContent",
    "window rectangles",
    "visible rectangles",
    "overlay text length",
    "taskbar",
    "server z",
    "application bar",
    "edge",
];
const NOTIFICATION_SETS: [&str; 3] = ["tip length", "balloon text length", "balloon title length"];
const ICON_SETS: [&str; 6] = [
    "entry",
    "cache id",
    "bits per pixel",
    "icon width",
    "icon height",
    "color length",
];

/// A sort of order with the lists of its fields and of those with a set.
type Expected = (&'static str, [&'static [&'static str]; 4]);

/// Every sort of order.
const SORTS: [Expected; 18] = [
    ("new window", [&WINDOW, &[], &WINDOW_SETS, &[]]),
    ("update window", [&WINDOW, &[], &WINDOW_SETS, &[]]),
    ("delete window", [&["window id"], &[], &[], &[]]),
    ("small icon", [&["window id"], &ICON, &ICON_SETS, &[]]),
    ("big icon", [&["window id"], &ICON, &ICON_SETS, &[]]),
    ("overlay icon", [&["window id"], &ICON, &ICON_SETS, &[]]),
    ("small cached icon", [&["window id"], &CACHED, &CACHED, &[]]),
    ("big cached icon", [&["window id"], &CACHED, &CACHED, &[]]),
    (
        "overlay cached icon",
        [&["window id"], &CACHED, &CACHED, &[]],
    ),
    (
        "new notification",
        [&NOTIFICATION, &[], &NOTIFICATION_SETS, &[]],
    ),
    (
        "new notification with icon",
        [&NOTIFICATION, &ICON, &NOTIFICATION_SETS, &ICON_SETS],
    ),
    (
        "new notification with cached icon",
        [&NOTIFICATION, &CACHED, &NOTIFICATION_SETS, &CACHED],
    ),
    (
        "update notification",
        [&NOTIFICATION, &[], &NOTIFICATION_SETS, &[]],
    ),
    (
        "update notification with icon",
        [&NOTIFICATION, &ICON, &NOTIFICATION_SETS, &ICON_SETS],
    ),
    (
        "update notification with cached icon",
        [&NOTIFICATION, &CACHED, &NOTIFICATION_SETS, &CACHED],
    ),
    (
        "delete notification",
        [&["window id", "notify-icon id"], &[], &[], &[]],
    ),
    ("desktop none", [&[], &[], &[], &[]]),
    ("desktop", [&DESKTOP, &[], &["stack count"], &[]]),
];

/// Facts of their own.
const SINGLE: [&str; 24] = [
    "4 by the first byte",
    "4 by the type bits",
    "7 for bits without a color table that come with one",
    "8 for an entry and a cache id outside",
    "8 for an entry beside FF in a cached icon",
    "8 for FF in a cached icon",
    "8 for a side beside a picture too large",
    "an entry outside beside FF in an icon passes 8",
    "12 on an order of 7 bytes",
    "order no file",
    "order a folder",
    "order no bytes",
    "order 65,535 bytes",
    "order more than 65,535 bytes",
    "order more than 65,535 bytes, agreeing modulo 65,536",
    "order megabytes",
    "state no file 1",
    "state a folder 1",
    "state no bytes 1",
    "state zeros 1",
    "state noise 1",
    "state cut anywhere 1",
    "state one byte changed 1",
    "state one byte changed, fit",
];

/// What a state file can lack.
const UNFIT: [&str; 4] = [
    "one place too few",
    "one byte of the last place missing",
    "no place",
    "one byte of the parts missing",
];

/// Makes the pairs of the seeds `from` to `to`. A fact is a text such as `7 small icon mask
/// cut` (number, sort of order, field).
pub fn of_seeds(from: u64, to: u64, items: usize) -> Facts {
    let mut facts = Facts::expecting(expected());
    for seed in from..=to {
        for pair in pairs(seed, items) {
            facts.add_pair(&pair);
        }
    }
    facts
}

fn expected() -> Vec<String> {
    let mut facts: Vec<String> = SINGLE.map(String::from).to_vec();
    facts.extend(NUMBERS.map(|number| format!("number {number}")));
    for (sort, [fields, more, sets, more_sets]) in SORTS {
        facts.push(format!("7 {sort} left over"));
        for field in fields.iter().chain(more) {
            facts.push(format!("7 {sort} {field} ends"));
            if !BYTES.contains(field) {
                facts.push(format!("7 {sort} {field} cut"));
            }
        }
        for field in sets.iter().chain(more_sets) {
            facts.push(format!("8 {sort} {field}"));
        }
    }
    facts.extend(states::WHOLE.map(|sort| format!("state {sort}, fit")));
    facts.extend(UNFIT.map(|sort| format!("state {sort} 1")));
    facts.extend(states::rules().map(|rule| format!("state {rule} 1")));
    facts
}

impl Facts {
    fn add_pair(&mut self, pair: &Pair) {
        let order = pair.order.bytes();
        let told = match memory::read(pair.state.bytes()) {
            Memory::Book(book) => on_book(&book, order),
            _ => Explanation::of(1, order),
        };
        self.add(format!("number {}", told.number));
        match told.number {
            1 => self.add(format!("state {} 1", pair.of_state)),
            _ => self.add(format!("state {}, fit", pair.of_state)),
        }
        let of_order = &pair.of_order;
        match told.number {
            1 => return,
            2 if order.is_empty() => self.add(format!("order {of_order}")),
            3 if order.len() > 65_535 => self.add(format!("order {of_order}")),
            4 if told.at == Some(0) => self.add("4 by the first byte"),
            4 => self.add("4 by the type bits"),
            7 if order.len() == 65_535 => self.add("order 65,535 bytes"),
            12 if order.len() == 7 => self.add("12 on an order of 7 bytes"),
            _ => {}
        }
        if let (0 | 7.., Some(sort)) = (told.number, sort(order)) {
            self.add_fields(order, sort, told.number);
        }
    }

    fn add_fields(&mut self, order: &[u8], sort: &str, number: u8) {
        let all = fields(order);
        let named = |name: &str| all.whole.iter().find(|field| field.name == name);
        let byte = |field: Option<&Field>| field.map(|field| order[field.at]);
        let is_outside = |name: &str| named(name).is_some_and(|field| !field.allowed);
        match (number, all.cut) {
            (7, Some(cut)) if cut.at == order.len() => {
                self.add(format!("7 {sort} {} ends", cut.name));
            }
            (7, Some(cut)) => self.add(format!("7 {sort} {} cut", cut.name)),
            (7, None) => {
                self.add(format!("7 {sort} left over"));
                if byte(named("bits per pixel")) == Some(2) {
                    self.add("7 for bits without a color table that come with one");
                }
            }
            (8, _) => {
                if let Some(first) = all.whole.iter().find(|field| !field.allowed) {
                    self.add(format!("8 {sort} {}", first.name));
                }
                let cache = byte(named("cache id"));
                let is_cached = named("bits per pixel").is_none();
                match (is_outside("entry"), is_outside("cache id")) {
                    (true, true) if is_cached && cache == Some(0xFF) => {
                        self.add("8 for an entry beside FF in a cached icon");
                    }
                    (true, true) => self.add("8 for an entry and a cache id outside"),
                    (false, true) if cache == Some(0xFF) => self.add("8 for FF in a cached icon"),
                    _ => {}
                }
                let is_side = is_outside("icon width") || is_outside("icon height");
                if is_side && is_outside("color length") {
                    self.add("8 for a side beside a picture too large");
                }
            }
            _ => {
                let has_ff = byte(named("cache id")) == Some(0xFF);
                if has_ff && byte(named("entry")).is_some_and(|entry| entry > 5) {
                    self.add("an entry outside beside FF in an icon passes 8");
                }
            }
        }
    }
}

/// What sort of order it is, by its flags.
fn sort(order: &[u8]) -> Option<&'static str> {
    let flags = u32::from_le_bytes(order.get(3..7)?.try_into().ok()?);
    let has = |bits: u32| flags & bits != 0;
    let deleted = has(flags::DELETED);
    Some(match flags & flags::TYPES {
        flags::WINDOW if deleted => "delete window",
        flags::WINDOW if has(flags::OVERLAY) => match has(flags::ICON) {
            true => "overlay icon",
            false => "overlay cached icon",
        },
        flags::WINDOW => match (has(flags::ICON), has(flags::CACHED_ICON), has(flags::BIG)) {
            (true, _, false) => "small icon",
            (true, _, true) => "big icon",
            (_, true, false) => "small cached icon",
            (_, true, true) => "big cached icon",
            _ if has(flags::NEW) => "new window",
            _ => "update window",
        },
        flags::NOTIFICATION if deleted => "delete notification",
        flags::NOTIFICATION => match (has(flags::ICON), has(flags::CACHED_ICON), has(flags::NEW)) {
            (true, _, true) => "new notification with icon",
            (true, _, false) => "update notification with icon",
            (_, true, true) => "new notification with cached icon",
            (_, true, false) => "update notification with cached icon",
            (_, _, true) => "new notification",
            _ => "update notification",
        },
        flags::DESKTOP if has(flags::NONE) => "desktop none",
        flags::DESKTOP => "desktop",
        _ => return None,
    })
}
