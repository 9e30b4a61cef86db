//! Orders at fault in a field on purpose: each field of every sort of order cut, left out
//! or outside its set.

use crate::generate::random::Random;
use crate::generate::session::draft::{declare_size, Draft};
use crate::generate::session::slot::{
    FlagFields, Slot, DESKTOP_FIELDS, NOTIFICATION_FIELDS, WINDOW_FIELDS,
};
use crate::generate::session::Maker;
use crate::order::fields::{fields, Field};
use crate::order::flags;

/// A sort of order: its name, the flags that it has, and those that bring it fields.
pub struct Sort {
    /// What it is.
    pub name: &'static str,
    flags: u32,
    fields: &'static [FlagFields],
}

const fn sort(name: &'static str, flags: u32, fields: &'static [FlagFields]) -> Sort {
    Sort {
        name,
        flags,
        fields,
    }
}

const NEW_ICON: u32 = flags::NOTIFICATION | flags::NEW;

/// Every sort of order.
#[rustfmt::skip]
pub const SORTS: [Sort; 18] = [
    sort("new window", flags::WINDOW | flags::NEW, &WINDOW_FIELDS),
    sort("update window", flags::WINDOW, &WINDOW_FIELDS),
    sort("delete window", flags::WINDOW | flags::DELETED, &[]),
    sort("small icon", flags::WINDOW | flags::ICON, &[]),
    sort("big icon", flags::WINDOW | flags::ICON | flags::BIG, &[]),
    sort("overlay icon", flags::WINDOW | flags::ICON | flags::OVERLAY, &[]),
    sort("small cached icon", flags::WINDOW | flags::CACHED_ICON, &[]),
    sort("big cached icon", flags::WINDOW | flags::CACHED_ICON | flags::BIG, &[]),
    sort("overlay cached icon", flags::WINDOW | flags::CACHED_ICON | flags::OVERLAY, &[]),
    sort("new notification", NEW_ICON, &NOTIFICATION_FIELDS),
    sort("new notification with icon", NEW_ICON | flags::ICON, &NOTIFICATION_FIELDS),
    sort("new notification with cached icon", NEW_ICON | flags::CACHED_ICON, &NOTIFICATION_FIELDS),
    sort("update notification", flags::NOTIFICATION, &NOTIFICATION_FIELDS),
    sort("update notification with icon", flags::NOTIFICATION | flags::ICON, &NOTIFICATION_FIELDS),
    sort("update notification with cached icon", flags::NOTIFICATION | flags::CACHED_ICON, &NOTIFICATION_FIELDS),
    sort("delete notification", flags::NOTIFICATION | flags::DELETED, &[]),
    sort("desktop none", flags::DESKTOP | flags::NONE, &[]),
    sort("desktop", flags::DESKTOP, &DESKTOP_FIELDS),
];

/// What is wrong with an order.
#[derive(Clone, Copy, Debug, PartialEq, Eq)]
pub enum Fault {
    /// It ends where this field begins.
    Ends(&'static str),
    /// It ends inside this field.
    Cut(&'static str),
    /// Bytes are left over.
    Over,
    /// The number of this field is outside its set, and that of none before it.
    Outside(&'static str),
}

/// The numbers outside the set of a field, by its name.
const OUTSIDE: [(&str, Slot, &[u32]); 21] = [
    ("show state", Slot::Show, &[1, 4, 6, 255]),
    ("title length", Slot::Title, &[1, 519, 521, 522]),
    ("RPContent", Slot::RpContent, &[2, 255]),
    ("window rectangles", Slot::WindowRects, &[17, 18, 40]),
    ("visible rectangles", Slot::VisibleRects, &[17, 18, 40]),
    (
        "overlay text length",
        Slot::OverlayText,
        &[1, 519, 521, 522],
    ),
    ("taskbar", Slot::Taskbar, &[2, 255]),
    ("server z", Slot::ServerZ, &[2, 255]),
    ("application bar", Slot::AppBar, &[2, 255]),
    ("edge", Slot::Edge, &[4, 255]),
    ("tip length", Slot::Tip, &[1, 255, 257, 258]),
    (
        "balloon text length",
        Slot::BalloonText,
        &[1, 509, 511, 512],
    ),
    (
        "balloon title length",
        Slot::BalloonTitle,
        &[1, 125, 127, 128],
    ),
    ("stack count", Slot::Stack, &[65, 66, 255]),
    ("entry", Slot::Entry, &[6, 255, 256, 65_535]),
    ("cache id", Slot::Cache, &[2, 254]),
    ("bits per pixel", Slot::Bits, &[0, 2, 15, 33, 255]),
    ("icon width", Slot::Width, &[0, 33, 256, 65_535]),
    ("icon height", Slot::Height, &[0, 33, 256, 65_535]),
    ("color length", Slot::Color, &[4_225]),
    ("entry", Slot::CachedEntry, &[6, 255, 256, 65_535]),
];

/// Every sort with every fault that it can have, in a fixed order.
pub fn targets() -> Vec<(&'static Sort, Fault)> {
    let mut targets = Vec::new();
    // Any seed will do: which fields there are depends on the flags and on the bits alone,
    // and each run of a picture has two bytes, so that it can be cut.
    let mut random = Random::new(0);
    let runs = [Slot::ColorTable, Slot::Mask, Slot::Color].map(|slot| (slot, 2));
    let fixed = [&runs[..], &[(Slot::Bits, 8)]].concat();
    for sort in &SORTS {
        let order = whole(sort, sort.all(), &fixed, &mut random);
        let mut names: Vec<&'static str> = Vec::new();
        for field in fields(&order).whole {
            if names.contains(&field.name) {
                continue;
            }
            names.push(field.name);
            targets.push((sort, Fault::Ends(field.name)));
            if field.size > 1 {
                targets.push((sort, Fault::Cut(field.name)));
            }
            let has_set = OUTSIDE.iter().any(|(name, ..)| *name == field.name);
            if has_set || field.name == "cache id" {
                targets.push((sort, Fault::Outside(field.name)));
            }
        }
        targets.push((sort, Fault::Over));
    }
    targets
}

impl Sort {
    /// All flags that bring it fields.
    fn all(&self) -> u32 {
        self.fields.iter().fold(0, |flags, (flag, _)| flags | flag)
    }

    fn is_cached(&self) -> bool {
        self.flags & flags::CACHED_ICON != 0
    }
}

/// An order of a sort with a fault; its ids are listed or not, as it comes.
pub fn at_fault(sort: &Sort, fault: Fault, random: &mut Random) -> Vec<u8> {
    let wanted = match fault {
        Fault::Ends(name) | Fault::Cut(name) | Fault::Outside(name) => Some(name),
        Fault::Over => None,
    };
    let fixed = match fault {
        Fault::Outside(name) => outside(name, sort.is_cached(), random),
        Fault::Ends("color table length" | "color table")
        | Fault::Cut("color table length" | "color table") => {
            vec![(Slot::Bits, random.pick(&[1, 4, 8]))]
        }
        _ => Vec::new(),
    };
    loop {
        let some = random.bits() as u32 & random.bits() as u32 & sort.all();
        let more = random.pick(&[some, some, sort.all()]);
        let mut order = whole(sort, more, &fixed, random);
        let is_cut = matches!(fault, Fault::Cut(_));
        let with_name: Vec<Field> = fields(&order)
            .whole
            .into_iter()
            .filter(|field| Some(field.name) == wanted && (field.size > 1 || !is_cut))
            .collect();
        if wanted.is_some() && with_name.is_empty() {
            continue;
        }
        match fault {
            Fault::Ends(_) => order.truncate(with_name[random.below(with_name.len())].at),
            Fault::Cut(_) => {
                let field = with_name[random.below(with_name.len())];
                order.truncate(field.at + 1 + random.below(field.size - 1));
            }
            Fault::Over => {
                let more = random.pick(&[1, 1, 2, 4, 9]);
                order.extend(random.bytes(more));
            }
            Fault::Outside(_) => {}
        }
        declare_size(&mut order);
        return order;
    }
}

/// The fixed numbers of an order that has this field outside its set; later ones are
/// outside theirs at times.
fn outside(name: &str, is_cached: bool, random: &mut Random) -> Vec<(Slot, u32)> {
    let mut fixed = Vec::new();
    match (name, is_cached) {
        ("cache id", true) => fixed.push((Slot::CachedCache, random.pick(&[2, 254, 255]))),
        ("entry", true) => {
            fixed.push((Slot::CachedEntry, random.pick(&[6, 255, 256, 65_535])));
            fixed.push((Slot::CachedCache, random.pick(&[0, 1, 2, 255])));
        }
        ("color length", _) => {
            let [a, b, c] = random.pick(&[[0, 0, 4_225], [4_225, 0, 0], [2_000, 225, 2_000]]);
            fixed.extend([(Slot::Mask, a), (Slot::ColorTable, b), (Slot::Color, c)]);
            let bits: &[u32] = if b > 0 { &[1, 4, 8] } else { &[1, 8, 16, 32] };
            fixed.push((Slot::Bits, random.pick(bits)));
        }
        _ => {
            let of_name = OUTSIDE.iter().position(|(other, ..)| *other == name);
            let at = of_name.expect("a field with a set");
            let (_, slot, numbers) = OUTSIDE[at];
            fixed.push((slot, random.pick(numbers)));
            if slot == Slot::Entry {
                fixed.push((Slot::Cache, random.pick(&[0, 1, 2, 254])));
            }
            if random.chance(40) {
                for (_, slot, numbers) in &OUTSIDE[at + 1..] {
                    if random.chance(30) && *slot != Slot::Color {
                        fixed.push((*slot, random.pick(numbers)));
                    }
                }
            }
        }
    }
    // Of two for one field the first counts.
    fixed
}

/// An order whose fields fill it, with strings and lists that are not empty.
fn whole(sort: &Sort, more: u32, fixed: &[(Slot, u32)], random: &mut Random) -> Vec<u8> {
    let ids: &[u32] = match sort.flags & flags::TYPES {
        flags::WINDOW => &[0x0001_0058],
        flags::NOTIFICATION => &[0x0001_0058, 0x0001_0052],
        _ => &[],
    };
    let mut fixed = fixed.to_vec();
    let mut some = |slot, least: u32, limit| {
        let number = least * (1 + random.below(limit) as u32);
        fixed.push((slot, number));
    };
    some(Slot::Title, 2, 20);
    some(Slot::OverlayText, 2, 20);
    some(Slot::Tip, 2, 20);
    some(Slot::BalloonText, 2, 20);
    some(Slot::BalloonTitle, 2, 10);
    some(Slot::WindowRects, 1, 4);
    some(Slot::VisibleRects, 1, 4);
    some(Slot::Stack, 1, 6);
    some(Slot::Mask, 1, 20);
    some(Slot::ColorTable, 1, 20);
    some(Slot::Color, 1, 20);
    Draft::new(sort.flags | more, ids, &fixed, random).order(random)
}

impl Maker<'_> {
    /// An order about which the papers leave room, or nearly: both numbers of a cell
    /// outside, FF, a side beside too large a picture, bits without a color table that
    /// come with one.
    pub fn special(&mut self) -> Vec<u8> {
        let (icon, cached) = (flags::ICON, flags::CACHED_ICON);
        let kind = flags::WINDOW | self.random.pick(&[0, flags::BIG, flags::OVERLAY]);
        let id = self.listed_window().unwrap_or(7);
        let (picture, fixed): (u32, &[(Slot, u32)]) = match self.random.below(7) {
            0 => (icon, &[(Slot::Entry, 6), (Slot::Cache, 255)]),
            1 => (icon, &[(Slot::Entry, 6), (Slot::Cache, 2)]),
            2 => (cached, &[(Slot::CachedEntry, 6), (Slot::CachedCache, 255)]),
            3 => (cached, &[(Slot::CachedEntry, 5), (Slot::CachedCache, 255)]),
            4 => (icon, &[(Slot::Width, 33), (Slot::Mask, 4_225)]),
            5 => (icon, &[(Slot::Height, 0), (Slot::Color, 4_225)]),
            _ => {
                let eight = [(Slot::Bits, 8), (Slot::ColorTable, 4)];
                let mut order = self.draft(kind | icon, &[id], &eight).order(self.random);
                order[14] = 2;
                return order;
            }
        };
        self.draft(kind | picture, &[id], fixed).order(self.random)
    }
}
