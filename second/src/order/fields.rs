//! The fields of an order in carried order, each with its place: what is asked where an
//! order is at fault.

use super::flags;
use super::rules;

/// The bytes before the first field that flags bring.
pub const HEADER_SIZE: usize = 7;

/// A field: a single number, or a whole run of the bytes of a string or picture.
#[derive(Clone, Copy, Debug, PartialEq, Eq)]
pub struct Field {
    /// What it is.
    pub name: &'static str,
    /// Where it begins in the order.
    pub at: usize,
    /// Its bytes.
    pub size: usize,
    /// Whether its number, if it is one, is inside its set.
    pub allowed: bool,
}

/// The fields of an order from its ids on.
#[derive(Clone, Debug, Default, PartialEq, Eq)]
pub struct Fields {
    /// Those that fit whole, in carried order.
    pub whole: Vec<Field>,
    /// The first that does not, if there is one.
    pub cut: Option<Field>,
    /// Where the first byte left over, or the field that is cut, begins.
    pub end: usize,
}

/// What a flag brings.
enum Part {
    /// A number of so many bytes that may be any.
    Any(&'static str, usize),
    /// A number of 1 byte with a set.
    Set(&'static str, fn(u8) -> bool),
    /// A length of 2 bytes, and a run of so many, at most the limit.
    String([&'static str; 2], usize),
    /// A count of 2 bytes, and for each rectangle four numbers of 2.
    Rects([&'static str; 5]),
    /// A count of 1 byte, and for each id a number of 4.
    Ids([&'static str; 2]),
}

use Part::{Any, Ids, Rects, Set, String};

/// The fields of each window flag.
const WINDOW: [(u32, &[Part]); 21] = [
    (flags::OWNER, &[Any("owner", 4)]),
    (flags::STYLE, &[Any("style", 4), Any("extended style", 4)]),
    (flags::SHOW, &[Set("show state", rules::show_state)]),
    (
        flags::TITLE,
        &[String(["title length", "title"], rules::TITLE_LIMIT)],
    ),
    (
        flags::CLIENT_OFFSET,
        &[Any("client x", 4), Any("client y", 4)],
    ),
    (
        flags::CLIENT_SIZE,
        &[Any("client width", 4), Any("client height", 4)],
    ),
    (
        flags::MARGIN_X,
        &[Any("left margin", 4), Any("right margin", 4)],
    ),
    (
        flags::MARGIN_Y,
        &[Any("top margin", 4), Any("bottom margin", 4)],
    ),
    (flags::RP_CONTENT, &[Set("RPContent", rules::yes_or_no)]),
    (flags::ROOT_PARENT, &[Any("root parent", 4)]),
    (
        flags::WINDOW_OFFSET,
        &[Any("window x", 4), Any("window y", 4)],
    ),
    (flags::CLIENT_DELTA, &[Any("delta x", 4), Any("delta y", 4)]),
    (
        flags::WINDOW_SIZE,
        &[Any("window width", 4), Any("window height", 4)],
    ),
    (
        flags::WINDOW_RECTS,
        &[Rects([
            "window rectangles",
            "window left",
            "window top",
            "window right",
            "window bottom",
        ])],
    ),
    (
        flags::VISIBLE_OFFSET,
        &[Any("visible x", 4), Any("visible y", 4)],
    ),
    (
        flags::VISIBILITY,
        &[Rects([
            "visible rectangles",
            "visible left",
            "visible top",
            "visible right",
            "visible bottom",
        ])],
    ),
    (
        flags::OVERLAY_TEXT,
        &[String(
            ["overlay text length", "overlay text"],
            rules::OVERLAY_TEXT_LIMIT,
        )],
    ),
    (flags::TASKBAR, &[Set("taskbar", rules::yes_or_no)]),
    (flags::SERVER_Z, &[Set("server z", rules::yes_or_no)]),
    (flags::APP_BAR, &[Set("application bar", rules::yes_or_no)]),
    (flags::EDGE, &[Set("edge", rules::edge)]),
];

/// The fields of each notification flag.
const NOTIFICATION: [(u32, &[Part]); 4] = [
    (flags::VERSION, &[Any("version", 4)]),
    (
        flags::TIP,
        &[String(["tip length", "tip"], rules::TIP_LIMIT)],
    ),
    (
        flags::BALLOON,
        &[
            Any("timeout", 4),
            Any("balloon flags", 4),
            String(
                ["balloon text length", "balloon text"],
                rules::BALLOON_TEXT_LIMIT,
            ),
            String(
                ["balloon title length", "balloon title"],
                rules::BALLOON_TITLE_LIMIT,
            ),
        ],
    ),
    (flags::STATE, &[Any("state", 4)]),
];

/// The fields of each desktop flag.
const DESKTOP: [(u32, &[Part]); 2] = [
    (flags::ACTIVE, &[Any("active id", 4)]),
    (flags::STACK, &[Ids(["stack count", "stack id"])]),
];

/// The fields of an order whose header is whole and whose flags pass.
pub fn fields(order: &[u8]) -> Fields {
    let Some((header, _)) = order.split_first_chunk::<HEADER_SIZE>() else {
        return Fields::default();
    };
    let [_, _, _, ref flags @ ..] = *header;
    let mut walk = Walk {
        order,
        flags: u32::from_le_bytes(*flags),
        fields: Fields {
            end: HEADER_SIZE,
            ..Fields::default()
        },
    };
    // The walk stops at a field that is cut, which then is the last one.
    let _stopped = walk.all();
    walk.fields
}

/// A walk through the fields, which stops with none at one that is cut.
struct Walk<'a> {
    order: &'a [u8],
    flags: u32,
    fields: Fields,
}

impl Walk<'_> {
    fn all(&mut self) -> Option<()> {
        let parts: &[(u32, &[Part])] = match self.flags & flags::TYPES {
            flags::WINDOW => {
                self.any("window id", 4)?;
                &WINDOW
            }
            flags::NOTIFICATION => {
                self.any("window id", 4)?;
                self.any("notify-icon id", 4)?;
                &NOTIFICATION
            }
            _ => &DESKTOP,
        };
        for (flag, of_flag) in parts {
            if self.has(*flag) {
                of_flag.iter().try_for_each(|part| self.part(part))?;
            }
        }
        if self.has(flags::TYPES & !flags::DESKTOP) && self.has(flags::ICON) {
            self.icon()?;
        }
        if self.has(flags::TYPES & !flags::DESKTOP) && self.has(flags::CACHED_ICON) {
            self.cell(false)?;
        }
        Some(())
    }

    fn has(&self, flags: u32) -> bool {
        self.flags & flags != 0
    }

    fn part(&mut self, part: &Part) -> Option<()> {
        match *part {
            Any(name, size) => self.any(name, size).map(drop),
            Set(name, set) => {
                let number = self.any(name, 1)?;
                self.rule(set(number as u8));
                Some(())
            }
            String([length, run], limit) => {
                let size = self.any(length, 2)?;
                self.rule(rules::string(size, limit));
                self.run(run, size)
            }
            Rects([count, sides @ ..]) => {
                let rects = self.any(count, 2)?;
                self.rule(rules::rects(rects));
                for _ in 0..rects {
                    for side in sides {
                        self.any(side, 2)?;
                    }
                }
                Some(())
            }
            Ids([count, id]) => {
                let ids = self.any(count, 1)?;
                self.rule(rules::stack(ids));
                for _ in 0..ids {
                    self.any(id, 4)?;
                }
                Some(())
            }
        }
    }

    fn icon(&mut self) -> Option<()> {
        self.cell(true)?;
        let bits = self.any("bits per pixel", 1)?;
        self.rule(rules::bits_per_pixel(bits as u8));
        for name in ["icon width", "icon height"] {
            let side = self.any(name, 2)?;
            self.rule(rules::side(side as u16));
        }
        let table = match bits {
            1 | 4 | 8 => self.any("color table length", 2)?,
            _ => 0,
        };
        let mask = self.any("mask length", 2)?;
        let color = self.any("color length", 2)?;
        // Only all three together have a limit, and the last of them is told.
        self.rule(rules::picture_size(mask + table + color));
        self.run("mask", mask)?;
        self.run("color table", table)?;
        self.run("color", color)
    }

    /// Entry and cache id; of an icon, whatever its entry, FF passes.
    fn cell(&mut self, is_icon: bool) -> Option<()> {
        let entry = self.any("entry", 2)?;
        let cache = self.peek(1).map(|bytes| bytes[0]);
        let passes = is_icon && cache == Some(rules::NO_CACHE);
        self.rule(entry < rules::CELLS || passes);
        let cache = self.any("cache id", 1)?;
        self.rule(cache < rules::CACHES || passes);
        Some(())
    }

    /// The next bytes, if there are so many.
    fn peek(&self, size: usize) -> Option<&[u8]> {
        self.order.get(self.fields.end..)?.get(..size)
    }

    /// A number, whatever it is.
    fn any(&mut self, name: &'static str, size: usize) -> Option<usize> {
        let number = self.peek(size).map(|bytes| {
            let wider = |number: usize, &byte: &u8| number << 8 | usize::from(byte);
            bytes.iter().rev().fold(0, wider)
        });
        self.run(name, size)?;
        number
    }

    /// A field of so many bytes.
    fn run(&mut self, name: &'static str, size: usize) -> Option<()> {
        let field = Field {
            name,
            at: self.fields.end,
            size,
            allowed: true,
        };
        if self.peek(size).is_none() {
            self.fields.cut = Some(field);
            return None;
        }
        self.fields.end += size;
        self.fields.whole.push(field);
        Some(())
    }

    /// Whether the last field's number is inside its set.
    fn rule(&mut self, allowed: bool) {
        if let Some(field) = self.fields.whole.last_mut() {
            field.allowed = allowed;
        }
    }
}
