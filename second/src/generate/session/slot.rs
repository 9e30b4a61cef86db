//! The fields of orders by what they may hold.

use crate::generate::random::Random;

/// A field.
#[derive(Clone, Copy, Debug, PartialEq, Eq)]
pub enum Slot {
    Any,
    Offset,
    Id,
    Show,
    RpContent,
    Taskbar,
    ServerZ,
    AppBar,
    Edge,
    // Lengths and counts whose bytes follow at once.
    Title,
    WindowRects,
    VisibleRects,
    OverlayText,
    Tip,
    BalloonText,
    BalloonTitle,
    Stack,
    // An icon's, the last three lengths of what follows them all.
    Entry,
    Cache,
    Bits,
    Width,
    Height,
    ColorTable,
    Mask,
    Color,
    // A cached icon's.
    CachedEntry,
    CachedCache,
}

use Slot::*;

/// A flag and the fields that it brings.
pub type FlagFields = (u32, &'static [Slot]);

/// The fields of each window flag, in carried order.
pub const WINDOW_FIELDS: [FlagFields; 22] = [
    (0x0000_0002, &[Id]),
    (0x0000_0008, &[Any, Any]),
    (0x0000_0010, &[Show]),
    (0x0000_0004, &[Title]),
    (0x0000_4000, &[Offset, Offset]),
    (0x0001_0000, &[Any, Any]),
    (0x0000_0080, &[Any, Any]),
    (0x0800_0000, &[Any, Any]),
    (0x0002_0000, &[RpContent]),
    (0x0004_0000, &[Id]),
    (0x0000_0800, &[Offset, Offset]),
    (0x0000_8000, &[Offset, Offset]),
    (0x0000_0400, &[Any, Any]),
    (0x0000_0100, &[WindowRects]),
    (0x0000_1000, &[Offset, Offset]),
    (0x0000_0200, &[VisibleRects]),
    (0x0040_0000, &[OverlayText]),
    (0x0080_0000, &[Taskbar]),
    (0x0008_0000, &[ServerZ]),
    (0x0000_0040, &[AppBar]),
    (0x0000_0001, &[Edge]),
    // The overlay icon becomes none; nothing is carried.
    (0x0020_0000, &[]),
];

/// The fields of each notification flag, in carried order.
pub const NOTIFICATION_FIELDS: [FlagFields; 4] = [
    (0x8, &[Any]),
    (0x1, &[Tip]),
    (0x2, &[Any, Any, BalloonText, BalloonTitle]),
    (0x4, &[Any]),
];

/// The fields of each desktop flag, in carried order.
pub const DESKTOP_FIELDS: [FlagFields; 2] = [(0x20, &[Id]), (0x10, &[Stack])];

/// An icon's fields; the color table's length is not always there.
pub const ICON_FIELDS: [Slot; 8] = [Entry, Cache, Bits, Width, Height, ColorTable, Mask, Color];

/// A cached icon's fields.
pub const CACHED_FIELDS: [Slot; 2] = [CachedEntry, CachedCache];

impl Slot {
    /// The bytes of the number itself.
    pub fn width(self) -> usize {
        match self {
            Any | Offset | Id => 4,
            Show | RpContent | Taskbar | ServerZ | AppBar | Edge | Stack | Cache | Bits
            | CachedCache => 1,
            _ => 2,
        }
    }

    /// The bytes that follow for each that the number counts.
    pub fn unit(self) -> usize {
        match self {
            Title | OverlayText | Tip | BalloonText | BalloonTitle | ColorTable | Mask | Color => 1,
            WindowRects | VisibleRects => 8,
            Stack => 4,
            _ => 0,
        }
    }

    /// Whether what it counts stands at the order's end.
    pub fn counts_end(self) -> bool {
        matches!(self, ColorTable | Mask | Color)
    }

    /// A number that the rules allow.
    pub fn usual(self, random: &mut Random) -> u32 {
        let below = |random: &mut Random, limit| random.below(limit) as u32;
        match self {
            Any => random.number(u32::MAX),
            // The least, the greatest, -1, -100, else any.
            Offset if random.chance(42) => {
                random.pick(&[0x8000_0000, 0x7FFF_FFFF, 0xFFFF_FFFF, 0xFFFF_FF9C])
            }
            Offset => random.number(u32::MAX),
            Id => pool_id(random),
            Show => random.pick(&[0, 2, 3, 5]),
            RpContent | Taskbar | ServerZ | AppBar => below(random, 2),
            Edge => below(random, 4),
            Title | OverlayText => 2 * below(random, 24),
            WindowRects | VisibleRects => below(random, 4),
            Tip | BalloonText => 2 * below(random, 16),
            BalloonTitle => 2 * below(random, 10),
            Stack => below(random, 8),
            Entry | CachedEntry => below(random, 6),
            Cache | CachedCache => below(random, 2),
            Bits => random.pick(&[1, 4, 8, 16, 24, 32]),
            Width | Height => 1 + below(random, 32),
            ColorTable => below(random, 20),
            Mask => below(random, 30),
            Color => below(random, 60),
        }
    }

    /// The numbers at the limits of the field and beside them.
    pub fn edges(self) -> &'static [u32] {
        match self {
            Any | Offset | Id => &[],
            Show => &[0, 1, 2, 3, 4, 5, 6, 255],
            RpContent | Taskbar | ServerZ | AppBar => &[0, 1, 2, 255],
            Edge => &[0, 1, 2, 3, 4, 255],
            Title | OverlayText => &[0, 1, 2, 518, 519, 520, 521, 522],
            WindowRects | VisibleRects => &[0, 1, 15, 16, 17, 18],
            Tip => &[0, 1, 2, 254, 255, 256, 257, 258],
            BalloonText => &[0, 1, 2, 508, 509, 510, 511, 512],
            BalloonTitle => &[0, 1, 2, 124, 125, 126, 127, 128],
            Stack => &[0, 1, 63, 64, 65, 66, 255],
            Entry | CachedEntry => &[0, 5, 6, 255, 256, 65_535],
            Cache | CachedCache => &[0, 1, 2, 254, 255],
            Bits => &[0, 1, 2, 3, 4, 5, 8, 15, 16, 17, 24, 25, 31, 32, 33, 255],
            Width | Height => &[0, 1, 2, 31, 32, 33, 255, 256, 65_535],
            ColorTable | Mask | Color => &[0, 1, 4_224, 4_225],
        }
    }
}

/// An id as windows here have it: few, so that they come again.
pub fn pool_id(random: &mut Random) -> u32 {
    match random.below(50) {
        0 => 0,
        1 => u32::MAX,
        n => 0x0001_0050 + 2 * n as u32,
    }
}

/// A notify-icon id, of the same sort and from a part of the same numbers.
pub fn pool_icon_id(random: &mut Random) -> u32 {
    match random.below(12) {
        0 => 0,
        1 => u32::MAX,
        n => 0x0001_0050 + 2 * n as u32,
    }
}
