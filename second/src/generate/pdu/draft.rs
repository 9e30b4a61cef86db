//! Messages in the making, whose fields may be outside what the rules allow.

use crate::generate::random::Random;

/// A field by what it may hold.
#[derive(Clone, Copy, Debug, PartialEq, Eq)]
enum Slot {
    Any4,
    Any2,
    Position,
    Any1,
    // The number of a setting.
    Setting(u32),
    // The length of what follows in high contrast: that of the string and 2.
    Outer,
    Flags,
    Enabled,
    Command,
    Start,
    MoveType,
    ExecResult,
    Padding,
    // Lengths of the strings that follow the fields.
    Program,
    Directory,
    Arguments,
    Echo,
    Id,
    Scheme,
}

use Slot::*;

/// Each type with its fields.
const KINDS: [(u16, &[Slot]); 24] = [
    (0x0001, &[Flags, Program, Directory, Arguments]),
    (0x0002, &[Any4, Enabled]),
    (0x0004, &[Any4, Command]),
    (0x0005, &[Any4]),
    (0x0006, &[Any4, Any4, Any4]),
    (0x0008, &[Any4, Position, Position, Position, Position]),
    (0x0009, &[Any4, Start, MoveType, Position, Position]),
    (
        0x000A,
        &[Any4, Any2, Any2, Position, Position, Any2, Any2, Any2, Any2],
    ),
    (0x000B, &[Any4]),
    (0x000C, &[Any4, Position, Position]),
    (0x000E, &[Any4]),
    (APPLICATION_ID, &[Any4, Id]),
    (0x0080, &[Any2, ExecResult, Any4, Padding, Echo]),
    (0x0013, &[Any4, Any4]),
    (0x0003, &[Setting(0x11), Any1]),
    (0x0003, &[Setting(0x21), Any1]),
    (0x0003, &[Setting(0x25), Any1]),
    (0x0003, &[Setting(0x45), Any1]),
    (0x0003, &[Setting(0x77), Any1]),
    (0x0003, &[Setting(0x100B), Any1]),
    (0x0003, &[Setting(0x2F), Any2, Any2, Any2, Any2]),
    (0x0003, &[Setting(0xF000), Any2, Any2, Any2, Any2]),
    (0x0003, &[Setting(0xF001), Any2, Any2, Any2, Any2]),
    (0x0003, CONTRAST),
];

const CONTRAST: &[Slot] = &[Setting(0x43), Any4, Outer, Scheme];

/// Numbers that are no setting: beside one, one with a bit more, far from all.
#[rustfmt::skip]
const NO_SETTINGS: [u32; 20] = [
    0x0000_0000, 0x0000_0010, 0x0000_0012, 0x0000_0020, 0x0000_0024, 0x0000_0026, 0x0000_0030,
    0x0000_0042, 0x0000_0044, 0x0000_0099, 0x0000_100A, 0x0000_0B10, 0x0000_F002, 0x0001_0025,
    0x0001_0043, 0x0001_F000, 0x8000_0077, 0x1100_0000, 0x2F00_0000, 0xFFFF_FFFF,
];

const APPLICATION_ID: u16 = 0x000F;
const APPLICATION_ID_MESSAGE: usize = 528;

impl Slot {
    /// Bytes in a message and in a `P` item.
    fn widths(self) -> (usize, usize) {
        match self {
            Any4 | Setting(_) => (4, 4),
            Outer => (4, 0),
            Enabled | Any1 => (1, 1),
            Start => (2, 1),
            Padding => (2, 0),
            Id => (0, 2),
            _ => (2, 2),
        }
    }

    fn is_length(self) -> bool {
        matches!(self, Program | Directory | Arguments | Echo | Id | Scheme)
    }

    /// A number that the rules allow.
    fn usual(self, random: &mut Random) -> u32 {
        match self {
            Any4 => random.number(0xFFFF_FFFF),
            Any2 => random.number(0xFFFF),
            // The least, the greatest, -1, -100, else any.
            Position if random.chance(40) => random.pick(&[0x8000, 0x7FFF, 0xFFFF, 0xFF9C]),
            Position => random.number(0xFFFF),
            Any1 => random.number(0xFF),
            Setting(number) => number,
            // Set when its string is known.
            Outer => 0,
            Flags => random.pick(&[0, 1, 4, 5, 6, 7, 8, 9, 12, 14, 15, 16, 20, 24, 30, 31]),
            Enabled => random.pick(&[0, 1]),
            Command => random.pick(&[
                0xF000, 0xF010, 0xF020, 0xF030, 0xF060, 0xF100, 0xF120, 0xF160,
            ]),
            Start => random.pick(&[0, 1, 2, 0x100, 0xFFFF]),
            MoveType => 1 + random.below(11) as u32,
            ExecResult => random.pick(&[0, 1, 2, 3, 5, 6, 7]),
            Padding => random.pick(&[0, 0, 1, 0x100, 0xFFFF]),
            Program => 2 + 2 * random.below(20) as u32,
            Directory => 2 * random.below(20) as u32,
            Arguments if random.chance(2) => 2 * random.below(1000) as u32,
            Arguments => 2 * random.below(30) as u32,
            Echo => 1 + random.below(40) as u32,
            Id | Scheme => random.below(60) as u32,
        }
    }

    /// The numbers at the limits of the field and beside them.
    fn edges(self) -> &'static [u32] {
        match self {
            Any4 | Any2 | Position | Setting(_) | Outer => &[],
            Any1 => &[0, 0xFF],
            Flags => &FLAG_EDGES,
            Enabled => &[0, 1, 2, 3, 0x80, 0xFF],
            Command => &COMMAND_EDGES,
            Start => &[0, 1, 2, 0xFF, 0x100, 0x8000, 0xFFFF],
            MoveType => &[0, 1, 2, 9, 10, 11, 12, 13, 0x100, 0x10B, 0xFFFF],
            ExecResult => &[0, 1, 2, 3, 4, 5, 6, 7, 8, 0x100, 0x105, 0xFFFF],
            Padding => &[0, 1, 0x100, 0xFFFF],
            Program => &[0, 1, 2, 3, 518, 519, 520, 521, 522],
            Directory => &[0, 1, 2, 3, 518, 519, 520, 521, 522],
            Arguments => &[0, 1, 2, 3, 520, 522, 15_998, 15_999, 16_000, 16_001, 16_002],
            Scheme => &[0, 1, 2, 518, 519, 520, 521, 522, 600],
            Echo => &[0, 1, 2, 3, 518, 519, 520, 521, 522],
            Id => &[0, 1, 2, 511, 512, 513, 518, 519, 520, 521, 522, 600],
        }
    }
}

/// 0 to 20 (hex), then some flags above.
const FLAG_EDGES: [u32; 40] = {
    let mut edges = [0; 40];
    let mut i = 0;
    while i <= 0x20 {
        edges[i] = i as u32;
        i += 1;
    }
    let above = [0x24, 0x30, 0x40, 0x80, 0x100, 0x8000, 0xFFFF];
    while i < 40 {
        edges[i] = above[i - 0x21];
        i += 1;
    }
    edges
};

/// Each command with its neighbours, and the gaps in their row.
#[rustfmt::skip]
const COMMAND_EDGES: [u32; 31] = [
    0xEFFF, 0xF000, 0xF001, 0xF00F, 0xF010, 0xF011, 0xF01F, 0xF020, 0xF021, 0xF02F, 0xF030,
    0xF031, 0xF040, 0xF050, 0xF05F, 0xF060, 0xF061, 0xF0FF, 0xF100, 0xF101, 0xF110, 0xF11F,
    0xF120, 0xF121, 0xF15F, 0xF160, 0xF161, 0x0000, 0x00F0, 0x20F0, 0xFFFF,
];

/// A message in the making.
pub struct Draft {
    kind: u16,
    fields: Vec<(Slot, u32)>,
    strings: Vec<Vec<u8>>,
}

impl Draft {
    /// A message of any kind that the rules allow.
    pub fn usual(random: &mut Random) -> Self {
        let (kind, slots) = random.pick(&KINDS);
        Self::new(kind, slots, &[], random)
    }

    /// A message with one field at or beside a limit, all others allowed.
    pub fn at_edge(random: &mut Random) -> Self {
        let all: Vec<(u16, &[Slot], Slot, u32)> = KINDS
            .iter()
            .flat_map(|&(kind, slots)| slots.iter().map(move |&slot| (kind, slots, slot)))
            .flat_map(|(kind, slots, slot)| {
                slot.edges()
                    .iter()
                    .map(move |&edge| (kind, slots, slot, edge))
            })
            .collect();
        loop {
            let (kind, slots, slot, edge) = random.pick(&all);
            // Big strings are kept rare.
            if edge < 2_000 || !slot.is_length() || random.chance(26) {
                return Self::new(kind, slots, &[(slot, edge)], random);
            }
        }
    }

    /// An Execute with strings of these lengths.
    pub fn execute(lengths: [u32; 3], random: &mut Random) -> Self {
        let (kind, slots) = KINDS[0];
        let [program, directory, arguments] = lengths;
        let fixed = [
            (Program, program),
            (Directory, directory),
            (Arguments, arguments),
        ];
        Self::new(kind, slots, &fixed, random)
    }

    /// An Execute of the program of this name.
    pub fn program(flags: u32, name: Vec<u8>, random: &mut Random) -> Self {
        let (kind, slots) = KINDS[0];
        let fixed = [(Flags, flags), (Program, name.len() as u32)];
        let mut draft = Self::new(kind, slots, &fixed, random);
        draft.strings[0] = name;
        draft
    }

    fn new(kind: u16, slots: &[Slot], fixed: &[(Slot, u32)], random: &mut Random) -> Self {
        let mut draft = Self {
            kind,
            fields: Vec::new(),
            strings: Vec::new(),
        };
        for &slot in slots {
            let value = match fixed.iter().find(|(at, _)| *at == slot) {
                Some(&(_, value)) => value,
                None => slot.usual(random),
            };
            draft.fields.push((slot, value));
            if slot.is_length() {
                draft.strings.push(random.bytes(value as usize));
            }
        }
        draft.agree();
        draft
    }

    /// High contrast with a string of this length.
    pub fn contrast(length: u32, random: &mut Random) -> Self {
        Self::new(0x0003, CONTRAST, &[(Scheme, length)], random)
    }

    /// Makes the outer length of high contrast that of its string and 2.
    fn agree(&mut self) {
        let scheme = self.fields.iter().find(|(slot, _)| *slot == Scheme);
        let Some(&(_, length)) = scheme else { return };
        for (slot, value) in &mut self.fields {
            if *slot == Outer {
                *value = length + 2;
            }
        }
    }

    /// Changes a length without its string; says whether the message has one.
    pub fn missay_length(&mut self, random: &mut Random) -> bool {
        let lengths: Vec<usize> = (0..self.fields.len())
            .filter(|&at| self.fields[at].0.is_length() && self.fields[at].0 != Id)
            .collect();
        if lengths.is_empty() {
            return false;
        }
        if lengths.len() > 1 && random.chance(15) {
            // The sum is 65,536 too many, and right if taken in 16 bits.
            self.fields[lengths[0]].1 ^= 0x8000;
            self.fields[lengths[1]].1 ^= 0x8000;
            return true;
        }
        let value = &mut self.fields[random.pick(&lengths)].1;
        *value = match random.below(8) {
            0 => random.number(0xFFFF),
            1..=3 => value.wrapping_add(1),
            _ => value.wrapping_sub(1),
        } & 0xFFFF;
        true
    }

    /// The message's bytes, its header's length that of the whole.
    pub fn message(&self) -> Vec<u8> {
        let mut message = Vec::new();
        message.extend_from_slice(&self.kind.to_le_bytes());
        message.extend_from_slice(&[0; 2]);
        self.push_fields(&mut message, |slot| slot.widths().0);
        if self.kind == APPLICATION_ID {
            message.resize(APPLICATION_ID_MESSAGE, 0);
        }
        declare_length(&mut message);
        message
    }

    /// A `P` item's payload: the size of the memory lent, type and fields.
    pub fn payload(&self, size: u16) -> Vec<u8> {
        let mut payload = Vec::new();
        payload.extend_from_slice(&size.to_le_bytes());
        payload.extend_from_slice(&self.kind.to_le_bytes());
        self.push_fields(&mut payload, |slot| slot.widths().1);
        payload
    }

    fn push_fields(&self, bytes: &mut Vec<u8>, width: impl Fn(Slot) -> usize) {
        for &(slot, value) in &self.fields {
            bytes.extend_from_slice(&value.to_le_bytes()[..width(slot)]);
        }
        for string in &self.strings {
            bytes.extend_from_slice(string);
        }
    }
}

/// A number that is no setting.
pub fn no_setting(random: &mut Random) -> u32 {
    random.pick(&NO_SETTINGS)
}

/// Sets the length in a message's header to that of its bytes.
pub fn declare_length(message: &mut [u8]) {
    let length = message.len() as u16;
    if let Some(declared) = message.get_mut(2..4) {
        declared.copy_from_slice(&length.to_le_bytes());
    }
}
