//! The memory that a program lends: parts of state memory, whose lengths are its own, and
//! after them in number the parts of the store. The book keeps no memory; lengths only
//! tell which `T` and `X` items are bad, how many places are lent, and how long `Z` is.

use std::ops::Range;

use crate::memory;
use crate::table::PLACE_SIZE;

/// The most bytes of a part.
pub const PART_LIMIT: u32 = 65_536;
/// The most parts that an item can name.
const PARTS_LIMIT: usize = 256;

/// The parts of the store.
pub const STORE_PARTS: usize = 5;

/// The lengths of the parts of the store.
pub type StoreLengths = [u32; STORE_PARTS];

/// Their lengths at first: 15, 15, 15, 15 and 4 places, to the byte.
pub const FIRST_LENGTHS: StoreLengths = [63_360, 63_360, 63_360, 63_360, 16_896];

/// The places that fit a part whole.
pub fn places_of(length: u32) -> usize {
    length as usize / PLACE_SIZE
}

/// The places of a store, each part counted by itself.
pub fn places(lengths: &StoreLengths) -> usize {
    lengths.iter().map(|&length| places_of(length)).sum()
}

/// Where the first `count` places lie: the part of each, and which of that part it is.
pub fn first_places(lengths: &StoreLengths, count: usize) -> Vec<(usize, usize)> {
    let in_part = |(part, &length): (usize, &u32)| (0..places_of(length)).map(move |at| (part, at));
    lengths
        .iter()
        .enumerate()
        .flat_map(in_part)
        .take(count)
        .collect()
}

/// The lengths of the parts of state memory.
#[derive(Clone, Debug, PartialEq, Eq)]
pub struct Parts(Vec<u32>);

/// Those that the program compared has, if no others are named.
impl Default for Parts {
    fn default() -> Self {
        Self(memory::PARTS.map(|length| length as u32).to_vec())
    }
}

impl Parts {
    /// Reads lengths joined by commas.
    pub fn parse(text: &str) -> Result<Self, String> {
        let lengths: Vec<u32> = text
            .split(',')
            .map(|length| length.parse().ok().filter(|&n| n <= PART_LIMIT && n > 0))
            .collect::<Option<_>>()
            .ok_or_else(|| format!("not the lengths of parts: {text}"))?;
        if lengths.len() + STORE_PARTS > PARTS_LIMIT {
            return Err("too many parts".into());
        }
        Ok(Self(lengths))
    }

    /// The lengths, from part 0 on.
    pub fn lengths(&self) -> &[u32] {
        &self.0
    }

    /// The number of the first part of the store.
    pub fn first_of_store(&self) -> u8 {
        self.0.len() as u8
    }

    /// Where in part 0 the figures stand, if these are the parts of [`memory`].
    pub fn figures(&self) -> Option<Range<u32>> {
        let from = memory::FIGURES_AT as u32;
        (*self == Self::default()).then_some(from..from + memory::FIGURES_SIZE as u32)
    }

    /// The bytes of all of them.
    pub fn size(&self) -> usize {
        self.0.iter().map(|&length| length as usize).sum()
    }

    /// Which part of the store an item's number names.
    pub(super) fn of_store(&self, part: u8) -> Option<usize> {
        let part = usize::from(part).checked_sub(self.0.len())?;
        (part < STORE_PARTS).then_some(part)
    }

    /// Whether there is a part of that number.
    pub(super) fn has_part(&self, part: u8) -> bool {
        usize::from(part) < self.0.len()
    }

    /// Whether a part has a byte at that offset.
    pub(super) fn has_byte(&self, part: u8, offset: u32) -> bool {
        let length = self.0.get(usize::from(part));
        length.is_some_and(|&length| offset < length)
    }
}
