//! The numbers that a refusal carries.

/// The state memory lent is too short.
pub const STATE_UNFIT: u8 = 1;
/// Fewer bytes than a header has.
pub const TOO_SHORT: u8 = 2;
/// The declared length differs from the bytes given.
pub const LENGTH_DIFFERS: u8 = 3;
/// The type is not one of the known kinds.
pub const UNKNOWN_TYPE: u8 = 4;
/// An order has a flag bit outside its kind's closed list.
pub const OUTSIDE_LIST: u8 = 5;
/// An order's flags clash.
pub const CLASH: u8 = 6;
/// The fields do not fill the declared length exactly.
pub const NOT_FILLED: u8 = 7;
/// A field's number is outside its allowed set.
pub const OUTSIDE_SET: u8 = 8;
/// An id is absent and must be in the table, or present and must not be.
pub const WRONG_ID: u8 = 9;
/// A new record is asked for and its table is full.
pub const TABLE_FULL: u8 = 10;
/// A cached icon from an empty cell.
pub const NO_CELL: u8 = 11;
/// The history room would be passed.
pub const ROOM_PASSED: u8 = 12;
/// More steps back than orders stand after the mark.
pub const TOO_MANY_STEPS: u8 = 13;
/// The output memory is too small.
pub const OUTPUT_TOO_SMALL: u8 = 14;
/// A chunk has fewer bytes than its head.
pub const CHUNK_TOO_SHORT: u8 = 15;
/// A chunk is compressed, out of place, or not what its message promised.
pub const BAD_CHUNK: u8 = 16;
/// An icon is brought and every place is pointed at.
pub const NO_PLACE: u8 = 17;
/// A session record is cut: fewer bytes than its count and table of contents say.
pub const RECORD_CUT: u8 = 18;
/// A session record is over its limits, or not laid out as one.
pub const RECORD_DIFFERS: u8 = 19;
/// In the counter profile: a kind from the wrong end.
pub const WRONG_END: u8 = 20;
/// In the counter profile: a program that is not permitted.
pub const NOT_PERMITTED: u8 = 21;
