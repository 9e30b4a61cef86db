//! What a call answers: refusals by document 01's numbers, and how much stands.

use core::error::Error;
use core::fmt;

/// Why a call was refused. A refused call changes nothing, but for what a
/// [`Channel`](crate::Channel) has begun.
///
/// Printed, it is its number and document 01's words for it, as the C header has them:
///
/// ```
/// let refusal = rail::Refusal::TableFull;
/// assert_eq!(refusal.words(), "a new record is asked for and its table is full");
/// assert_eq!(refusal.to_string(), format!("10: {}", refusal.words()));
/// ```
#[derive(Clone, Copy, Debug, PartialEq, Eq, Hash, PartialOrd, Ord)]
#[repr(u8)]
#[non_exhaustive]
pub enum Refusal {
    /// 1: the lent state memory is shorter than needed, or not well formed.
    UnfitMemory = 1,
    /// 2: fewer than 4 bytes of a message, or 7 of an order.
    TooShort = 2,
    /// 3: the declared length differs from the bytes given.
    LengthDiffers = 3,
    /// 4: a message of unknown type, or bytes that are no windowing order.
    UnknownType = 4,
    /// 5: an order has a flag bit outside its kind's closed list.
    UnknownFlag = 5,
    /// 6: the flags of an order clash.
    FlagsClash = 6,
    /// 7: the fields do not fill the declared length exactly.
    NotFilled = 7,
    /// 8: the number of a field is outside its allowed set.
    OutsideSet = 8,
    /// 9: an id is not in the table and must be, or is and must not be.
    WrongId = 9,
    /// 10: a new record is asked for and its table is full.
    TableFull = 10,
    /// 11: a cached icon naming an empty cell.
    NoCell = 11,
    /// 12: the room for orders after the checkpoint would be passed.
    HistoryFull = 12,
    /// 13: more steps back than orders stand after the checkpoint.
    TooManySteps = 13,
    /// 14: the output memory is too small.
    OutputTooSmall = 14,
    /// 15: a chunk of fewer than 8 bytes.
    ChunkTooShort = 15,
    /// 16: a chunk that is compressed, not first with nothing begun, or not what its
    /// total says. What was begun is dropped.
    BadChunk = 16,
    /// 17: an icon comes, and every place of the store is pointed at, also once its cell and
    /// what it is for have let go.
    NoPlace = 17,
    /// 18: a session record without its whole count or table of contents, or with a body
    /// past its end.
    RecordCut = 18,
    /// 19: a session record over its limits, or not laid out as one.
    RecordDiffers = 19,
    /// 20: in the counter profile, a kind from the wrong end.
    WrongEnd = 20,
    /// 21: in the counter profile, a program that is not permitted.
    NotPermitted = 21,
}

impl Refusal {
    /// All refusals, by their numbers.
    pub const ALL: &'static [Refusal] = &[
        Refusal::UnfitMemory,
        Refusal::TooShort,
        Refusal::LengthDiffers,
        Refusal::UnknownType,
        Refusal::UnknownFlag,
        Refusal::FlagsClash,
        Refusal::NotFilled,
        Refusal::OutsideSet,
        Refusal::WrongId,
        Refusal::TableFull,
        Refusal::NoCell,
        Refusal::HistoryFull,
        Refusal::TooManySteps,
        Refusal::OutputTooSmall,
        Refusal::ChunkTooShort,
        Refusal::BadChunk,
        Refusal::NoPlace,
        Refusal::RecordCut,
        Refusal::RecordDiffers,
        Refusal::WrongEnd,
        Refusal::NotPermitted,
    ];

    /// Its number in documents 01 and 02.
    pub fn number(self) -> u8 {
        self as u8
    }

    /// Its condition, in document 01's words.
    pub fn words(self) -> &'static str {
        match self {
            Refusal::UnfitMemory => "lent state memory is shorter than needed, or not well formed",
            Refusal::TooShort => "fewer than 4 bytes (PDU) or 7 bytes (order)",
            Refusal::LengthDiffers => "declared length differs from the bytes given",
            Refusal::UnknownType => {
                "unknown PDU type; or first order byte isn't 2E; \
                 or not the case that exactly one of the three type bits is set"
            }
            Refusal::UnknownFlag => "order has a flag bit outside its kind's closed list",
            Refusal::FlagsClash => "order flags clash",
            Refusal::NotFilled => "the fields don't fill the declared length exactly",
            Refusal::OutsideSet => "a field's number is outside its allowed set",
            Refusal::WrongId => "the id must be in the table and isn't, or must not be and is",
            Refusal::TableFull => "a new record is asked for and its table is full",
            Refusal::NoCell => "cached icon naming an empty cell",
            Refusal::HistoryFull => "history room would be passed",
            Refusal::TooManySteps => "more steps back than stand after the mark",
            Refusal::OutputTooSmall => "output memory too small",
            Refusal::ChunkTooShort => "chunk under 8 bytes",
            Refusal::BadChunk => {
                "chunk is compressed; not first with nothing begun; a total of 0 or over 17,052; \
                 a total differing from the first's; \
                 or data past the total or, in a last chunk, short of it"
            }
            Refusal::NoPlace => "every place is pointed at",
            Refusal::RecordCut => {
                "fewer than 2 bytes, or than 2 plus 8 for each counted order, \
                 or an offset plus size past the end"
            }
            Refusal::RecordDiffers => {
                "count over 128, sizes over 32,768 in all, offsets not those of the layout, \
                 or bytes left over"
            }
            Refusal::WrongEnd => "a kind from the wrong end",
            Refusal::NotPermitted => "a program not permitted",
        }
    }
}

impl fmt::Display for Refusal {
    fn fmt(&self, f: &mut fmt::Formatter<'_>) -> fmt::Result {
        write!(f, "{}: {}", self.number(), self.words())
    }
}

impl Error for Refusal {}

/// Bytes that are refused are invalid data.
#[cfg(feature = "std")]
impl From<Refusal> for std::io::Error {
    fn from(refusal: Refusal) -> Self {
        use std::io::ErrorKind;
        let kind = match refusal {
            Refusal::UnfitMemory
            | Refusal::HistoryFull
            | Refusal::TooManySteps
            | Refusal::OutputTooSmall => ErrorKind::InvalidInput,
            _ => ErrorKind::InvalidData,
        };
        Self::new(kind, refusal)
    }
}

/// A number that no refusal has.
#[derive(Clone, Copy, Debug, PartialEq, Eq)]
pub struct UnknownNumber(
    /// The number.
    pub u8,
);

impl fmt::Display for UnknownNumber {
    fn fmt(&self, f: &mut fmt::Formatter<'_>) -> fmt::Result {
        write!(f, "no refusal has the number {}", self.0)
    }
}

impl Error for UnknownNumber {}

impl TryFrom<u8> for Refusal {
    type Error = UnknownNumber;

    fn try_from(number: u8) -> Result<Self, UnknownNumber> {
        let known = Self::ALL.iter().find(|known| known.number() == number);
        known.copied().ok_or(UnknownNumber(number))
    }
}

impl From<Refusal> for u8 {
    fn from(refusal: Refusal) -> u8 {
        refusal.number()
    }
}

/// How much stands after the checkpoint once a granted call is done.
#[derive(Clone, Copy, Debug, Default, PartialEq, Eq)]
pub struct Standing {
    /// The orders, at most [`Standing::ORDERS_LIMIT`].
    pub orders: usize,
    /// Their bytes in all, at most [`Standing::BYTES_LIMIT`].
    pub bytes: usize,
}

impl Standing {
    /// The most orders after a checkpoint.
    pub const ORDERS_LIMIT: usize = 128;
    /// The most bytes of the orders after a checkpoint.
    pub const BYTES_LIMIT: usize = 32_768;
}

/// What a lookup found, and how much stands.
#[derive(Clone, Copy, Debug, PartialEq, Eq)]
#[non_exhaustive]
pub struct Found<T> {
    /// The whole record.
    pub record: T,
    /// How much stands after the checkpoint.
    pub standing: Standing,
}

/// The answer of a state call: number + 256 * orders + 65,536 * bytes.
///
/// # Panics
/// If the number is not listed, which the library is proved never to answer.
pub(crate) fn state_answer(answer: u32) -> Result<Standing, Refusal> {
    let [number, orders, bytes @ ..] = answer.to_le_bytes();
    refused(number)?;
    Ok(Standing {
        orders: orders.into(),
        bytes: u16::from_le_bytes(bytes).into(),
    })
}

/// The answer of a call that writes a message: number + 65,536 * bytes written.
///
/// # Panics
/// As [`state_answer`].
pub(crate) fn written_answer(answer: u32) -> Result<usize, Refusal> {
    let [number, _, low, high] = answer.to_le_bytes();
    refused(number)?;
    Ok(u16::from_le_bytes([low, high]).into())
}

/// The refusal of a number that is not 0.
pub(crate) fn refused(number: u8) -> Result<(), Refusal> {
    match number {
        0 => Ok(()),
        _ => Err(Refusal::try_from(number).expect("the library answers listed numbers only")),
    }
}

#[cfg(test)]
mod tests {
    use super::*;

    #[test]
    fn numbers_of_refusals() {
        let numbers = Refusal::ALL.iter().map(|refusal| refusal.number());
        assert!(numbers.eq(1..=21));
        for &refusal in Refusal::ALL {
            assert_eq!(Refusal::try_from(refusal.number()), Ok(refusal));
            assert_eq!(u8::from(refusal), refusal.number());
        }
        for number in (22..=255).chain([0]) {
            assert_eq!(Refusal::try_from(number), Err(UnknownNumber(number)));
        }
    }

    /// The words are those of the C header, and so of documents 01 and 02.
    #[test]
    fn words_of_refusals() {
        let header = include_str!("../../../include/rail.h");
        let words = header
            .split("*rail_number_words(")
            .nth(1)
            .and_then(|rest| rest.split("\n}").next())
            .expect("the header has the words");
        let words: Vec<&str> = words.split('"').skip(1).step_by(2).collect();
        let ours = Refusal::ALL.iter().map(|refusal| refusal.words());
        let ours = [Some("done")].into_iter().chain(ours.map(Some));
        assert!(ours.eq(words[..22].iter().map(|&word| Some(word))));
    }

    #[test]
    fn refusals_print_their_number_and_words_once() {
        for refusal in Refusal::ALL {
            let text = format!("{}: {}", refusal.number(), refusal.words());
            assert_eq!(refusal.to_string(), text);
        }
        let error: Box<dyn Error + Send + Sync> = Refusal::FlagsClash.into();
        assert_eq!(error.to_string(), "6: order flags clash");
        assert_eq!(
            UnknownNumber(22).to_string(),
            "no refusal has the number 22"
        );
    }

    #[cfg(feature = "std")]
    #[test]
    fn refusals_as_errors_of_reading() {
        let error = std::io::Error::from(Refusal::OutsideSet);
        assert_eq!(error.kind(), std::io::ErrorKind::InvalidData);
        assert_eq!(error.to_string(), Refusal::OutsideSet.to_string());
    }

    #[test]
    fn answers_of_state_calls() {
        let standing = |orders, bytes| Ok(Standing { orders, bytes });
        assert_eq!(state_answer(0), standing(0, 0));
        assert_eq!(state_answer(256 + 65_536 * 15), standing(1, 15));
        let most = 256 * 128 + 65_536 * 32_768;
        assert_eq!(state_answer(most), standing(128, 32_768));
        assert_eq!(state_answer(13), Err(Refusal::TooManySteps));
    }

    #[test]
    fn answers_of_writing() {
        assert_eq!(written_answer(17_052 * 65_536), Ok(17_052));
        assert_eq!(written_answer(14), Err(Refusal::OutputTooSmall));
        assert_eq!(written_answer(8), Err(Refusal::OutsideSet));
    }

    #[test]
    #[should_panic = "listed numbers only"]
    fn a_number_that_is_not_listed() {
        let _ = state_answer(22);
    }
}
