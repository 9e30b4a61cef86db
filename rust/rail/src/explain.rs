//! Why an order is refused, and where in its bytes.

use core::error::Error;
use core::fmt;

use crate::answer::{refused, Refusal};

/// What delivery of an order would give.
///
/// Printed, it is what the program `rail_explain` prints: the number, its words and, where
/// the order would be refused, the offset of the field at fault, a line each.
///
/// ```
/// use rail::{Explanation, Refusal, Session};
///
/// // A new window with one rectangle, and the rectangle is not there.
/// let order = [0x2E, 13, 0, 0, 1, 0, 0x11, 0x58, 0, 1, 0, 1, 0];
/// let explanation = Session::new().explain(&order);
/// let Explanation::Refused(order) = explanation else { panic!("granted") };
/// assert_eq!((order.refusal, order.offset), (Refusal::NotFilled, 13));
/// assert_eq!(
///     explanation.to_string(),
///     "7\nthe fields don't fill the declared length exactly\n13"
/// );
/// ```
#[derive(Clone, Copy, Debug, PartialEq, Eq, Hash)]
#[non_exhaustive]
pub enum Explanation {
    /// The order would be granted.
    Granted,
    /// It would be refused.
    Refused(RefusedOrder),
}

/// A refused order: why, and where in its bytes the field at fault begins.
#[derive(Clone, Copy, Debug, PartialEq, Eq, Hash)]
#[non_exhaustive]
pub struct RefusedOrder {
    /// The first refusal that applies.
    pub refusal: Refusal,
    /// The offset of the field at fault, from the order's first byte, 2E, on: for
    /// [`NotFilled`](Refusal::NotFilled) the first field that does not fit whole or the
    /// first byte left over, which may be the order's length; for
    /// [`OutsideSet`](Refusal::OutsideSet) the first field outside its set, of a string its
    /// length and of a list its count. Before these a part of the header, after them 7.
    pub offset: usize,
}

impl Explanation {
    /// The number in document 01, 0 where the order would be granted.
    pub fn number(self) -> u8 {
        self.refused().map_or(0, |order| order.refusal.number())
    }

    /// Document 01's words for the number.
    pub fn words(self) -> &'static str {
        self.refused().map_or("done", |order| order.refusal.words())
    }

    /// The refusal, if it would be one.
    pub fn refused(self) -> Option<RefusedOrder> {
        match self {
            Self::Granted => None,
            Self::Refused(order) => Some(order),
        }
    }

    /// The answer of the call: number + 65,536 * offset.
    ///
    /// # Panics
    /// If the number is not listed, which the library is proved never to answer.
    pub(crate) fn of(answer: u32) -> Self {
        let [number, _, low, high] = answer.to_le_bytes();
        let offset = u16::from_le_bytes([low, high]).into();
        match refused(number) {
            Ok(()) => Self::Granted,
            Err(refusal) => Self::Refused(RefusedOrder { refusal, offset }),
        }
    }
}

impl fmt::Display for Explanation {
    fn fmt(&self, f: &mut fmt::Formatter<'_>) -> fmt::Result {
        write!(f, "{}\n{}", self.number(), self.words())?;
        match self.refused() {
            Some(order) => write!(f, "\n{}", order.offset),
            None => Ok(()),
        }
    }
}

impl fmt::Display for RefusedOrder {
    fn fmt(&self, f: &mut fmt::Formatter<'_>) -> fmt::Result {
        write!(f, "{}, at byte {}", self.refusal, self.offset)
    }
}

impl Error for RefusedOrder {
    fn source(&self) -> Option<&(dyn Error + 'static)> {
        Some(&self.refusal)
    }
}

impl From<RefusedOrder> for Refusal {
    fn from(order: RefusedOrder) -> Self {
        order.refusal
    }
}

#[cfg(test)]
mod tests {
    use super::*;

    #[test]
    fn answers() {
        assert_eq!(Explanation::of(0), Explanation::Granted);
        let told = |answer| Explanation::of(answer).refused().expect("a refusal");
        let order = told(8 + 65_536 * 65_535);
        assert_eq!((order.refusal, order.offset), (Refusal::OutsideSet, 65_535));
        assert_eq!(told(1).offset, 0);
        assert_eq!(Refusal::from(told(17)), Refusal::NoPlace);
    }

    #[test]
    fn printed() {
        assert_eq!(Explanation::Granted.to_string(), "0\ndone");
        let told = Explanation::of(17 + 65_536 * 7);
        assert_eq!(told.to_string(), "17\nevery place is pointed at\n7");
        let order = told.refused().expect("a refusal");
        assert_eq!(
            order.to_string(),
            "17: every place is pointed at, at byte 7"
        );
        assert!(order.source().is_some());
    }

    #[test]
    #[should_panic = "listed numbers only"]
    fn a_number_that_is_not_listed() {
        let _ = Explanation::of(22);
    }
}
