//! The session record for support: the orders since the checkpoint in one piece.

use core::iter::FusedIterator;

use crate::answer::{state_answer, Refusal, Standing};
use crate::ffi;

/// The most bytes that a record has.
pub const RECORD_LIMIT: usize = 33_794;

/// The bytes of the record of so many orders.
pub(crate) fn size(standing: Standing) -> usize {
    2 + 8 * standing.orders + standing.bytes
}

/// A session record: how many orders (2 bytes), for each its offset and size (4 bytes
/// each), then the orders as they were delivered. [`Session::record`](crate::Session::record)
/// writes one.
///
/// ```
/// use rail::{Record, Refusal, Session};
///
/// let mut session = Session::new();
/// session.deliver(&[0x2E, 11, 0, 0, 0, 0, 0x11, 0x58, 0, 1, 0])?;
/// session.deliver(&[0x2E, 7, 0, 2, 0, 0, 4])?;
/// let bytes = session.record();
///
/// let mut again = Session::new();
/// for order in &Record::open(&bytes)? {
///     again.deliver(order)?;
/// }
/// assert_eq!(again.record(), bytes);
/// assert_eq!(Record::open(&bytes[1..]).err(), Some(Refusal::RecordCut));
/// # Ok::<(), Refusal>(())
/// ```
#[derive(Clone, Copy, Debug, PartialEq, Eq)]
pub struct Record<'a> {
    bytes: &'a [u8],
    standing: Standing,
}

impl<'a> Record<'a> {
    /// Checks a whole record. Its bodies are not judged: delivering them does that.
    ///
    /// # Errors
    /// [`Refusal::RecordCut`], then [`Refusal::RecordDiffers`].
    pub fn open(bytes: &'a [u8]) -> Result<Self, Refusal> {
        let standing = state_answer(ffi::record_check(bytes))?;
        Ok(Self { bytes, standing })
    }

    /// How many orders it has.
    pub fn len(&self) -> usize {
        self.standing.orders
    }

    /// Whether it has none.
    pub fn is_empty(&self) -> bool {
        self.standing.orders == 0
    }

    /// The bytes of its orders in all.
    pub fn bytes(&self) -> usize {
        self.standing.bytes
    }

    /// The order at an index, as the part of the record where it lies.
    pub fn get(&self, index: usize) -> Option<&'a [u8]> {
        if index >= self.len() {
            return None;
        }
        let place = ffi::record_body(self.bytes, u32::try_from(index).ok()?);
        let [a, b, c, d] = place.to_le_bytes();
        let offset = usize::from(u16::from_le_bytes([a, b]));
        let size = usize::from(u16::from_le_bytes([c, d]));
        self.bytes.get(offset..offset + size)
    }

    /// Its orders in turn.
    pub fn iter(&self) -> Bodies<'a> {
        Bodies {
            record: *self,
            next: 0,
        }
    }
}

impl<'a> IntoIterator for Record<'a> {
    type Item = &'a [u8];
    type IntoIter = Bodies<'a>;

    fn into_iter(self) -> Bodies<'a> {
        self.iter()
    }
}

impl<'a> IntoIterator for &Record<'a> {
    type Item = &'a [u8];
    type IntoIter = Bodies<'a>;

    fn into_iter(self) -> Bodies<'a> {
        self.iter()
    }
}

/// The orders of a [`Record`], in turn.
#[derive(Clone, Debug)]
pub struct Bodies<'a> {
    record: Record<'a>,
    next: usize,
}

impl<'a> Iterator for Bodies<'a> {
    type Item = &'a [u8];

    fn next(&mut self) -> Option<&'a [u8]> {
        let body = self.record.get(self.next)?;
        self.next += 1;
        Some(body)
    }

    fn size_hint(&self) -> (usize, Option<usize>) {
        let left = self.record.len() - self.next;
        (left, Some(left))
    }
}

impl ExactSizeIterator for Bodies<'_> {}

impl FusedIterator for Bodies<'_> {}
