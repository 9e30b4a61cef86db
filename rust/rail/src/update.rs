//! Whole updates: what one came to.

use alloc::vec::Vec;

use crate::answer::{refused, Refusal, Standing};
use crate::order::Changed;

/// What an update came to: see [`Session::update`](crate::Session::update).
#[derive(Clone, Copy, Debug, Default, PartialEq, Eq)]
#[non_exhaustive]
pub struct Report {
    /// The orders that this call granted.
    pub orders: usize,
    /// Their bytes in all: the next order of the update begins there.
    pub bytes: usize,
    /// Why the order there was refused, if one was. It changed nothing.
    pub refusal: Option<Refusal>,
    /// How much stands after the checkpoint.
    pub standing: Standing,
}

impl Report {
    /// From the answer of the library: number + 2^8 * orders + 2^16 * bytes that stand,
    /// 2^32 * orders + 2^48 * bytes granted.
    ///
    /// # Errors
    /// [`Refusal::UnfitMemory`], with which nothing else is told.
    ///
    /// # Panics
    /// If the number is not listed, which the library is proved never to answer.
    pub(crate) fn of(answer: u64) -> Result<Self, Refusal> {
        let [number, standing, s0, s1, o0, o1, g0, g1] = answer.to_le_bytes();
        let wide = |low, high| usize::from(u16::from_le_bytes([low, high]));
        let refusal = refused(number).err();
        match refusal {
            Some(Refusal::UnfitMemory) => Err(Refusal::UnfitMemory),
            _ => Ok(Self {
                orders: wide(o0, o1),
                bytes: wide(g0, g1),
                refusal,
                standing: Standing {
                    orders: standing.into(),
                    bytes: wide(s0, s1),
                },
            }),
        }
    }
}

/// What an update came to that was taken whole: see
/// [`Session::take_update`](crate::Session::take_update).
#[derive(Clone, Debug, Default, PartialEq, Eq)]
#[non_exhaustive]
pub struct Taken {
    /// What each granted order changed.
    pub changed: Vec<Changed>,
    /// Where in the update each refused order begins, and why it was refused.
    pub refused: Vec<(usize, Refusal)>,
}
