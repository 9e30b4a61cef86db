//! State memory: parts of bytes that are lent to each call.

use alloc::boxed::Box;
use alloc::vec;
use core::fmt;

use crate::answer::{state_answer, Refusal, Standing};
use crate::ffi;
use crate::update::Report;
use crate::view::View;

/// The bytes needed of the index: which ids are listed, at which place of the store each
/// cell, window and notification icon has its picture, and what of the windows is visible.
pub const INDEX_SIZE: usize = 729;
/// The bytes needed of the bodies: the records, the desktop state and the numbers of the
/// pictures.
pub const BODIES_SIZE: usize = 61_012;
/// The bytes of a place of the store, for one picture.
pub const PLACE_SIZE: usize = 4_224;
/// The bytes needed of the journal: the orders since the checkpoint.
pub const JOURNAL_SIZE: usize = 32_770;

/// The parts in which the store is lent.
pub const STORE_PARTS: usize = 5;
/// The fewest places of a store.
pub const FEWEST_PLACES: usize = 12;
/// The most places of a store; room past them is left alone.
pub const MOST_PLACES: usize = 64;
/// The most places of a part of a [`Memory`]'s store.
const PLACES_OF_PART: usize = 15;

/// State memory on the heap, its parts of any length and with any bytes.
///
/// This is the memory that a [`LentSession`] borrows. Most users want a
/// [`Session`](crate::Session), which owns its memory and keeps it well formed.
#[derive(Clone, PartialEq, Eq)]
pub struct Memory {
    /// The index.
    pub index: Box<[u8]>,
    /// The bodies.
    pub bodies: Box<[u8]>,
    /// The parts of the store. Each counts the places of [`PLACE_SIZE`] bytes that fit it
    /// whole.
    pub store: [Box<[u8]>; STORE_PARTS],
    /// The journal.
    pub journal: Box<[u8]>,
}

impl Memory {
    /// Zeroed parts of the needed lengths, with [`MOST_PLACES`] places. Zeros are no
    /// state: [`LentSession::reset`] makes them one.
    pub fn new() -> Self {
        Self::with_places(MOST_PLACES)
    }

    /// Zeroed parts of the needed lengths, with so many places. Fewer than
    /// [`FEWEST_PLACES`] are refused by every call, and none past [`MOST_PLACES`] is used.
    ///
    /// # Panics
    /// If they are more than fit five parts of 15 places, which is 75.
    pub fn with_places(places: usize) -> Self {
        let mut left = places;
        let store = [0; STORE_PARTS].map(|_| {
            let here = left.min(PLACES_OF_PART);
            left -= here;
            here * PLACE_SIZE
        });
        assert!(left == 0, "{places} places are more than a memory can have");
        Self::with_sizes([INDEX_SIZE, BODIES_SIZE, JOURNAL_SIZE], store)
    }

    /// Zeroed parts of these lengths: of the index, the bodies and the journal, and of
    /// the store. Shorter ones than needed are refused by every call, and of longer ones
    /// the rest is never changed.
    pub fn with_sizes(sizes: [usize; 3], store: [usize; STORE_PARTS]) -> Self {
        let zeros = |size: usize| vec![0; size].into_boxed_slice();
        let [index, bodies, journal] = sizes.map(zeros);
        Self {
            index,
            bodies,
            store: store.map(zeros),
            journal,
        }
    }

    /// The places that fit the parts of the store whole.
    pub fn places(&self) -> usize {
        self.store.iter().map(|part| part.len() / PLACE_SIZE).sum()
    }

    /// Makes every byte zero, so that nothing of what was there before can be read from
    /// it. A [`LentSession::reset`], which erases nothing, makes it a state again.
    pub fn wipe(&mut self) {
        let state = [&mut self.index, &mut self.bodies, &mut self.journal];
        for part in state.into_iter().chain(&mut self.store) {
            part.fill(0);
            // What is overwritten and never read again may not be left out.
            core::hint::black_box(&mut **part);
        }
    }

    /// Lends the memory for all calls.
    pub fn lend(&mut self) -> LentSession<'_> {
        LentSession::new(
            &mut self.index,
            &mut self.bodies,
            self.store.each_mut().map(|part| &mut **part),
            &mut self.journal,
        )
    }

    /// Lends the memory for lookups.
    pub fn view(&self) -> View<'_> {
        let store = self.store.each_ref().map(|part| &**part);
        View::new(&self.index, &self.bodies, store, &self.journal)
    }
}

impl Default for Memory {
    fn default() -> Self {
        Self::new()
    }
}

/// The state calls on borrowed parts, as the C interface has them.
///
/// The parts may have any length and hold any bytes: memory that is too short or not
/// well formed is refused with [`Refusal::UnfitMemory`], and [`reset`](Self::reset)
/// makes memory of the needed lengths good again.
///
/// The store is lent in five parts, each of which counts the places of [`PLACE_SIZE`]
/// bytes that fit it whole; `reset` fixes how many there are, from [`FEWEST_PLACES`] to
/// [`MOST_PLACES`]. The other calls need that many, cut into parts as they were then.
///
/// ```
/// use rail::{LentSession, Refusal, BODIES_SIZE, INDEX_SIZE, JOURNAL_SIZE, PLACE_SIZE};
///
/// let mut index = [0xFF; INDEX_SIZE];
/// let mut bodies = vec![0xFF; BODIES_SIZE];
/// let mut pictures = vec![0xFF; 20 * PLACE_SIZE];
/// let mut journal = vec![0xFF; JOURNAL_SIZE];
/// let (one, other) = pictures.split_at_mut(15 * PLACE_SIZE);
/// let store = [one, other, &mut [], &mut [], &mut []];
/// let mut lent = LentSession::new(&mut index, &mut bodies, store, &mut journal);
///
/// assert_eq!(lent.undo(0), Err(Refusal::UnfitMemory));
/// lent.reset()?;
/// assert_eq!(lent.undo(0)?.orders, 0);
/// # Ok::<(), Refusal>(())
/// ```
pub struct LentSession<'a> {
    pub(crate) index: &'a mut [u8],
    pub(crate) bodies: &'a mut [u8],
    pub(crate) store: [&'a mut [u8]; STORE_PARTS],
    pub(crate) journal: &'a mut [u8],
}

impl<'a> LentSession<'a> {
    /// Borrows the parts.
    pub fn new(
        index: &'a mut [u8],
        bodies: &'a mut [u8],
        store: [&'a mut [u8]; STORE_PARTS],
        journal: &'a mut [u8],
    ) -> Self {
        Self {
            index,
            bodies,
            store,
            journal,
        }
    }

    /// Empties the table and its history, whatever the memory held, and fixes how many
    /// places the store has. It erases nothing: see [`Memory::wipe`].
    ///
    /// # Errors
    /// [`Refusal::UnfitMemory`], only where a part is too short or the store has fewer than
    /// [`FEWEST_PLACES`] places.
    pub fn reset(&mut self) -> Result<Standing, Refusal> {
        state_answer(ffi::reset(self))
    }

    /// Delivers an order, which stands if it is granted.
    ///
    /// # Errors
    /// The first of the numbers 1 to 11, 17 and 12, in this order, that applies.
    pub fn deliver(&mut self, order: &[u8]) -> Result<Standing, Refusal> {
        state_answer(ffi::deliver(self, order))
    }

    /// Delivers the orders of a whole update one by one, until `limit` are granted, none
    /// is left or one is refused: see [`Session::update`](crate::Session::update).
    ///
    /// # Errors
    /// [`Refusal::UnfitMemory`]. The refusal of an order is in the report.
    pub fn update(&mut self, limit: u32, update: &[u8]) -> Result<Report, Refusal> {
        Report::of(ffi::update(self, limit, update))
    }

    /// Sets a checkpoint: nothing before it can be taken back, and the room for
    /// orders is free again.
    ///
    /// # Errors
    /// [`Refusal::UnfitMemory`].
    pub fn checkpoint(&mut self) -> Result<Standing, Refusal> {
        state_answer(ffi::checkpoint(self))
    }

    /// Takes the last `steps` orders back.
    ///
    /// # Errors
    /// [`Refusal::UnfitMemory`]; [`Refusal::TooManySteps`] where fewer stand after the
    /// checkpoint.
    pub fn undo(&mut self, steps: u64) -> Result<Standing, Refusal> {
        state_answer(ffi::undo(self, steps))
    }

    /// The same parts for lookups.
    pub fn view(&self) -> View<'_> {
        let store = self.store.each_ref().map(|part| &**part);
        View::new(self.index, self.bodies, store, self.journal)
    }
}

impl fmt::Debug for Memory {
    fn fmt(&self, f: &mut fmt::Formatter<'_>) -> fmt::Result {
        self.view().fmt_as("Memory", f)
    }
}

impl fmt::Debug for LentSession<'_> {
    fn fmt(&self, f: &mut fmt::Formatter<'_>) -> fmt::Result {
        self.view().fmt_as("LentSession", f)
    }
}

#[cfg(test)]
mod tests {
    use super::*;
    use crate::ids::WindowId;
    use crate::record::Desktop;

    /// Memory that was never emptied, all zeros, is no state, and neither is wiped memory.
    #[test]
    fn zeros_are_no_state() {
        let zeros = Memory::new();
        let mut memory = zeros.clone();
        assert_eq!(memory.lend().undo(0), Err(Refusal::UnfitMemory));
        memory.lend().reset().unwrap();
        assert!(memory != zeros);
        let view = memory.view();
        assert_eq!(view.desktop().unwrap().record, Desktop::default());
        assert_eq!(view.window(WindowId(0)), Err(Refusal::WrongId));
        assert_eq!(memory.lend().undo(0), Ok(Standing::default()));
        let hooked = [0x2E, 7, 0, 2, 0, 0, 4];
        assert_eq!(memory.lend().deliver(&hooked).map(|s| s.orders), Ok(1));
        memory.store[4].fill(0xFF);
        memory.wipe();
        assert!(memory == zeros);
    }

    #[test]
    fn places_in_parts() {
        for places in 0..=75 {
            let memory = Memory::with_places(places);
            assert_eq!(memory.places(), places);
            assert!(memory.store.iter().all(|part| part.len() <= 65_536));
            let answer = Memory::with_places(places).lend().reset();
            assert_eq!(answer.is_ok(), places >= FEWEST_PLACES, "{places}");
        }
    }

    #[test]
    #[should_panic = "76 places"]
    fn more_places_than_parts_have() {
        Memory::with_places(76);
    }

    #[test]
    fn memory_prints_its_lengths() {
        let mut memory = Memory::with_sizes([1, 2, 3], [4, 5, 6, 7, 8]);
        let lengths = "{ index: 1 bytes, bodies: 2 bytes, \
                       store: 4 + 5 + 6 + 7 + 8 bytes, journal: 3 bytes }";
        assert_eq!(format!("{memory:?}"), format!("Memory {lengths}"));
        assert_eq!(format!("{:?}", memory.view()), format!("View {lengths}"));
        let lent = memory.lend();
        assert_eq!(format!("{lent:?}"), format!("LentSession {lengths}"));
    }
}
