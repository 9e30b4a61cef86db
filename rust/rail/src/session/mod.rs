//! A session that owns its memory.

mod listed;

pub use listed::{NotificationIcons, Windows};

use alloc::collections::BTreeSet;
use alloc::vec::Vec;

use crate::answer::{Refusal, Standing};
use crate::explain::{Explanation, RefusedOrder};
use crate::figure::Figure;
use crate::ids::{NotifyIconId, WindowId};
use crate::memory::{Memory, FEWEST_PLACES, MOST_PLACES};
use crate::order::{orders, Change, Changed};
use crate::record::{CacheCell, Desktop, Holder, NotificationIcon, Picture, Window};
use crate::session_record;
use crate::update::{Report, Taken};

/// What the orders of a server make of the terminal's table: windows, notification
/// icons, icon cache and desktop.
///
/// It owns its memory, which is well formed from the start and stays so:
/// [`Refusal::UnfitMemory`] does not come here. That is about 78 KiB, and 4,224 bytes for
/// each place of the store of pictures, 342 KiB in all with 64 places.
///
/// ```
/// use rail::{Refusal, Session, WindowId};
///
/// let mut session = Session::new();
/// // Two windows without fields, and a desktop order: the second one is on top.
/// session.deliver(&[0x2E, 11, 0, 0, 0, 0, 0x11, 1, 0, 0, 0])?;
/// session.deliver(&[0x2E, 11, 0, 0, 0, 0, 0x11, 2, 0, 0, 0])?;
/// session.deliver(&[0x2E, 16, 0, 0x10, 0, 0, 0x04, 2, 2, 0, 0, 0, 1, 0, 0, 0])?;
/// session.checkpoint();
/// assert_eq!(session.standing().orders, 0);
///
/// let ids = |windows: rail::Windows<'_>| windows.map(|(id, _)| id.0).collect::<Vec<_>>();
/// assert_eq!(ids(session.windows()), [1, 2]);
/// assert_eq!(ids(session.windows_in_z_order()), [2, 1]);
///
/// assert_eq!(session.undo(1), Err(Refusal::TooManySteps));
/// # Ok::<(), Refusal>(())
/// ```
#[derive(Clone, Debug)]
pub struct Session {
    memory: Memory,
    standing: Standing,
}

/// Orders of our own: desktop none, and desktop hooked.
const DESKTOP_NONE: [u8; 7] = [0x2E, 7, 0, 1, 0, 0, 4];
const DESKTOP_HOOKED: [u8; 7] = [0x2E, 7, 0, 2, 0, 0, 4];

/// What a call on a session's own memory gives, which is well formed.
///
/// # Panics
/// If the library refuses that memory, which it is proved not to do.
fn granted<T>(answer: Result<T, Refusal>) -> T {
    answer.expect("a session's own memory is well formed")
}

impl Session {
    /// An empty table, with the most places for pictures, [`MOST_PLACES`].
    pub fn new() -> Self {
        Self::with_places(MOST_PLACES)
    }

    /// An empty table with so many places for pictures. A place is used while a cell of the
    /// icon cache, a window (for its small, its big or its overlay icon) or a notification icon has the
    /// picture in it; where none is free for an icon that comes, its order meets
    /// [`Refusal::NoPlace`]. The cells alone need up to 12 places, all that can have a
    /// picture 124.
    ///
    /// ```
    /// let session = rail::Session::with_places(20);
    /// assert_eq!(session.places(), 20);
    /// ```
    ///
    /// # Panics
    /// If `places` is under [`FEWEST_PLACES`], which is 12, or over [`MOST_PLACES`], which is
    /// 64.
    pub fn with_places(places: usize) -> Self {
        assert!(
            (FEWEST_PLACES..=MOST_PLACES).contains(&places),
            "a session has {FEWEST_PLACES} to {MOST_PLACES} places for pictures, not {places}"
        );
        let mut memory = Memory::with_places(places);
        let standing = granted(memory.lend().reset());
        Self { memory, standing }
    }

    /// How many places for pictures it has.
    pub fn places(&self) -> usize {
        self.memory.places()
    }

    /// Empties the table and its history, also the icon cache. It erases nothing: the
    /// bytes of titles and icons stay in the memory until others take their place. See
    /// [`wipe`](Self::wipe).
    pub fn reset(&mut self) {
        self.standing = granted(self.memory.lend().reset());
    }

    /// Empties the table as [`reset`](Self::reset) does, with every byte of the memory
    /// zero before, so that nothing of the session before stands in it.
    pub fn wipe(&mut self) {
        self.memory.wipe();
        self.reset();
    }

    /// Delivers a windowing order (an alternate secondary order of class 2 and type
    /// 0B, from its first byte, 2E, to its last). [`take`](Self::take) does what a
    /// terminal in daily use needs besides.
    ///
    /// # Errors
    /// [`Refusal::HistoryFull`] where the order is good and the room after the
    /// checkpoint is used up: after a [`checkpoint`](Self::checkpoint) or an
    /// [`undo`](Self::undo) it can be delivered again. Else the first of the numbers 2
    /// to 11 and 17 that applies.
    pub fn deliver(&mut self, order: &[u8]) -> Result<Standing, Refusal> {
        self.standing = self.memory.lend().deliver(order)?;
        Ok(self.standing)
    }

    /// What delivery of an order would give: whether it would be granted, else why not and
    /// which of its bytes is at fault. Nothing changes.
    pub fn explain(&self, order: &[u8]) -> Explanation {
        self.memory.view().explain(order)
    }

    /// Delivers an order as [`deliver`](Self::deliver) does; where it is refused, a second
    /// call tells which of its bytes is at fault.
    ///
    /// ```
    /// use rail::{Refusal, Session};
    ///
    /// let mut session = Session::new();
    /// session.deliver(&[0x2E, 11, 0, 0, 0, 0, 0x11, 1, 0, 0, 0])?;
    /// // Show state 1, which is not one.
    /// let refused = session.deliver_explained(&[0x2E, 12, 0, 0x10, 0, 0, 0x01, 1, 0, 0, 0, 1]);
    /// let refused = refused.unwrap_err();
    /// assert_eq!((refused.refusal, refused.offset), (Refusal::OutsideSet, 11));
    /// # Ok::<(), Refusal>(())
    /// ```
    ///
    /// # Errors
    /// As [`deliver`](Self::deliver).
    ///
    /// # Panics
    /// If the library explains a refused order otherwise, which it is proved not to do.
    pub fn deliver_explained(&mut self, order: &[u8]) -> Result<Standing, RefusedOrder> {
        self.deliver(order).map_err(|refusal| {
            let explained = self.explain(order).refused();
            explained
                .filter(|order| order.refusal == refusal)
                .expect("a refused order is explained by its own refusal")
        })
    }

    /// The state memory as a file for support: its parts end to end, then its places, as the
    /// program `rail_explain` takes it. It has all that the session shows, and what stood in
    /// the memory before: titles, tips, pictures.
    pub fn state_file(&self) -> Vec<u8> {
        let view = self.memory.view();
        let [a, b, c, d, e] = view.store;
        [view.index, view.bodies, view.journal, a, b, c, d, e].concat()
    }

    /// Delivers the orders of a whole update, which stand in it back to back, one by one
    /// until `limit` are granted, none is left or one is refused. Each is cut by its
    /// OrderSize, as [`orders`](crate::orders) cuts. Orders granted before a refusal stay,
    /// and the refused one changes nothing; the update may have any length.
    ///
    /// ```
    /// use rail::{Refusal, Session};
    ///
    /// let window = [0x2E, 11, 0, 0, 0, 0, 0x11, 1, 0, 0, 0];
    /// let update = [window, window].concat();
    /// let mut session = Session::new();
    /// let report = session.update(u32::MAX, &update);
    /// assert_eq!((report.orders, report.bytes), (1, 11));
    /// assert_eq!(report.refusal, Some(Refusal::WrongId)); // the window is new only once
    /// assert_eq!(report.standing, session.standing());
    /// ```
    pub fn update(&mut self, limit: u32, update: &[u8]) -> Report {
        let report = granted(self.memory.lend().update(limit, update));
        self.standing = report.standing;
        report
    }

    /// Takes a whole update as [`take`](Self::take) takes an order: with a checkpoint
    /// where the history is full, and all windows and notification icons gone before a
    /// synchronization. A refused order is passed over.
    ///
    /// ```
    /// use rail::{Change, Session, WindowId};
    ///
    /// let window = [0x2E, 11, 0, 0, 0, 0, 0x11, 1, 0, 0, 0];
    /// let mut session = Session::new();
    /// let taken = session.take_update(&[window, window].concat());
    /// assert_eq!(taken.changed[0].what, Change::WindowNew(WindowId(1)));
    /// assert_eq!(taken.refused, [(11, rail::Refusal::WrongId)]);
    /// ```
    pub fn take_update(&mut self, update: &[u8]) -> Taken {
        let mut taken = Taken::default();
        let mut at = 0;
        while at < update.len() {
            let rest = &update[at..];
            // Up to an order that begins a synchronization, which is taken by itself.
            let plain = |order: &&[u8]| !Changed::of(order).is_some_and(|it| it.begins_sync());
            let limit = orders(rest).take_while(plain).count() as u32;
            let report = self.update(limit, rest);
            let (done, left) = rest.split_at(report.bytes);
            taken.changed.extend(orders(done).filter_map(Changed::of));
            at += report.bytes;
            match report.refusal {
                Some(Refusal::HistoryFull) => self.checkpoint(),
                _ => {
                    let Some(order) = orders(left).next() else {
                        break;
                    };
                    match report.refusal.map_or_else(|| self.take(order), Err) {
                        Ok(changed) => taken.changed.push(changed),
                        Err(refusal) => taken.refused.push((at, refusal)),
                    }
                    at += order.len();
                }
            }
        }
        taken
    }

    /// Delivers a windowing order as a terminal in daily use does, and tells what it
    /// changed.
    ///
    /// Where the history is full, a [`checkpoint`](Self::checkpoint) comes first. Where
    /// the order begins a synchronization and something is listed, all windows and
    /// notification icons go first (the server tells them as new again), by an order of
    /// our own that also stands: the answer is then [`Change::AllGone`].
    ///
    /// # Errors
    /// The first of the numbers 2 to 11 and 17 that applies.
    ///
    /// ```
    /// use rail::{orders, Change, Session};
    ///
    /// # let update = [0x2E, 7, 0, 2, 0, 0, 4];
    /// let mut session = Session::new();
    /// for order in orders(&update) {
    ///     match session.take(order) {
    ///         Ok(changed) => println!("to be drawn again: {:?}", changed.what),
    ///         Err(refusal) => eprintln!("refused, {refusal}"),
    ///     }
    /// }
    /// ```
    pub fn take(&mut self, order: &[u8]) -> Result<Changed, Refusal> {
        self.deliver_with_room(order)?;
        let mut changed = Changed::of(order).expect("a granted order has its header");
        if changed.begins_sync() && self.lists_something() {
            self.undo(1)?;
            let hooked = self.desktop().hooked;
            self.deliver_with_room(&DESKTOP_NONE)?;
            if hooked {
                self.deliver_with_room(&DESKTOP_HOOKED)?;
            }
            self.deliver_with_room(order)?;
            changed.what = Change::AllGone;
        }
        Ok(changed)
    }

    fn lists_something(&self) -> bool {
        !self.window_ids().is_empty() || !self.notification_icon_ids().is_empty()
    }

    fn deliver_with_room(&mut self, order: &[u8]) -> Result<Standing, Refusal> {
        match self.deliver(order) {
            Err(Refusal::HistoryFull) => {
                self.checkpoint();
                self.deliver(order)
            }
            answer => answer,
        }
    }

    /// Sets a checkpoint: nothing before it can be taken back, and the room for
    /// orders is free again.
    pub fn checkpoint(&mut self) {
        self.standing = granted(self.memory.lend().checkpoint());
    }

    /// Takes the last `steps` orders back.
    ///
    /// # Errors
    /// [`Refusal::TooManySteps`] where fewer stand after the checkpoint.
    pub fn undo(&mut self, steps: u64) -> Result<Standing, Refusal> {
        self.standing = self.memory.lend().undo(steps)?;
        Ok(self.standing)
    }

    /// How much stands after the checkpoint.
    pub fn standing(&self) -> Standing {
        self.standing
    }

    /// The session record of the orders since the checkpoint, for support: see
    /// [`Record`](crate::Record). Delivering its orders in turn to the session as it stood
    /// at the checkpoint gives this one.
    pub fn record(&self) -> Vec<u8> {
        let mut bytes = vec![0; session_record::size(self.standing)];
        granted(self.memory.view().record_bytes(&mut bytes));
        bytes
    }

    /// Looks up a window, with the pictures that it shows.
    ///
    /// # Errors
    /// [`Refusal::WrongId`] where it is not listed.
    pub fn window(&self, id: WindowId) -> Result<Window, Refusal> {
        self.memory.view().window(id).map(|found| found.record)
    }

    /// Looks up a notification icon by its two ids, with the picture that it shows.
    ///
    /// # Errors
    /// [`Refusal::WrongId`] where it is not listed.
    pub fn notification_icon(
        &self,
        window: WindowId,
        icon: NotifyIconId,
    ) -> Result<NotificationIcon, Refusal> {
        let found = self.memory.view().notification_icon(window, icon);
        found.map(|found| found.record)
    }

    /// Looks up the picture in a cell of the icon cache.
    ///
    /// # Errors
    /// [`Refusal::WrongId`] where the cell is empty or there is none.
    pub fn picture(&self, cell: CacheCell) -> Result<Picture, Refusal> {
        self.memory.view().picture(cell).map(|found| found.record)
    }

    /// Whether two holders of pictures share a place of the store, so that both show the
    /// one picture that was given to them. Equal pictures can have a place each.
    ///
    /// ```
    /// use rail::{CacheCell, Holder, Refusal, Session, WindowId};
    ///
    /// let window = WindowId(1);
    /// let mut session = Session::new();
    /// session.deliver(&[0x2E, 11, 0, 0, 0, 0, 0x11, 1, 0, 0, 0])?;
    /// // A picture of one pixel in cell 0 of cache 0, for the small icon.
    /// let small = [
    ///     0x2E, 25, 0, 0, 0, 0, 0x41, 1, 0, 0, 0, // for window 1
    ///     0, 0, 0, 16, 1, 0, 1, 0, 0, 0, 2, 0, 7, 7, // 16 bits, no mask, a color of 2 bytes
    /// ];
    /// session.deliver(&small)?;
    /// let cell = Holder::Cell(CacheCell { cache_id: 0, cache_entry: 0 });
    /// assert!(session.shared(Holder::SmallIcon(window), cell)?);
    /// assert_eq!(session.shared(Holder::BigIcon(window), cell), Err(Refusal::WrongId));
    ///
    /// // The cell gets another picture, for the big icon: the small one stays.
    /// let mut big = small;
    /// (big[4], big[24]) = (0x20, 8);
    /// session.deliver(&big)?;
    /// assert!(!session.shared(Holder::SmallIcon(window), cell)?);
    /// assert!(session.shared(Holder::BigIcon(window), cell)?);
    /// assert_eq!(session.window(window)?.small.map(|small| small.color), Some(vec![7, 7]));
    /// # Ok::<(), Refusal>(())
    /// ```
    ///
    /// # Errors
    /// [`Refusal::WrongId`] where one of them is not there or has no picture.
    pub fn shared(&self, one: Holder, other: Holder) -> Result<bool, Refusal> {
        let found = self.memory.view().shared(one, other);
        found.map(|found| found.record)
    }

    /// The desktop state.
    pub fn desktop(&self) -> Desktop {
        granted(self.memory.view().desktop()).record
    }

    /// How much was visible at the checkpoint: orders since then do not count. The present
    /// figure is in the [`desktop`](Self::desktop) state, that of a window in its record.
    ///
    /// ```
    /// use rail::{Figure, Refusal, Session};
    ///
    /// let mut session = Session::new();
    /// // A window, shown, with the visibility rectangles 0,0,10,10 and 5,5,15,15.
    /// session.deliver(&[
    ///     0x2E, 30, 0, 0x10, 2, 0, 0x11, 1, 0, 0, 0, 5, // show state 5
    ///     2, 0, 0, 0, 0, 0, 10, 0, 10, 0, 5, 0, 5, 0, 15, 0, 15, 0,
    /// ])?;
    /// assert_eq!(session.figure(), Figure::default());
    /// let present = session.desktop().figure;
    /// assert_eq!((present.windows, present.pixels), (1, 175));
    /// session.checkpoint();
    /// let figure = session.figure();
    /// assert_eq!((figure.windows, figure.pixels), (1, 175));
    /// # Ok::<(), Refusal>(())
    /// ```
    pub fn figure(&self) -> Figure {
        granted(self.memory.view().figure()).record
    }

    /// The ids of all windows, each once and ascending.
    pub fn window_ids(&self) -> Vec<WindowId> {
        granted(self.memory.view().window_ids()).record
    }

    /// The ids of all notification icons, each once and ascending: by window id, then by
    /// notify-icon id.
    pub fn notification_icon_ids(&self) -> Vec<(WindowId, NotifyIconId)> {
        granted(self.memory.view().notification_icon_ids()).record
    }

    /// All windows, by their ids.
    pub fn windows(&self) -> Windows<'_> {
        Windows {
            session: self,
            ids: self.window_ids().into_iter(),
        }
    }

    /// All windows, each once: those that the desktop's stacking list names, from the
    /// topmost down, and below them those that it does not name, by their ids.
    pub fn windows_in_z_order(&self) -> Windows<'_> {
        let mut ids = self.desktop().z_order;
        ids.extend(self.window_ids());
        let mut seen = BTreeSet::new();
        ids.retain(|&id| seen.insert(id));
        Windows {
            session: self,
            ids: ids.into_iter(),
        }
    }

    /// All notification icons, by their ids.
    pub fn notification_icons(&self) -> NotificationIcons<'_> {
        NotificationIcons {
            session: self,
            ids: self.notification_icon_ids().into_iter(),
        }
    }
}

impl Default for Session {
    fn default() -> Self {
        Self::new()
    }
}

#[cfg(test)]
mod tests;
