//! Lookups on lent memory.

use alloc::vec::Vec;
use core::fmt;

use crate::answer::{state_answer, Found, Refusal, Standing};
use crate::explain::Explanation;
use crate::ffi;
use crate::figure::Figure;
use crate::ids::{NotifyIconId, WindowId};
use crate::memory::STORE_PARTS;
use crate::record::holder::SHARED_SIZE;
use crate::record::lists::{self, LIST_SIZE};
use crate::record::{CacheCell, Desktop, Holder, NotificationIcon, Picture, Window};

/// The lookups on borrowed parts. They change nothing.
#[derive(Clone, Copy)]
pub struct View<'a> {
    pub(crate) index: &'a [u8],
    pub(crate) bodies: &'a [u8],
    pub(crate) store: [&'a [u8]; STORE_PARTS],
    pub(crate) journal: &'a [u8],
}

impl<'a> View<'a> {
    /// Borrows the parts.
    pub fn new(
        index: &'a [u8],
        bodies: &'a [u8],
        store: [&'a [u8]; STORE_PARTS],
        journal: &'a [u8],
    ) -> Self {
        Self {
            index,
            bodies,
            store,
            journal,
        }
    }

    /// Looks up a window, with the pictures that it shows.
    ///
    /// # Errors
    /// [`Refusal::UnfitMemory`]; [`Refusal::WrongId`] where it is not listed.
    pub fn window(self, id: WindowId) -> Result<Found<Window>, Refusal> {
        let mut out = [0; Window::SIZE];
        let standing = self.window_bytes(id, &mut out)?;
        let record = Window::of(&out);
        Ok(Found { record, standing })
    }

    /// Looks up a window and writes its [`Window::SIZE`] bytes, laid out as for C, to the
    /// beginning of `out`. No other byte changes, and none where it is refused.
    ///
    /// # Errors
    /// As [`window`](Self::window), then [`Refusal::OutputTooSmall`].
    pub fn window_bytes(self, id: WindowId, out: &mut [u8]) -> Result<Standing, Refusal> {
        state_answer(ffi::window(self, id.0, out))
    }

    /// Writes the session record of the orders since the checkpoint to the beginning of
    /// `out`, as [`window_bytes`](Self::window_bytes) does; [`RECORD_LIMIT`] bytes are
    /// always enough.
    ///
    /// # Errors
    /// [`Refusal::UnfitMemory`], then [`Refusal::OutputTooSmall`].
    ///
    /// [`RECORD_LIMIT`]: crate::RECORD_LIMIT
    pub fn record_bytes(self, out: &mut [u8]) -> Result<Standing, Refusal> {
        state_answer(ffi::record_write(self, out))
    }

    /// What delivery of an order to this memory would give; memory that is no state is told
    /// as [`Refusal::UnfitMemory`].
    pub fn explain(self, order: &[u8]) -> Explanation {
        Explanation::of(ffi::explain(self, order))
    }

    /// Looks up a notification icon by its two ids, with the picture that it shows.
    ///
    /// # Errors
    /// [`Refusal::UnfitMemory`]; [`Refusal::WrongId`] where it is not listed.
    pub fn notification_icon(
        self,
        window: WindowId,
        icon: NotifyIconId,
    ) -> Result<Found<NotificationIcon>, Refusal> {
        let mut out = [0; NotificationIcon::SIZE];
        let standing = self.notification_icon_bytes(window, icon, &mut out)?;
        let record = NotificationIcon::of(&out);
        Ok(Found { record, standing })
    }

    /// Looks up a notification icon and writes its [`NotificationIcon::SIZE`] bytes as
    /// [`window_bytes`](Self::window_bytes) does.
    ///
    /// # Errors
    /// As [`notification_icon`](Self::notification_icon), then
    /// [`Refusal::OutputTooSmall`].
    pub fn notification_icon_bytes(
        self,
        window: WindowId,
        icon: NotifyIconId,
        out: &mut [u8],
    ) -> Result<Standing, Refusal> {
        state_answer(ffi::notification(self, window.0, icon.0, out))
    }

    /// Looks up the picture in a cell of the icon cache.
    ///
    /// # Errors
    /// [`Refusal::UnfitMemory`]; [`Refusal::WrongId`] where the cell is empty or there
    /// is none.
    pub fn picture(self, cell: CacheCell) -> Result<Found<Picture>, Refusal> {
        let mut out = [0; Picture::SIZE];
        let standing = self.picture_bytes(cell, &mut out)?;
        let record = Picture::of(&out);
        Ok(Found { record, standing })
    }

    /// Looks up a picture and writes its [`Picture::SIZE`] bytes as
    /// [`window_bytes`](Self::window_bytes) does.
    ///
    /// # Errors
    /// As [`picture`](Self::picture), then [`Refusal::OutputTooSmall`].
    pub fn picture_bytes(self, cell: CacheCell, out: &mut [u8]) -> Result<Standing, Refusal> {
        state_answer(ffi::cell(self, cell.cache_id, cell.cache_entry, out))
    }

    /// Whether two holders of pictures share a place of the store, so that both show the
    /// one picture that was given to them.
    ///
    /// # Errors
    /// [`Refusal::UnfitMemory`]; [`Refusal::WrongId`] where one of them is not there or has
    /// no picture.
    pub fn shared(self, one: Holder, other: Holder) -> Result<Found<bool>, Refusal> {
        let mut out = [0; SHARED_SIZE];
        let standing = self.shared_bytes(one, other, &mut out)?;
        let record = out != [0];
        Ok(Found { record, standing })
    }

    /// Writes whether two holders share a place, one byte of 1 or 0, as
    /// [`window_bytes`](Self::window_bytes) does.
    ///
    /// # Errors
    /// As [`shared`](Self::shared), then [`Refusal::OutputTooSmall`].
    pub fn shared_bytes(
        self,
        one: Holder,
        other: Holder,
        out: &mut [u8],
    ) -> Result<Standing, Refusal> {
        state_answer(ffi::shared(self, one.numbers(), other.numbers(), out))
    }

    /// Looks up the desktop state.
    ///
    /// # Errors
    /// [`Refusal::UnfitMemory`].
    pub fn desktop(self) -> Result<Found<Desktop>, Refusal> {
        let mut out = [0; Desktop::SIZE];
        let standing = self.desktop_bytes(&mut out)?;
        let record = Desktop::of(&out);
        Ok(Found { record, standing })
    }

    /// Looks up the desktop state and writes its [`Desktop::SIZE`] bytes as
    /// [`window_bytes`](Self::window_bytes) does.
    ///
    /// # Errors
    /// As [`desktop`](Self::desktop), then [`Refusal::OutputTooSmall`].
    pub fn desktop_bytes(self, out: &mut [u8]) -> Result<Standing, Refusal> {
        state_answer(ffi::desktop(self, out))
    }

    /// How much was visible at the checkpoint: see [`Figure`].
    ///
    /// # Errors
    /// [`Refusal::UnfitMemory`].
    pub fn figure(self) -> Result<Found<Figure>, Refusal> {
        let mut out = [0; Figure::SIZE];
        let standing = self.figure_bytes(&mut out)?;
        let record = Figure::of(&out);
        Ok(Found { record, standing })
    }

    /// Writes the figure at the checkpoint, [`Figure::SIZE`] bytes, as
    /// [`window_bytes`](Self::window_bytes) does.
    ///
    /// # Errors
    /// As [`figure`](Self::figure), then [`Refusal::OutputTooSmall`].
    pub fn figure_bytes(self, out: &mut [u8]) -> Result<Standing, Refusal> {
        state_answer(ffi::figure(self, out))
    }

    /// The ids of all windows, each once and ascending.
    ///
    /// # Errors
    /// [`Refusal::UnfitMemory`].
    pub fn window_ids(self) -> Result<Found<Vec<WindowId>>, Refusal> {
        let mut out = [0; LIST_SIZE];
        let standing = self.window_ids_bytes(&mut out)?;
        let record = lists::window_ids(&out);
        Ok(Found { record, standing })
    }

    /// Writes the list of windows, [`LIST_SIZE`] bytes, as
    /// [`window_bytes`](Self::window_bytes) does.
    ///
    /// # Errors
    /// As [`window_ids`](Self::window_ids), then [`Refusal::OutputTooSmall`].
    pub fn window_ids_bytes(self, out: &mut [u8]) -> Result<Standing, Refusal> {
        state_answer(ffi::windows(self, out))
    }

    /// The ids of all notification icons, each once and ascending: by window id, then by
    /// notify-icon id.
    ///
    /// # Errors
    /// [`Refusal::UnfitMemory`].
    pub fn notification_icon_ids(self) -> Result<Found<Vec<(WindowId, NotifyIconId)>>, Refusal> {
        let mut out = [0; LIST_SIZE];
        let standing = self.notification_icon_ids_bytes(&mut out)?;
        let record = lists::notification_icon_ids(&out);
        Ok(Found { record, standing })
    }

    /// Writes the list of notification icons, [`LIST_SIZE`] bytes, as
    /// [`window_bytes`](Self::window_bytes) does.
    ///
    /// # Errors
    /// As [`notification_icon_ids`](Self::notification_icon_ids), then
    /// [`Refusal::OutputTooSmall`].
    pub fn notification_icon_ids_bytes(self, out: &mut [u8]) -> Result<Standing, Refusal> {
        state_answer(ffi::notifications(self, out))
    }
}

impl fmt::Debug for View<'_> {
    fn fmt(&self, f: &mut fmt::Formatter<'_>) -> fmt::Result {
        self.fmt_as("View", f)
    }
}

impl View<'_> {
    /// The lengths of the parts, whose bytes would be too many.
    pub(crate) fn fmt_as(self, name: &str, f: &mut fmt::Formatter<'_>) -> fmt::Result {
        let [a, b, c, d, e] = self.store.map(<[u8]>::len);
        f.debug_struct(name)
            .field("index", &format_args!("{} bytes", self.index.len()))
            .field("bodies", &format_args!("{} bytes", self.bodies.len()))
            .field("store", &format_args!("{a} + {b} + {c} + {d} + {e} bytes"))
            .field("journal", &format_args!("{} bytes", self.journal.len()))
            .finish()
    }
}
