//! RDP Remote Programs (RAIL) at the terminal's end, over a proved library.
//!
//! A [`Session`] takes the windowing orders of a server as they come and keeps what
//! they make: windows, notification icons, the icon cache and the desktop. An order
//! is used whole or refused whole, and a [`Refusal`] says why ([`Session::explain`]: at
//! which byte). Orders since the last checkpoint can be taken back. A [`Message`] is one
//! of the 15 control messages, read from bytes and written to bytes, in the counter profile
//! where a [`Profile`] says so; a [`Channel`] hands them out of the chunks that they arrive
//! in.
//!
//! ```
//! use rail::{Refusal, Session, WindowId};
//!
//! let mut session = Session::new();
//! let order = [0x2E, 15, 0, 0x04, 0, 0, 0x11, 0x58, 0, 1, 0, 2, 0, 0x41, 0];
//! let standing = session.deliver(&order)?;
//! assert_eq!((standing.orders, standing.bytes), (1, 15));
//!
//! // The window is new only once.
//! assert_eq!(session.deliver(&order), Err(Refusal::WrongId));
//!
//! let id = WindowId(0x0001_0058);
//! assert_eq!(session.window(id)?.title(), "A");
//!
//! session.undo(1)?;
//! assert_eq!(session.window(id), Err(Refusal::WrongId));
//! # Ok::<(), Refusal>(())
//! ```
//!
//! What is proved is the library: every call ends with a number of document 01's
//! list, a refusal changes no byte of the memory (but for what a [`Channel`] has begun),
//! and a list of calls answers as a
//! plain book of the orders does. This crate, which lends it memory and gives names
//! to the bytes it hands out, is not proved but tested.
//!
//! The library has no state of its own and keeps nothing that it is lent, so calls
//! on different sessions can run at once, and so can lookups on the same one.
//!
//! Without the feature `std`, which is on by default, the crate needs `alloc` alone.

#![cfg_attr(not(any(feature = "std", test)), no_std)]
#![deny(missing_docs)]
#![deny(unsafe_code)]

#[macro_use]
extern crate alloc;

mod answer;
mod channel;
mod explain;
mod ffi;
mod figure;
mod ids;
mod memory;
mod message;
mod order;
mod profile;
pub mod protocol;
mod record;
mod run;
mod session;
mod session_record;
mod text;
mod update;
mod view;

pub use answer::{Found, Refusal, Standing, UnknownNumber};
pub use channel::{Channel, CHUNK_SIZE};
pub use explain::{Explanation, RefusedOrder};
pub use figure::Figure;
pub use ids::{NotifyIconId, WindowId};
pub use memory::{
    LentSession, Memory, BODIES_SIZE, FEWEST_PLACES, INDEX_SIZE, JOURNAL_SIZE, MOST_PLACES,
    PLACE_SIZE, STORE_PARTS,
};
pub use message::{Message, Setting, MESSAGE_LIMIT};
pub use order::{orders, Change, Changed, Orders};
pub use profile::Profile;
pub use record::lists::LIST_SIZE;
pub use record::{
    CacheCell, Desktop, Holder, Margins, NotificationIcon, Picture, Point, Rectangle, ShowState,
    Size, Window,
};
pub use run::{answers, run, script, Call, HandedOut, Run};
pub use session::{NotificationIcons, Session, Windows};
pub use session_record::{Bodies, Record, RECORD_LIMIT};
pub use text::{text_lossy, utf16_bytes};
pub use update::{Report, Taken};
pub use view::View;

/// The Rust of the guide compiles.
#[cfg(doctest)]
#[doc = include_str!("../../../docs/GUIDE.md")]
struct Guide;
