//! Window ids and notify-icon ids: two separate counts, so two types.

/// A window's id, given by the server.
#[derive(Clone, Copy, Debug, Default, PartialEq, Eq, Hash, PartialOrd, Ord)]
pub struct WindowId(pub u32);

/// A notification icon's id, given by the application that owns it.
#[derive(Clone, Copy, Debug, PartialEq, Eq, Hash, PartialOrd, Ord)]
pub struct NotifyIconId(pub u32);
