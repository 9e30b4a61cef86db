//! The windows and the notification icons of a session, one after the other.

use alloc::vec;

use super::Session;
use crate::ids::{NotifyIconId, WindowId};
use crate::record::{NotificationIcon, Window};

/// Windows with their ids; see [`Session::windows`] and
/// [`Session::windows_in_z_order`].
#[derive(Debug)]
pub struct Windows<'a> {
    pub(super) session: &'a Session,
    pub(super) ids: vec::IntoIter<WindowId>,
}

impl Iterator for Windows<'_> {
    type Item = (WindowId, Window);

    fn next(&mut self) -> Option<Self::Item> {
        let session = self.session;
        let listed = |id| Some((id, session.window(id).ok()?));
        self.ids.find_map(listed)
    }
}

/// Notification icons with their ids; see [`Session::notification_icons`].
#[derive(Debug)]
pub struct NotificationIcons<'a> {
    pub(super) session: &'a Session,
    pub(super) ids: vec::IntoIter<(WindowId, NotifyIconId)>,
}

impl Iterator for NotificationIcons<'_> {
    type Item = ((WindowId, NotifyIconId), NotificationIcon);

    fn next(&mut self) -> Option<Self::Item> {
        let session = self.session;
        let listed = |(window, icon)| {
            let record = session.notification_icon(window, icon).ok()?;
            Some(((window, icon), record))
        };
        self.ids.find_map(listed)
    }
}
