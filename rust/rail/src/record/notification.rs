//! Notification icons.

use alloc::string::String;
use alloc::vec::Vec;

use super::reader::Reader;
use super::Picture;

/// A notification icon as the table has it. A field that no order has set is zero or
/// empty.
#[derive(Clone, Debug, Default, PartialEq, Eq)]
#[non_exhaustive]
pub struct NotificationIcon {
    /// How the icon behaves (Version).
    pub version: u32,
    /// How long the balloon is shown, in milliseconds (Timeout).
    pub balloon_timeout: u32,
    /// The balloon's icon and how it is shown (InfoFlags).
    pub balloon_info_flags: u32,
    /// The icon's state (State).
    pub state: u32,
    /// The picture last given to it, whatever its cell has now.
    pub icon: Option<Picture>,
    tool_tip: Vec<u16>,
    balloon_text: Vec<u16>,
    balloon_title: Vec<u16>,
}

impl NotificationIcon {
    /// The bytes in which a lookup hands it out.
    pub const SIZE: usize = Self::FIELDS + Picture::SIZE;
    /// Those before its picture.
    const FIELDS: usize = 916;
    /// The most bytes of the texts.
    const TOOL_TIP: usize = 256;
    const BALLOON_TEXT: usize = 510;
    const BALLOON_TITLE: usize = 126;

    /// The tool tip; what is no text in it becomes U+FFFD.
    pub fn tool_tip(&self) -> String {
        String::from_utf16_lossy(&self.tool_tip)
    }

    /// The tool tip as the server gave it.
    pub fn tool_tip_utf16(&self) -> &[u16] {
        &self.tool_tip
    }

    /// The balloon's text; what is no text in it becomes U+FFFD.
    pub fn balloon_text(&self) -> String {
        String::from_utf16_lossy(&self.balloon_text)
    }

    /// The balloon's text as the server gave it.
    pub fn balloon_text_utf16(&self) -> &[u16] {
        &self.balloon_text
    }

    /// The balloon's title; what is no text in it becomes U+FFFD.
    pub fn balloon_title(&self) -> String {
        String::from_utf16_lossy(&self.balloon_title)
    }

    /// The balloon's title as the server gave it.
    pub fn balloon_title_utf16(&self) -> &[u16] {
        &self.balloon_title
    }

    pub(crate) fn of(bytes: &[u8; Self::SIZE]) -> Self {
        let mut from = Reader(bytes);
        let shows_icon = from.yes();
        from.u8(); // zero
        Self {
            version: from.u32(),
            tool_tip: from.text(Self::TOOL_TIP),
            balloon_timeout: from.u32(),
            balloon_info_flags: from.u32(),
            balloon_text: from.text(Self::BALLOON_TEXT),
            balloon_title: from.text(Self::BALLOON_TITLE),
            state: from.u32(),
            icon: from.picture(shows_icon),
        }
    }
}

#[cfg(test)]
mod tests {
    use super::*;
    use crate::ffi;

    #[test]
    fn size_is_the_librarys() {
        assert_eq!(ffi::size(5), NotificationIcon::SIZE as u32);
    }

    /// Every field at its place in the layout.
    #[test]
    fn fields_by_place() {
        let mut bytes = [0; NotificationIcon::SIZE];
        let mut put = |at: usize, field: &[u8]| bytes[at..at + field.len()].copy_from_slice(field);
        put(0, &[1]);
        put(2, &[4, 0, 0, 0]);
        put(6, &[2, 0, 0x61, 0]);
        put(264, &[1, 0, 0, 0, 2, 0, 0, 0]);
        put(272, &[4, 0, 0x62, 0, 0x63, 0]);
        put(784, &[2, 0, 0x64, 0]);
        put(912, &[3, 0, 0, 0x80]);
        put(916, &[24, 1, 0, 1, 0, 0, 0, 3, 0, 1, 2, 3]);
        let icon = NotificationIcon {
            version: 4,
            balloon_timeout: 1,
            balloon_info_flags: 2,
            state: 0x8000_0003,
            icon: Some(Picture {
                bits_per_pixel: 24,
                width: 1,
                height: 1,
                mask: vec![],
                color_table: vec![],
                color: vec![1, 2, 3],
            }),
            tool_tip: vec![0x61],
            balloon_text: vec![0x62, 0x63],
            balloon_title: vec![0x64],
        };
        assert_eq!(NotificationIcon::of(&bytes), icon);
        assert_eq!(icon.tool_tip(), "a");
        assert_eq!(icon.balloon_text(), "bc");
        assert_eq!(icon.balloon_title(), "d");
        assert_eq!(icon.tool_tip_utf16(), [0x61]);
        assert_eq!(icon.balloon_text_utf16(), [0x62, 0x63]);
        assert_eq!(icon.balloon_title_utf16(), [0x64]);
        bytes[0] = 0;
        assert_eq!(NotificationIcon::of(&bytes).icon, None);
    }
}
