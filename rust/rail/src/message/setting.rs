//! The settings of system parameters, and as words: the number, then the data.

use super::words::{filled, Fields};
use crate::ffi::Words;
use crate::protocol::{
    RAIL_SPI_DISPLAYCHANGE, RAIL_SPI_TASKBARPOS, SPI_SETDRAGFULLWINDOWS, SPI_SETHIGHCONTRAST,
    SPI_SETKEYBOARDCUES, SPI_SETKEYBOARDPREF, SPI_SETMOUSEBUTTONSWAP, SPI_SETSCREENSAVEACTIVE,
    SPI_SETSCREENSAVESECURE, SPI_SETWORKAREA,
};
use crate::record::Rectangle;

/// A setting with its data. The terminal sends the first eight, the server the last
/// two. Bytes and rectangles take any value.
///
/// ```
/// use rail::{Message, Rectangle, Refusal, Setting};
///
/// let area = Rectangle { left: 0, top: 0, right: 1920, bottom: 1040 };
/// let message = Message::SystemParameters { setting: Setting::WorkArea(area) };
/// let bytes = message.to_vec()?;
/// assert_eq!(bytes, [3, 0, 16, 0, 0x2F, 0, 0, 0, 0, 0, 0, 0, 0x80, 7, 0x10, 4]);
/// assert_eq!(Message::read(&bytes)?, message);
/// # Ok::<(), Refusal>(())
/// ```
#[derive(Clone, Copy, Debug, PartialEq, Eq)]
#[non_exhaustive]
pub enum Setting<'a> {
    /// `SPI_SETDRAGFULLWINDOWS`: windows are shown whole while they are dragged.
    DragFullWindows(u8),
    /// `SPI_SETKEYBOARDCUES`: access keys of menus are always underlined.
    KeyboardCues(u8),
    /// `SPI_SETKEYBOARDPREF`: the keyboard is preferred to the mouse.
    KeyboardPref(u8),
    /// `SPI_SETMOUSEBUTTONSWAP`: the mouse buttons are swapped.
    MouseButtonSwap(u8),
    /// `SPI_SETWORKAREA`: the part of the screen that taskbar and toolbars leave.
    WorkArea(Rectangle),
    /// `RAIL_SPI_TASKBARPOS`: the size of the taskbar.
    TaskbarPos(Rectangle),
    /// `RAIL_SPI_DISPLAYCHANGE`: the display resolution.
    DisplayChange(Rectangle),
    /// `SPI_SETHIGHCONTRAST`.
    HighContrast {
        /// Any bits.
        flags: u32,
        /// The name of the color scheme, up to 520 bytes.
        color_scheme: &'a [u8],
    },
    /// `SPI_SETSCREENSAVEACTIVE`: the screen saver is enabled.
    ScreenSaveActive(u8),
    /// `SPI_SETSCREENSAVESECURE`: the desktop is locked after the screen saver.
    ScreenSaveSecure(u8),
}

/// The setting of words after the type.
pub(super) fn setting_of<'a>(from: &mut Fields<'_, 'a>) -> Setting<'a> {
    match from.u32() {
        SPI_SETDRAGFULLWINDOWS => Setting::DragFullWindows(from.u8()),
        SPI_SETKEYBOARDCUES => Setting::KeyboardCues(from.u8()),
        SPI_SETKEYBOARDPREF => Setting::KeyboardPref(from.u8()),
        SPI_SETMOUSEBUTTONSWAP => Setting::MouseButtonSwap(from.u8()),
        SPI_SETWORKAREA => Setting::WorkArea(area(from)),
        RAIL_SPI_TASKBARPOS => Setting::TaskbarPos(area(from)),
        RAIL_SPI_DISPLAYCHANGE => Setting::DisplayChange(area(from)),
        SPI_SETHIGHCONTRAST => Setting::HighContrast {
            flags: from.u32(),
            color_scheme: from.string(),
        },
        SPI_SETSCREENSAVEACTIVE => Setting::ScreenSaveActive(from.u8()),
        SPI_SETSCREENSAVESECURE => Setting::ScreenSaveSecure(from.u8()),
        number => unreachable!("the library grants no setting {number:08X}"),
    }
}

fn area(from: &mut Fields<'_, '_>) -> Rectangle {
    Rectangle {
        left: from.u16(),
        top: from.u16(),
        right: from.u16(),
        bottom: from.u16(),
    }
}

/// The words of a message with this setting, whose string has that place and length.
pub(super) fn words_of_setting(kind: u32, setting: &Setting<'_>, place: [u32; 2]) -> Words {
    let byte = |number, value: u8| filled([kind, number, value.into()]);
    let rectangle = |number, area: Rectangle| {
        let Rectangle {
            left,
            top,
            right,
            bottom,
        } = area;
        let [left, top, right, bottom] = [left, top, right, bottom].map(u32::from);
        filled([kind, number, left, top, right, bottom])
    };
    match *setting {
        Setting::DragFullWindows(value) => byte(SPI_SETDRAGFULLWINDOWS, value),
        Setting::KeyboardCues(value) => byte(SPI_SETKEYBOARDCUES, value),
        Setting::KeyboardPref(value) => byte(SPI_SETKEYBOARDPREF, value),
        Setting::MouseButtonSwap(value) => byte(SPI_SETMOUSEBUTTONSWAP, value),
        Setting::WorkArea(area) => rectangle(SPI_SETWORKAREA, area),
        Setting::TaskbarPos(area) => rectangle(RAIL_SPI_TASKBARPOS, area),
        Setting::DisplayChange(area) => rectangle(RAIL_SPI_DISPLAYCHANGE, area),
        Setting::HighContrast { flags, .. } => {
            let [at, length] = place;
            filled([kind, SPI_SETHIGHCONTRAST, flags, at, length])
        }
        Setting::ScreenSaveActive(value) => byte(SPI_SETSCREENSAVEACTIVE, value),
        Setting::ScreenSaveSecure(value) => byte(SPI_SETSCREENSAVESECURE, value),
    }
}
