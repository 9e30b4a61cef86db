//! The settings of system parameters and what each carries.

/// Client: dragged windows are shown whole.
pub const SPI_SETDRAGFULLWINDOWS: u32 = 0x0000_0025;
/// Client: the letters that open menus are always underlined.
pub const SPI_SETKEYBOARDCUES: u32 = 0x0000_100B;
/// Client: the keyboard is preferred to the mouse.
pub const SPI_SETKEYBOARDPREF: u32 = 0x0000_0045;
/// Client: the mouse buttons are swapped.
pub const SPI_SETMOUSEBUTTONSWAP: u32 = 0x0000_0021;
/// Client: what the taskbar and toolbars leave of the screen.
pub const SPI_SETWORKAREA: u32 = 0x0000_002F;
/// Client: the size of its taskbar.
pub const RAIL_SPI_TASKBARPOS: u32 = 0x0000_F000;
/// Client: its display resolution.
pub const RAIL_SPI_DISPLAYCHANGE: u32 = 0x0000_F001;
/// Client: high contrast.
pub const SPI_SETHIGHCONTRAST: u32 = 0x0000_0043;
/// Server: the screen saver is enabled.
pub const SPI_SETSCREENSAVEACTIVE: u32 = 0x0000_0011;
/// Server: the desktop is locked after the screen saver.
pub const SPI_SETSCREENSAVESECURE: u32 = 0x0000_0077;

/// What a setting carries.
#[derive(Clone, Copy, Debug, PartialEq, Eq)]
pub enum Body<'a> {
    /// One byte.
    Value(u8),
    /// A rectangle.
    Area(Area),
    /// High contrast.
    Contrast(Contrast<'a>),
}

/// A rectangle of a setting.
#[derive(Clone, Copy, Debug, PartialEq, Eq)]
#[allow(missing_docs)]
pub struct Area {
    pub left: u16,
    pub top: u16,
    pub right: u16,
    pub bottom: u16,
}

/// High contrast, without the two lengths.
#[derive(Clone, Copy, Debug, PartialEq, Eq)]
#[allow(missing_docs)]
pub struct Contrast<'a> {
    pub flags: u32,
    pub color_scheme: &'a [u8],
}

/// The form of a body.
#[derive(Clone, Copy, Debug, PartialEq, Eq)]
#[allow(missing_docs)]
pub enum Form {
    Value,
    Area,
    Contrast,
}

/// The form of what a setting carries; none for a number that is no setting. All
/// four bytes count.
#[inline]
pub fn form(setting: u32) -> Option<Form> {
    match setting {
        SPI_SETDRAGFULLWINDOWS
        | SPI_SETKEYBOARDCUES
        | SPI_SETKEYBOARDPREF
        | SPI_SETMOUSEBUTTONSWAP
        | SPI_SETSCREENSAVEACTIVE
        | SPI_SETSCREENSAVESECURE => Some(Form::Value),
        SPI_SETWORKAREA | RAIL_SPI_TASKBARPOS | RAIL_SPI_DISPLAYCHANGE => Some(Form::Area),
        SPI_SETHIGHCONTRAST => Some(Form::Contrast),
        _ => None,
    }
}

impl Body<'_> {
    /// The form of this body.
    #[inline]
    pub fn form(&self) -> Form {
        match self {
            Body::Value(_) => Form::Value,
            Body::Area(_) => Form::Area,
            Body::Contrast(_) => Form::Contrast,
        }
    }
}
