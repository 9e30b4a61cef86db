//! Judging: the bytes of one order into what it carries.

use super::flags::{self, clash, closed_list};
use super::rules::{self, ID_SIZE, RECT_SIZE};
use super::{Balloon, CellPlace, Icon, Picture};
use super::{DesktopFields, DesktopOrder, Order};
use super::{NotificationChange, NotificationFields, NotificationOrder};
use super::{WindowChange, WindowFields, WindowIcon, WindowOrder};
use crate::ids::{NotifyIconId, WindowId};
use crate::number::{
    CLASH, LENGTH_DIFFERS, NOT_FILLED, OUTSIDE_LIST, OUTSIDE_SET, TOO_SHORT, UNKNOWN_TYPE,
};

/// The first byte of an order: class 2, order type 0B.
const FIRST_BYTE: u8 = 0x2E;

/// Judges one order. A refusal is 2 to 8, the first that applies.
pub fn judge(order: &[u8]) -> Result<Order<'_>, u8> {
    let order = decode(order)?;
    if rules::allowed(&order) {
        Ok(order)
    } else {
        Err(OUTSIDE_SET)
    }
}

/// As [`judge`], but the fields may hold any number: a refusal is 2 to 7.
pub fn decode(order: &[u8]) -> Result<Order<'_>, u8> {
    let Some((&[first, low, high, ref flags @ ..], body)) = order.split_first_chunk::<7>() else {
        return Err(TOO_SHORT);
    };
    if usize::from(u16::from_le_bytes([low, high])) != order.len() {
        return Err(LENGTH_DIFFERS);
    }
    let flags = u32::from_le_bytes(*flags);
    let kind = flags & flags::TYPES;
    if first != FIRST_BYTE || kind.count_ones() != 1 {
        return Err(UNKNOWN_TYPE);
    }
    if flags & !closed_list(kind) != 0 {
        return Err(OUTSIDE_LIST);
    }
    if clash(kind, flags) {
        return Err(CLASH);
    }
    let mut body = Body { flags, rest: body };
    let order = match kind {
        flags::WINDOW => Order::Window(body.window()?),
        flags::NOTIFICATION => Order::Notification(body.notification()?),
        _ => Order::Desktop(body.desktop()?),
    };
    if body.rest.is_empty() {
        Ok(order)
    } else {
        Err(NOT_FILLED)
    }
}

/// The flags of an order and the bytes of it not yet taken.
struct Body<'a> {
    flags: u32,
    rest: &'a [u8],
}

impl<'a> Body<'a> {
    fn window(&mut self) -> Result<WindowOrder<'a>, u8> {
        let window_id = self.window_id()?;
        let change = if self.has(flags::DELETED) {
            WindowChange::Delete
        } else if let Some(picture) = self.picture()? {
            let which = if self.has(flags::BIG) {
                WindowIcon::Big
            } else if self.has(flags::OVERLAY) {
                WindowIcon::Overlay
            } else {
                WindowIcon::Small
            };
            WindowChange::Picture { which, picture }
        } else if self.has(flags::NEW) {
            WindowChange::New(self.window_fields()?)
        } else {
            WindowChange::Update(self.window_fields()?)
        };
        Ok(WindowOrder { window_id, change })
    }

    /// The fields of a window, in carried order.
    fn window_fields(&mut self) -> Result<WindowFields<'a>, u8> {
        Ok(WindowFields {
            owner: self.field(flags::OWNER, Self::window_id)?,
            style: self.field(flags::STYLE, Self::pair)?,
            show_state: self.field(flags::SHOW, Self::u8)?,
            title: self.field(flags::TITLE, Self::string)?,
            client_offset: self.field(flags::CLIENT_OFFSET, Self::offset)?,
            client_size: self.field(flags::CLIENT_SIZE, Self::pair)?,
            margin_x: self.field(flags::MARGIN_X, Self::pair)?,
            margin_y: self.field(flags::MARGIN_Y, Self::pair)?,
            rp_content: self.field(flags::RP_CONTENT, Self::u8)?,
            root_parent: self.field(flags::ROOT_PARENT, Self::window_id)?,
            window_offset: self.field(flags::WINDOW_OFFSET, Self::offset)?,
            client_delta: self.field(flags::CLIENT_DELTA, Self::offset)?,
            window_size: self.field(flags::WINDOW_SIZE, Self::pair)?,
            window_rects: self.field(flags::WINDOW_RECTS, Self::rects)?,
            visible_offset: self.field(flags::VISIBLE_OFFSET, Self::offset)?,
            visibility_rects: self.field(flags::VISIBILITY, Self::rects)?,
            overlay_text: self.field(flags::OVERLAY_TEXT, Self::string)?,
            taskbar: self.field(flags::TASKBAR, Self::u8)?,
            server_z: self.field(flags::SERVER_Z, Self::u8)?,
            app_bar: self.field(flags::APP_BAR, Self::u8)?,
            edge: self.field(flags::EDGE, Self::u8)?,
            overlay_none: self.has(flags::OVERLAY_NONE),
        })
    }

    fn notification(&mut self) -> Result<NotificationOrder<'a>, u8> {
        let window_id = self.window_id()?;
        let notify_icon_id = NotifyIconId(self.u32()?);
        let change = if self.has(flags::DELETED) {
            NotificationChange::Delete
        } else if self.has(flags::NEW) {
            NotificationChange::New(self.notification_fields()?)
        } else {
            NotificationChange::Update(self.notification_fields()?)
        };
        Ok(NotificationOrder {
            window_id,
            notify_icon_id,
            change,
        })
    }

    /// The fields of a notification icon, in carried order.
    fn notification_fields(&mut self) -> Result<NotificationFields<'a>, u8> {
        Ok(NotificationFields {
            version: self.field(flags::VERSION, Self::u32)?,
            tip: self.field(flags::TIP, Self::string)?,
            balloon: self.field(flags::BALLOON, Self::balloon)?,
            state: self.field(flags::STATE, Self::u32)?,
            picture: self.picture()?,
        })
    }

    fn desktop(&mut self) -> Result<DesktopOrder<'a>, u8> {
        if self.has(flags::NONE) {
            return Ok(DesktopOrder::None);
        }
        let syncing = match (self.has(flags::SYNC_STARTS), self.has(flags::SYNC_ENDS)) {
            (false, false) => None,
            (starts, _) => Some(starts),
        };
        Ok(DesktopOrder::Monitored(DesktopFields {
            hooked: self.has(flags::HOOKED),
            syncing,
            active: self.field(flags::ACTIVE, Self::window_id)?,
            stack: self.field(flags::STACK, Self::stack)?,
        }))
    }

    fn balloon(&mut self) -> Result<Balloon<'a>, u8> {
        Ok(Balloon {
            timeout: self.u32()?,
            flags: self.u32()?,
            text: self.string()?,
            title: self.string()?,
        })
    }

    /// The icon or the cached icon, if the order has one.
    fn picture(&mut self) -> Result<Option<Picture<'a>>, u8> {
        Ok(if self.has(flags::ICON) {
            Some(Picture::Icon(self.icon()?))
        } else if self.has(flags::CACHED_ICON) {
            Some(Picture::Cached(self.place()?))
        } else {
            None
        })
    }

    fn icon(&mut self) -> Result<Icon<'a>, u8> {
        let place = self.place()?;
        let bits_per_pixel = self.u8()?;
        let (width, height) = (self.u16()?, self.u16()?);
        let color_table = match bits_per_pixel {
            1 | 4 | 8 => self.length()?,
            _ => 0,
        };
        let (mask, color) = (self.length()?, self.length()?);
        Ok(Icon {
            place,
            bits_per_pixel,
            width,
            height,
            mask: self.take(mask)?,
            color_table: self.take(color_table)?,
            color: self.take(color)?,
        })
    }

    fn place(&mut self) -> Result<CellPlace, u8> {
        let entry = self.u16()?;
        let cache = self.u8()?;
        Ok(CellPlace { cache, entry })
    }

    fn has(&self, flag: u32) -> bool {
        self.flags & flag != 0
    }

    /// The field that a flag stands for, if it is set.
    fn field<T>(
        &mut self,
        flag: u32,
        read: fn(&mut Self) -> Result<T, u8>,
    ) -> Result<Option<T>, u8> {
        if self.has(flag) {
            read(self).map(Some)
        } else {
            Ok(None)
        }
    }

    fn string(&mut self) -> Result<&'a [u8], u8> {
        let length = self.length()?;
        self.take(length)
    }

    fn rects(&mut self) -> Result<&'a [u8], u8> {
        let count = self.length()?;
        self.take(count * RECT_SIZE)
    }

    fn stack(&mut self) -> Result<&'a [u8], u8> {
        let count = usize::from(self.u8()?);
        self.take(count * ID_SIZE)
    }

    fn window_id(&mut self) -> Result<WindowId, u8> {
        self.u32().map(WindowId)
    }

    /// An offset: x and y in two's complement.
    fn offset(&mut self) -> Result<(i32, i32), u8> {
        Ok((self.i32()?, self.i32()?))
    }

    fn pair(&mut self) -> Result<(u32, u32), u8> {
        Ok((self.u32()?, self.u32()?))
    }

    fn length(&mut self) -> Result<usize, u8> {
        self.u16().map(usize::from)
    }

    fn u8(&mut self) -> Result<u8, u8> {
        self.array().map(u8::from_le_bytes)
    }

    fn u16(&mut self) -> Result<u16, u8> {
        self.array().map(u16::from_le_bytes)
    }

    fn u32(&mut self) -> Result<u32, u8> {
        self.array().map(u32::from_le_bytes)
    }

    fn i32(&mut self) -> Result<i32, u8> {
        self.array().map(i32::from_le_bytes)
    }

    fn array<const N: usize>(&mut self) -> Result<[u8; N], u8> {
        let (array, rest) = self.rest.split_first_chunk().ok_or(NOT_FILLED)?;
        self.rest = rest;
        Ok(*array)
    }

    fn take(&mut self, length: usize) -> Result<&'a [u8], u8> {
        let (bytes, rest) = self.rest.split_at_checked(length).ok_or(NOT_FILLED)?;
        self.rest = rest;
        Ok(bytes)
    }
}
