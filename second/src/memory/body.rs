//! The body of a record: two marks, then each field at a fixed place with room for the
//! most that it may take.

use crate::ids::WindowId;
use crate::order::rules::{
    self, BALLOON_TEXT_LIMIT, BALLOON_TITLE_LIMIT, ID_SIZE, OVERLAY_TEXT_LIMIT, RECTS_LIMIT,
    RECT_SIZE, STACK_LIMIT, TIP_LIMIT, TITLE_LIMIT,
};
use crate::table::{Desktop, NotificationIcon, Rect, Window};

/// The fields of a body that are still to be read.
pub struct Fields<'a> {
    rest: &'a [u8],
}

impl<'a> Fields<'a> {
    /// Those of a body, from its marks on.
    pub fn of(body: &'a [u8]) -> Self {
        Self { rest: body }
    }

    /// The two marks.
    pub fn marks(&mut self) -> [u8; 2] {
        [self.u8(), self.u8()]
    }

    /// The fields of a window, if each is in its set.
    pub fn window(&mut self) -> Option<Window> {
        Some(Window {
            owner: self.id(),
            style: self.u32(),
            extended_style: self.u32(),
            show_state: Some(self.u8()).filter(|&show| rules::show_state(show))?,
            title: self.string(TITLE_LIMIT)?,
            client_offset: self.offset(),
            client_size: self.size(),
            margin_x: self.size(),
            margin_y: self.size(),
            rp_content: self.yes_or_no()?,
            root_parent: self.id(),
            window_offset: self.offset(),
            client_delta: self.offset(),
            window_size: self.size(),
            window_rects: self.rects()?,
            visible_offset: self.offset(),
            visibility_rects: self.rects()?,
            overlay_text: self.string(OVERLAY_TEXT_LIMIT)?,
            taskbar: self.yes_or_no()?,
            server_z: self.yes_or_no()?,
            app_bar: self.yes_or_no()?,
            edge: Some(self.u8()).filter(|&edge| rules::edge(edge))?,
        })
    }

    /// The fields of a notification icon, if each is in its set.
    pub fn notification(&mut self) -> Option<NotificationIcon> {
        Some(NotificationIcon {
            version: self.u32(),
            tip: self.string(TIP_LIMIT)?,
            balloon_timeout: self.u32(),
            balloon_flags: self.u32(),
            balloon_text: self.string(BALLOON_TEXT_LIMIT)?,
            balloon_title: self.string(BALLOON_TITLE_LIMIT)?,
            state: self.u32(),
        })
    }

    /// The desktop state, marks and fields, if each is in its set.
    pub fn desktop(&mut self) -> Option<Desktop> {
        let [hooked, syncing] = self.marks();
        if hooked > 1 || syncing > 1 {
            return None;
        }
        let active = self.id();
        let count = Some(usize::from(self.u8())).filter(|&count| rules::stack(count))?;
        let room = self.take(ID_SIZE * STACK_LIMIT);
        let ids = room[..ID_SIZE * count].chunks_exact(ID_SIZE);
        Some(Desktop {
            active,
            hooked: hooked == 1,
            syncing: syncing == 1,
            stack: ids.map(|id| Fields::of(id).id()).collect(),
        })
    }

    fn take(&mut self, size: usize) -> &'a [u8] {
        let (bytes, rest) = self.rest.split_at(size);
        self.rest = rest;
        bytes
    }

    fn array<const N: usize>(&mut self) -> [u8; N] {
        self.take(N).try_into().expect("as many as were taken")
    }

    fn u8(&mut self) -> u8 {
        u8::from_le_bytes(self.array())
    }

    fn yes_or_no(&mut self) -> Option<u8> {
        Some(self.u8()).filter(|&number| rules::yes_or_no(number))
    }

    fn u16(&mut self) -> u16 {
        u16::from_le_bytes(self.array())
    }

    fn u32(&mut self) -> u32 {
        u32::from_le_bytes(self.array())
    }

    fn id(&mut self) -> WindowId {
        WindowId(self.u32())
    }

    fn offset(&mut self) -> (i32, i32) {
        let mut number = || i32::from_le_bytes(self.array());
        (number(), number())
    }

    fn size(&mut self) -> (u32, u32) {
        (self.u32(), self.u32())
    }

    fn string(&mut self, limit: usize) -> Option<Vec<u8>> {
        let length = usize::from(self.u16());
        let room = self.take(limit);
        rules::string(length, limit).then(|| room[..length].to_vec())
    }

    fn rects(&mut self) -> Option<Vec<Rect>> {
        let count = usize::from(self.u16());
        let room = self.take(RECT_SIZE * RECTS_LIMIT);
        let rect = |sides: &[u8]| {
            let mut sides = Fields::of(sides);
            Rect {
                left: sides.u16(),
                top: sides.u16(),
                right: sides.u16(),
                bottom: sides.u16(),
            }
        };
        let all = || room[..RECT_SIZE * count].chunks_exact(RECT_SIZE).map(rect);
        rules::rects(count).then(|| all().collect())
    }
}
