//! The bytes of a record, taken field by field.

use alloc::vec::Vec;

use super::{Margins, Picture, Point, Rectangle, Size};
use crate::figure::Figure;
use crate::ids::WindowId;
use crate::text::units;

/// The most rectangles of a list.
const RECTANGLES: usize = 16;
/// The bytes of a rectangle.
const RECTANGLE_SIZE: usize = 8;

/// The bytes not yet taken. Taking more than there are panics: the places of a
/// record are fixed, and its lengths and counts are proved to stay in their rooms.
pub(super) struct Reader<'a>(pub(super) &'a [u8]);

impl<'a> Reader<'a> {
    pub(super) fn bytes(&mut self, length: usize) -> &'a [u8] {
        let (taken, rest) = self.0.split_at(length);
        self.0 = rest;
        taken
    }

    fn array<const N: usize>(&mut self) -> [u8; N] {
        let (taken, rest) = self.0.split_first_chunk().expect("a record has its fields");
        self.0 = rest;
        *taken
    }

    pub(super) fn u8(&mut self) -> u8 {
        self.array::<1>()[0]
    }

    pub(super) fn yes(&mut self) -> bool {
        self.u8() != 0
    }

    pub(super) fn u16(&mut self) -> u16 {
        u16::from_le_bytes(self.array())
    }

    pub(super) fn u32(&mut self) -> u32 {
        u32::from_le_bytes(self.array())
    }

    pub(super) fn figure(&mut self) -> Figure {
        Figure::of(&self.array())
    }

    pub(super) fn window_id(&mut self) -> WindowId {
        WindowId(self.u32())
    }

    /// Two's complement.
    pub(super) fn point(&mut self) -> Point {
        let [x, y] = [self.array(), self.array()].map(i32::from_le_bytes);
        Point { x, y }
    }

    pub(super) fn size(&mut self) -> Size {
        let [width, height] = [self.u32(), self.u32()];
        Size { width, height }
    }

    pub(super) fn margins(&mut self) -> Margins {
        let [left, right, top, bottom] = [self.u32(), self.u32(), self.u32(), self.u32()];
        Margins {
            left,
            right,
            top,
            bottom,
        }
    }

    /// The picture that is shown, or zeros in its place.
    pub(super) fn picture(&mut self, shown: bool) -> Option<Picture> {
        let bytes = self.array();
        shown.then(|| Picture::of(&bytes))
    }

    /// A length in bytes, and UTF-16 in a room of that many bytes.
    pub(super) fn text(&mut self, room: usize) -> Vec<u16> {
        let length = usize::from(self.u16());
        units(&self.bytes(room)[..length])
    }

    /// A count, and rectangles in a room for 16.
    pub(super) fn rectangles(&mut self) -> Vec<Rectangle> {
        let length = usize::from(self.u16()) * RECTANGLE_SIZE;
        let room = self.bytes(RECTANGLES * RECTANGLE_SIZE);
        let mut reader = Reader(&room[..length]);
        let mut rectangles = Vec::with_capacity(length / RECTANGLE_SIZE);
        while !reader.0.is_empty() {
            rectangles.push(Rectangle {
                left: reader.u16(),
                top: reader.u16(),
                right: reader.u16(),
                bottom: reader.u16(),
            });
        }
        rectangles
    }

    /// A count of one byte, and window ids in a room for that many.
    pub(super) fn window_ids(&mut self, room: usize) -> Vec<WindowId> {
        let length = usize::from(self.u8()) * 4;
        let mut reader = Reader(&self.bytes(room * 4)[..length]);
        (0..length / 4).map(|_| reader.window_id()).collect()
    }
}

#[cfg(test)]
mod tests {
    use super::*;

    #[test]
    fn pictures_where_they_are_shown() {
        let mut bytes = [0; 2 * Picture::SIZE];
        bytes[0] = 32;
        let mut reader = Reader(&bytes);
        assert_eq!(reader.picture(true).map(|it| it.bits_per_pixel), Some(32));
        assert_eq!(reader.picture(false), None);
        assert!(reader.0.is_empty());
    }

    #[test]
    fn points_are_signed_and_sizes_are_not() {
        let bytes = [0x9C, 0xFF, 0xFF, 0xFF, 0, 0, 0, 0x80];
        let (x, y) = (-100, i32::MIN);
        assert_eq!(Reader(&bytes).point(), Point { x, y });
        let (width, height) = (0xFFFF_FF9C, 0x8000_0000);
        assert_eq!(Reader(&bytes).size(), Size { width, height });
    }

    #[test]
    fn lists_end_at_their_count() {
        let mut bytes = [0xEE; 2 + 128];
        bytes[..10].copy_from_slice(&[1, 0, 1, 0, 2, 0, 3, 0, 4, 1]);
        let mut reader = Reader(&bytes);
        let rectangle = Rectangle {
            left: 1,
            top: 2,
            right: 3,
            bottom: 0x104,
        };
        assert_eq!(reader.rectangles(), [rectangle]);
        assert!(reader.0.is_empty());

        let mut reader = Reader(&[1, 0x58, 0, 1, 0, 9, 9, 9, 9, 7]);
        assert_eq!(reader.window_ids(2), [WindowId(0x0001_0058)]);
        assert_eq!(reader.u8(), 7);

        let mut reader = Reader(&[2, 0, 0x41, 0, 9, 9, 7]);
        assert_eq!(reader.text(4), [0x41]);
        assert_eq!(reader.u8(), 7);
    }

    #[test]
    #[should_panic]
    fn a_count_past_its_room() {
        let mut bytes = [0; 2 + 128];
        bytes[0] = 17;
        Reader(&bytes).rectangles();
    }
}
