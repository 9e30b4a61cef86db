//! Pictures of icons.

use alloc::vec::Vec;

use super::reader::Reader;

/// The picture that a window or a notification icon shows, or that a filled cell of the icon
/// cache has (TS_ICON_INFO from Bpp on).
#[derive(Clone, Debug, Default, PartialEq, Eq)]
#[non_exhaustive]
pub struct Picture {
    /// Bits per pixel (Bpp): 1, 4, 8, 16, 24 or 32.
    pub bits_per_pixel: u8,
    /// The width in pixels, 1 to 32.
    pub width: u16,
    /// The height in pixels, 1 to 32.
    pub height: u16,
    /// The mask (BitsMask), as the server sent it.
    pub mask: Vec<u8>,
    /// The color table (ColorTable), with at most 8 bits per pixel.
    pub color_table: Vec<u8>,
    /// The pixels (BitsColor), as the server sent them.
    pub color: Vec<u8>,
}

impl Picture {
    /// The bytes in which a lookup hands it out.
    pub const SIZE: usize = 4_235;

    pub(crate) fn of(bytes: &[u8; Self::SIZE]) -> Self {
        let mut from = Reader(bytes);
        let bits_per_pixel = from.u8();
        let width = from.u16();
        let height = from.u16();
        let color_table = match bits_per_pixel {
            1 | 4 | 8 => from.u16(),
            _ => 0,
        };
        let mask = from.u16();
        let color = from.u16();
        let mut bytes = |length: u16| from.bytes(length.into()).to_vec();
        Self {
            bits_per_pixel,
            width,
            height,
            mask: bytes(mask),
            color_table: bytes(color_table),
            color: bytes(color),
        }
    }
}

#[cfg(test)]
mod tests {
    use super::*;
    use crate::ffi;

    #[test]
    fn size_is_the_librarys() {
        assert_eq!(ffi::size(7), Picture::SIZE as u32);
    }

    fn picture(head: &[u8]) -> Picture {
        let mut bytes = [0; Picture::SIZE];
        bytes[..head.len()].copy_from_slice(head);
        Picture::of(&bytes)
    }

    #[test]
    fn with_and_without_color_table() {
        let with = Picture {
            bits_per_pixel: 8,
            width: 1,
            height: 2,
            mask: vec![10],
            color_table: vec![20, 21, 22],
            color: vec![30, 31],
        };
        let head = [8, 1, 0, 2, 0, 3, 0, 1, 0, 2, 0, 10, 20, 21, 22, 30, 31];
        assert_eq!(picture(&head), with);
        let without = Picture {
            bits_per_pixel: 16,
            color_table: vec![],
            ..with
        };
        let head = [16, 1, 0, 2, 0, 1, 0, 2, 0, 10, 30, 31];
        assert_eq!(picture(&head), without);
    }

    #[test]
    fn the_largest() {
        let mut head = vec![1, 32, 0, 32, 0, 0, 0, 128, 0, 0, 16];
        head.resize(Picture::SIZE, 7);
        let picture = picture(&head);
        assert_eq!(picture.mask.len(), 128);
        assert_eq!(picture.color.len(), 4_096);
    }
}
