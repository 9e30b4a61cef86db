//! How much is visible, at a checkpoint and at any moment.

/// The figure of a table: how many windows have a show state other than 0, and the pixels
/// of their visibility rectangles.
///
/// Right and bottom are outside, and a rectangle that ends where it begins or before
/// counts nothing. Points in several rectangles of one window count once; the points of
/// several windows are added up, wherever the windows lie.
///
/// That of the present table is in [`Desktop::figure`](crate::Desktop::figure), what each
/// window has of it in [`Window::pixels`](crate::Window::pixels); that of the checkpoint is
/// asked for by itself.
#[derive(Clone, Copy, Debug, Default, PartialEq, Eq, Hash)]
#[non_exhaustive]
pub struct Figure {
    /// The windows that are shown, minimized ones too.
    pub windows: u32,
    /// Their pixels, up to 137,434,759,200.
    pub pixels: u64,
}

impl Figure {
    /// The bytes that a figure takes: the windows in 4, the pixels in 8.
    pub const SIZE: usize = 12;

    pub(crate) fn of(bytes: &[u8; Self::SIZE]) -> Self {
        let [w0, w1, w2, w3, pixels @ ..] = *bytes;
        Self {
            windows: u32::from_le_bytes([w0, w1, w2, w3]),
            pixels: u64::from_le_bytes(pixels),
        }
    }
}

#[cfg(test)]
mod tests {
    use super::*;
    use crate::ffi;

    #[test]
    fn size() {
        assert_eq!(ffi::size(11), Figure::SIZE as u32);
    }

    #[test]
    fn bytes() {
        let figure = Figure::of(&[1, 2, 0, 0, 32, 0, 192, 255, 31, 0, 0, 1]);
        assert_eq!(
            (figure.windows, figure.pixels),
            (513, 0x0100_001F_FFC0_0020)
        );
    }
}
