//! Lists of ids as they are handed out.

use alloc::vec::Vec;

use crate::ids::{NotifyIconId, WindowId};

/// The bytes of a list of ids: a count of 4, and room for all ids.
pub const LIST_SIZE: usize = 132;

/// The first numbers of a list, so many to each of the ids that it counts.
fn numbers(bytes: &[u8; LIST_SIZE], to_each: usize) -> impl Iterator<Item = u32> + '_ {
    let mut all = bytes
        .chunks_exact(4)
        .map(|number| u32::from_le_bytes([number[0], number[1], number[2], number[3]]));
    let count = all.next().map_or(0, |count| count as usize);
    all.take(to_each.saturating_mul(count))
}

pub(crate) fn window_ids(bytes: &[u8; LIST_SIZE]) -> Vec<WindowId> {
    numbers(bytes, 1).map(WindowId).collect()
}

pub(crate) fn notification_icon_ids(bytes: &[u8; LIST_SIZE]) -> Vec<(WindowId, NotifyIconId)> {
    let ids: Vec<u32> = numbers(bytes, 2).collect();
    ids.chunks_exact(2)
        .map(|ids| (WindowId(ids[0]), NotifyIconId(ids[1])))
        .collect()
}

#[cfg(test)]
mod tests {
    use super::*;
    use crate::ffi;

    #[test]
    fn size() {
        assert_eq!(ffi::size(10), LIST_SIZE as u32);
    }

    #[test]
    fn ids_as_far_as_counted() {
        let mut bytes = [0; LIST_SIZE];
        assert!(window_ids(&bytes).is_empty() && notification_icon_ids(&bytes).is_empty());
        for (at, byte) in bytes.iter_mut().enumerate() {
            *byte = if at % 4 == 0 { at as u8 } else { 0 };
        }
        bytes[0] = 2;
        assert_eq!(window_ids(&bytes), [WindowId(4), WindowId(8)]);
        let icons = notification_icon_ids(&bytes);
        let expected = [(4, 8), (12, 16)].map(|(w, i)| (WindowId(w), NotifyIconId(i)));
        assert_eq!(icons, expected);
        bytes[3] = 0xFF;
        assert_eq!(window_ids(&bytes).len(), 32);
        assert_eq!(notification_icon_ids(&bytes).len(), 16);
    }
}
