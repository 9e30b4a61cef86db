//! UTF-16 as messages and records carry it.

use alloc::string::String;
use alloc::vec::Vec;

/// The text of UTF-16 bytes, little-endian; what is no text becomes U+FFFD, and so
/// does a last byte without its other half.
///
/// ```
/// assert_eq!(rail::text_lossy(b"o\0k\0"), "ok");
/// assert_eq!(rail::text_lossy(b"o\0k"), "o\u{FFFD}");
/// ```
pub fn text_lossy(bytes: &[u8]) -> String {
    let mut text = String::from_utf16_lossy(&units(bytes));
    if bytes.len() % 2 == 1 {
        text.push(char::REPLACEMENT_CHARACTER);
    }
    text
}

/// The UTF-16 bytes of a text, little-endian and without an end mark, as messages
/// carry it.
///
/// ```
/// assert_eq!(rail::utf16_bytes("ok"), b"o\0k\0");
/// ```
pub fn utf16_bytes(text: &str) -> Vec<u8> {
    text.encode_utf16().flat_map(u16::to_le_bytes).collect()
}

/// The units of UTF-16 bytes, without a last odd one.
pub(crate) fn units(bytes: &[u8]) -> Vec<u16> {
    let pairs = bytes.chunks_exact(2);
    pairs
        .map(|pair| u16::from_le_bytes([pair[0], pair[1]]))
        .collect()
}

#[cfg(test)]
mod tests {
    use super::*;

    #[test]
    fn texts_and_bytes() {
        for text in ["", "A", "Grüße", "窓", "🪟 window"] {
            assert_eq!(text_lossy(&utf16_bytes(text)), text);
        }
    }

    #[test]
    fn bytes_that_are_no_text() {
        // The first half of a pair without its second.
        assert_eq!(text_lossy(&[0x41, 0, 0x00, 0xD8]), "A\u{FFFD}");
        assert_eq!(text_lossy(&[7]), "\u{FFFD}");
    }
}
