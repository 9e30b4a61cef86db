//! Numbers and strings in words.

/// The condition of a number, as document 01 and its change requests have it.
pub fn condition(number: u8) -> &'static str {
    match number {
        0 => "done",
        1 => "lent state memory is shorter than needed, or not well formed",
        2 => "fewer than 4 bytes (PDU) or 7 bytes (order)",
        3 => "declared length differs from the bytes given",
        4 => {
            "unknown PDU type; or first order byte isn't 2E; or not the case that \
             exactly one of the three type bits is set"
        }
        5 => "order has a flag bit outside its kind's closed list",
        6 => "order flags clash",
        7 => "the fields don't fill the declared length exactly",
        8 => "a field's number is outside its allowed set",
        9 => "the id must be in the table and isn't, or must not be and is",
        10 => "a new record is asked for and its table is full",
        11 => "cached icon naming an empty cell",
        12 => "history room would be passed",
        13 => "more steps back than stand after the mark",
        14 => "output memory too small",
        17 => "every place is pointed at",
        18 => {
            "fewer than 2 bytes, or than 2 plus 8 for each counted order, or an offset \
             plus size past the end"
        }
        19 => {
            "count over 128, sizes over 32,768 in all, offsets not those of the layout, \
             or bytes left over"
        }
        _ => "no number of document 01",
    }
}

/// UTF-16 bytes as a text in quotes. What is no character, a control character and a
/// last odd byte become U+FFFD.
pub fn quoted(bytes: &[u8]) -> String {
    let units = bytes
        .chunks_exact(2)
        .map(|pair| u16::from_le_bytes([pair[0], pair[1]]));
    let mut text = String::from("\"");
    for unit in char::decode_utf16(units) {
        match unit {
            Ok(character) if !character.is_control() => text.push(character),
            _ => text.push(char::REPLACEMENT_CHARACTER),
        }
    }
    if bytes.len() % 2 == 1 {
        text.push(char::REPLACEMENT_CHARACTER);
    }
    text.push('"');
    text
}
