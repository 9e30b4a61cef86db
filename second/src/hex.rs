//! Hand-written scripts: a line of a kind letter and hex for each item.

use crate::script::{push_item, PAYLOAD_LIMIT};

/// Turns the text form into a script of items of these kinds. Spaces between
/// bytes, empty lines and comments from `#` on are passed over. A fault is told
/// with its line.
pub fn script(kinds: &[u8], text: &str) -> Result<Vec<u8>, String> {
    let mut script = Vec::new();
    for (index, line) in text.lines().enumerate() {
        let content = line.split('#').next().unwrap_or_default().trim();
        if content.is_empty() {
            continue;
        }
        let (kind, payload) =
            item(kinds, content).map_err(|fault| format!("line {}: {fault}", index + 1))?;
        push_item(&mut script, kind, &payload);
    }
    Ok(script)
}

fn item(kinds: &[u8], content: &str) -> Result<(u8, Vec<u8>), &'static str> {
    let kind = content.as_bytes()[0];
    let digits = &content.as_bytes()[1..];
    if !kinds.contains(&kind) {
        return Err("a line begins with the letter of a kind");
    }
    if digits
        .first()
        .is_some_and(|byte| !byte.is_ascii_whitespace())
    {
        return Err("a space follows the kind");
    }
    let payload = bytes(digits)?;
    if payload.len() > PAYLOAD_LIMIT {
        return Err("a payload has at most 65,535 bytes");
    }
    Ok((kind, payload))
}

/// The bytes that hex digits stand for, white space aside.
pub fn bytes(text: &[u8]) -> Result<Vec<u8>, &'static str> {
    let digits: Vec<u8> = text
        .iter()
        .filter(|byte| !byte.is_ascii_whitespace())
        .map(|&byte| digit(byte).ok_or("not a hex digit"))
        .collect::<Result<_, _>>()?;
    if digits.len() & 1 == 1 {
        return Err("a byte has two hex digits");
    }
    Ok(digits
        .chunks(2)
        .map(|pair| pair[0] << 4 | pair[1])
        .collect())
}

fn digit(byte: u8) -> Option<u8> {
    match byte {
        b'0'..=b'9' => Some(byte - b'0'),
        b'a'..=b'f' => Some(byte - b'a' + 10),
        b'A'..=b'F' => Some(byte - b'A' + 10),
        _ => None,
    }
}
