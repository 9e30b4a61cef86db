//! The report: orders and marks are read, and each mark prints a figure.

use std::io;

use crate::book::Book;
use crate::hex;
use crate::script::{Item, PAYLOAD_LIMIT};

/// The first line.
pub const HEAD: &str = "mark windows pixels\n";
/// The kind that a mark counts as; it alone has a line.
pub const MARK: u8 = b'M';
/// The kind that bytes to deliver count as.
pub const ORDER: u8 = b'D';
/// The kinds that print nothing.
pub const SILENT: &[u8] = &[ORDER];

/// The first item of an input and the rest of it, or none if the item is cut: a length of
/// 2 and that many bytes to deliver, where length 0 is a mark.
pub fn take_item(input: &[u8]) -> Option<(Item<'_>, &[u8])> {
    let (&length, rest) = input.split_first_chunk::<2>()?;
    let (payload, rest) = rest.split_at_checked(u16::from_le_bytes(length).into())?;
    let kind = if payload.is_empty() { MARK } else { ORDER };
    Some((Item { kind, payload }, rest))
}

/// Adds bytes to deliver, or with none a mark.
///
/// # Panics
/// If there are more than 65,535.
pub fn push_item(input: &mut Vec<u8>, bytes: &[u8]) {
    let length = u16::try_from(bytes.len()).expect("at most 65,535 bytes to deliver");
    input.extend_from_slice(&length.to_le_bytes());
    input.extend_from_slice(bytes);
}

/// Prints the report of an input. Refused orders are passed over, and so is a cut item.
pub fn run(input: &[u8], out: &mut dyn io::Write) -> io::Result<()> {
    out.write_all(HEAD.as_bytes())?;
    let mut book = Book::new();
    let mut marks = 0_u64;
    let mut rest = input;
    while let Some((item, tail)) = take_item(rest) {
        rest = tail;
        if item.kind == ORDER {
            let _refusal = book.deliver(item.payload);
            continue;
        }
        marks += 1;
        book.mark();
        let figure = book.figure();
        writeln!(out, "{marks} {} {}", figure.windows, figure.pixels)?;
    }
    Ok(())
}

/// The input that a text stands for: on a line the hex of what is delivered, or `mark`.
/// Spaces, empty lines and comments from # on are passed over.
pub fn from_text(text: &str) -> Result<Vec<u8>, String> {
    let mut input = Vec::new();
    for (index, line) in text.lines().enumerate() {
        let content = line.split('#').next().unwrap_or_default().trim();
        let told = |fault: &str| format!("line {}: {fault}", index + 1);
        match content {
            "" => {}
            "mark" => push_item(&mut input, &[]),
            _ => {
                let bytes = hex::bytes(content.as_bytes()).map_err(told)?;
                if bytes.len() > PAYLOAD_LIMIT {
                    return Err(told("at most 65,535 bytes are delivered"));
                }
                push_item(&mut input, &bytes);
            }
        }
    }
    Ok(input)
}
