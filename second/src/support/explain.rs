//! The lines that a run of state calls printed, told in words beside its script.

use super::order::{outside, told};
use super::words::{condition, quoted};
use crate::hex;
use crate::script::parts::{places, Parts};
use crate::script::session::{call, Call, SILENT};
use crate::script::take_item;
use crate::table::Holder;
use crate::update::first;

/// Fields whose bytes are texts, those whose bytes are parts of a picture, and those that
/// are a picture or none.
const TEXTS: [&str; 4] = ["title", "overlay_text", "tip", "text"];
const PARTS_OF_PICTURES: [&str; 3] = ["mask", "table", "color"];
const PICTURES: [&str; 4] = ["small", "big", "overlay", "picture"];
/// Fields that are two's complement numbers.
const OFFSETS: [&str; 4] = ["client", "offset", "delta", "visible"];

/// Two lines for each item: what was asked, and what was answered. A fault names the
/// item or line where script and output part.
pub fn explain(script: &[u8], output: &str) -> Result<String, String> {
    let parts = Parts::default();
    let mut text = String::new();
    let mut lines = output.lines().enumerate();
    let mut rest = script;
    let mut number = 0;
    while !rest.is_empty() {
        number += 1;
        let item = take_item(rest).and_then(|(item, tail)| {
            rest = tail;
            Some((item.kind, call(item, &parts)?))
        });
        let Some((kind, call)) = item else {
            text += &format!("{number}: no item\n");
            return match lines.next() {
                Some((_, "bad item")) => Ok(text + "    bad item: the run ends here\n"),
                other => Err(parted(number, other)),
            };
        };
        text += &format!("{number}: {}\n", asked(&call));
        if SILENT.contains(&kind) {
            continue;
        }
        let line = lines.next();
        let answer = line
            .and_then(|(_, line)| line.strip_prefix(char::from(kind))?.strip_prefix(' '))
            .and_then(|line| match call {
                Call::Update(..) => reported(line),
                Call::Dump => dumped(line),
                _ => answered(&call, line),
            });
        match answer {
            Some(answer) => text += &format!("    {answer}{}\n", why(&call, &answer)),
            None => return Err(parted(number, line)),
        }
    }
    match lines.next() {
        None => Ok(text),
        extra => Err(parted(number + 1, extra)),
    }
}

/// Which fields were outside their sets, where that was the refusal.
fn why(call: &Call<'_>, answer: &str) -> String {
    let fields = match call {
        Call::Deliver(order) if answer.starts_with("refused, 8:") => outside(order),
        _ => Vec::new(),
    };
    if fields.is_empty() {
        return String::new();
    }
    format!(" ({})", fields.join("; "))
}

fn parted(item: usize, line: Option<(usize, &str)>) -> String {
    match line {
        None => format!("the output ends before item {item} of the script"),
        Some((at, line)) => {
            let beginning: String = line.chars().take(40).collect();
            format!(
                "line {} is not the answer to item {item} of the script: {beginning:?}",
                at + 1
            )
        }
    }
}

fn asked(call: &Call<'_>) -> String {
    match *call {
        Call::Empty => "empty".into(),
        Call::Deliver(order) => format!("deliver {} bytes: {}", order.len(), told(order)),
        Call::Update(limit, orders) => updated(limit, orders),
        Call::Mark => "mark".into(),
        Call::StepBack(steps) => format!("step back {steps}"),
        Call::Window(id) => format!("look up window {}", id.0),
        Call::Icon(window, icon) => format!("look up notification icon {}/{}", window.0, icon.0),
        Call::Cell(place) => format!("look up cell {}/{}", place.cache, place.entry),
        Call::Desktop => "look up the desktop".into(),
        Call::Lists => "list windows and notification icons".into(),
        Call::Shared(one, other) => {
            let (one, other) = (holder(one), holder(other));
            format!("look up whether {one} and {other} share a place")
        }
        Call::WriteRecord(room) => format!("write the session record to {room} bytes"),
        Call::ReadRecord(record) => format!("read a session record of {} bytes", record.len()),
        Call::Shorten => "lend the next call too little".into(),
        Call::ShortenStore(part, missing) => {
            format!("lend the next call part {part} of the store {missing} bytes shorter")
        }
        Call::Fault => "change a byte of the state memory".into(),
        Call::FaultStore(part, offset) => {
            format!("change byte {offset} of part {part} of the store")
        }
        Call::Lend(lengths) => {
            let places = places(&lengths);
            let lengths = lengths.map(|length| length.to_string()).join(", ");
            format!("lend a store of {places} places, in parts of {lengths} bytes")
        }
        Call::Dump => "print the state memory and the store".into(),
    }
}

/// A holder in words.
fn holder(holder: Holder) -> String {
    match holder {
        Holder::Cell(cache, entry) => format!("cell {cache}/{entry}"),
        Holder::Small(id) => format!("the small icon of window {}", id.0),
        Holder::Big(id) => format!("the big icon of window {}", id.0),
        Holder::Overlay(id) => format!("the overlay icon of window {}", id.0),
        Holder::Notification(window, icon) => {
            format!("notification icon {}/{}", window.0, icon.0)
        }
    }
}

/// The memory that was printed, or its size.
fn dumped(line: &str) -> Option<String> {
    let size = match line.strip_suffix(" bytes") {
        Some(size) => size.parse().ok()?,
        None => hex::bytes(line.as_bytes()).ok()?.len(),
    };
    Some(format!("{size} bytes"))
}

/// An update's orders, each on a line of its own.
fn updated(limit: u32, orders: &[u8]) -> String {
    let mut text = format!("update of {} bytes, up to {limit} orders", orders.len());
    let mut rest = orders;
    while !rest.is_empty() {
        let (order, tail) = first(rest);
        text += &format!("\n  - {} bytes: {}", order.len(), told(order));
        rest = tail;
    }
    text
}

/// An update's report from its number on; none where it is none.
fn reported(line: &str) -> Option<String> {
    let numbers: Vec<u32> = line
        .split(' ')
        .map(|word| word.parse().ok())
        .collect::<Option<_>>()?;
    match *numbers {
        [1] => Some(format!("refused, 1: {}", condition(1))),
        [last @ (0 | 2..=12 | 17), granted, bytes, orders, all] => {
            let end = match last {
                0 => String::new(),
                _ => format!("; the next is refused, {last}: {}", condition(last as u8)),
            };
            Some(format!(
                "{granted} orders of {bytes} bytes granted{end}; {orders} orders, {all} bytes after the mark"
            ))
        }
        _ => None,
    }
}

/// An answer from its number on; none where it is no answer.
fn answered(call: &Call<'_>, line: &str) -> Option<String> {
    let mut words = line.split(' ');
    let number: u8 = words.next()?.parse().ok()?;
    if number != 0 {
        let text = format!("refused, {number}: {}", condition(number));
        let is_known = matches!(number, 1..=14 | 17..=19);
        return (words.next().is_none() && is_known).then_some(text);
    }
    if let Call::ReadRecord(_) = call {
        let bodies: u32 = words.next()?.parse().ok()?;
        return (words.count() == 1).then(|| format!("done; {bodies} orders"));
    }
    let orders: u32 = words.next()?.parse().ok()?;
    let bytes: u32 = words.next()?.parse().ok()?;
    if let Call::WriteRecord(_) = call {
        let record = hex::bytes(words.next()?.as_bytes()).ok()?;
        let told = format!("done; {orders} orders, {bytes} bytes after the mark");
        return Some(format!("{told}, a record of {} bytes", record.len()));
    }
    let fields: Vec<String> = words.map(field).collect::<Option<_>>()?;
    if fields.is_empty() {
        return Some(format!(
            "done; {orders} orders, {bytes} bytes after the mark"
        ));
    }
    Some(fields.join(" "))
}

/// A field `name=value` in words; none where it is no such field.
pub(super) fn field(word: &str) -> Option<String> {
    let (name, value) = word.split_once('=')?;
    let value = if TEXTS.contains(&name) {
        quoted(&hex::bytes(value.as_bytes()).ok()?)
    } else if PARTS_OF_PICTURES.contains(&name) {
        let bytes = hex::bytes(value.as_bytes()).ok()?;
        format!("{} bytes{}", bytes.len(), sum(&bytes))
    } else if PICTURES.contains(&name) && value != "none" {
        picture(value)?
    } else if OFFSETS.contains(&name) {
        let (x, y) = value.split_once(',')?;
        format!("{},{}", signed(x)?, signed(y)?)
    } else {
        value.into()
    };
    Some(format!("{name}={value}"))
}

/// A picture in words: its sides, its bits, its bytes and their sum; none where it is no
/// picture.
fn picture(text: &str) -> Option<String> {
    let parts: Vec<&str> = text.split(',').collect();
    let [bits, width, height, mask, table, color] = parts[..] else {
        return None;
    };
    for number in [bits, width, height] {
        number.parse::<u16>().ok()?;
    }
    let mut bytes = Vec::new();
    for part in [mask, table, color] {
        bytes.extend(hex::bytes(part.as_bytes()).ok()?);
    }
    let (count, sum) = (bytes.len(), sum(&bytes));
    Some(format!(
        "({width} by {height}, {bits} bits, {count} bytes{sum})"
    ))
}

/// A sum by which the bytes of pictures are told apart (FNV-1a); of no bytes nothing.
fn sum(bytes: &[u8]) -> String {
    if bytes.is_empty() {
        return String::new();
    }
    let sum = bytes.iter().fold(0x811C_9DC5_u32, |sum, &byte| {
        (sum ^ u32::from(byte)).wrapping_mul(0x0100_0193)
    });
    format!(" #{sum:08x}")
}

/// A number of 32 bits as a signed one, whether it was printed so or not.
fn signed(text: &str) -> Option<i64> {
    let number: i64 = text.parse().ok()?;
    Some(if number > i64::from(i32::MAX) {
        number - (1 << 32)
    } else {
        number
    })
}
