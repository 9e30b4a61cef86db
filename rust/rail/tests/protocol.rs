//! The names and values of the protocol are those of the C header.

use std::collections::BTreeMap;

/// Names with values, of lines that have both.
fn values<'a>(
    text: &'a str,
    pair: impl Fn(&'a str) -> Option<(&'a str, &'a str)>,
) -> BTreeMap<&'a str, u32> {
    text.lines()
        .filter_map(pair)
        .filter_map(|(name, value)| {
            let digits = value.strip_prefix("0x")?.replace('_', "");
            Some((name, u32::from_str_radix(&digits, 16).ok()?))
        })
        .collect()
}

/// The other spelling of a name in the header, for programs that know FreeRDP's.
fn is_other_spelling(line: &str) -> bool {
    line.contains("FreeRDP")
}

#[test]
fn names_and_values_of_the_header() {
    let header = values(include_str!("../../../include/rail/protocol.h"), |line| {
        let mut words = line
            .trim_start_matches("# ")
            .strip_prefix("#define ")?
            .split(' ');
        if is_other_spelling(line) {
            return None;
        }
        Some((words.next()?, words.next()?))
    });
    let here = values(include_str!("../src/protocol.rs"), |line| {
        let (name, rest) = line.strip_prefix("pub const ")?.split_once(": ")?;
        Some((name, rest.split_once(" = ")?.1.strip_suffix(';')?))
    });
    assert!(header.len() > 90);
    assert_eq!(here, header);
    assert_eq!(rail::protocol::RAIL_ORDER_HEADER, 0x2E);
}
