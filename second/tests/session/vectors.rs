//! The stored text scripts print what their comments say.

use super::common::{assert_lines, expected_lines};
use super::run_text;

fn check(text: &str, items: usize) {
    let expected = expected_lines(text);
    assert_eq!(expected.len(), items);
    assert_lines(&run_text(text), &expected);
}

#[test]
fn document_01() {
    check(include_str!("../../vectors/session-document-01.txt"), 187);
}

#[test]
fn open_points() {
    check(include_str!("../../vectors/session-open-points.txt"), 124);
}

#[test]
fn public_document() {
    check(
        include_str!("../../vectors/session-public-document.txt"),
        16,
    );
}

#[test]
fn figures() {
    check(include_str!("../../vectors/session-figures.txt"), 58);
}

#[test]
fn session_record() {
    check(include_str!("../../vectors/session-record.txt"), 32);
}

#[test]
fn store() {
    check(include_str!("../../vectors/session-store.txt"), 52);
}

/// The script that is stored with rail_session; in it items that print nothing expect none.
#[test]
fn stored_script() {
    let text = include_str!("../../scripts/session.txt");
    let expected = text.lines().filter_map(|line| line.split_once("# => "));
    let expected: Vec<&str> = expected.map(|(_, line)| line).collect();
    assert_eq!(expected.len(), 705);
    assert_lines(&run_text(text), &expected);
}

#[test]
fn demo() {
    check(include_str!("../../vectors/session.txt"), 23);
}
