//! The stored text scripts print what their comments say.

use super::common::{assert_lines, expected_lines};
use super::run_text;

fn check(text: &str, least: usize) {
    let expected = expected_lines(text);
    assert!(expected.len() >= least);
    assert_lines(&run_text(text), &expected);
}

#[test]
fn public_document() {
    check(include_str!("../../vectors/public-document.txt"), 26);
}

#[test]
fn document_01() {
    check(include_str!("../../vectors/document-01.txt"), 17);
}

#[test]
fn counter() {
    check(include_str!("../../vectors/counter.txt"), 60);
}

#[test]
fn settings() {
    check(include_str!("../../vectors/settings.txt"), 50);
}
