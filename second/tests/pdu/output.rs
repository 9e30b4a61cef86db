//! What writing does to the output memory.

use super::samples::{message, BROKEN, SAMPLES};
use second::pdu::write;

#[test]
fn a_write_changes_only_its_own_bytes() {
    for sample in &SAMPLES {
        let message = message(sample);
        for spare in [0, 1, 100] {
            let mut out = vec![0xEE; message.len() + spare];
            assert_eq!(write(&sample.0, &mut out), Ok(message.len()));
            assert_eq!(out[..message.len()], message);
            assert_eq!(out[message.len()..], vec![0xEE; spare]);
        }
    }
}

#[test]
fn too_small_an_output_is_refused_untouched() {
    for sample in &SAMPLES {
        for size in 0..message(sample).len() {
            let mut out = vec![0xEE; size];
            assert_eq!(write(&sample.0, &mut out), Err(14));
            assert_eq!(out, vec![0xEE; size]);
        }
    }
}

#[test]
fn a_broken_rule_comes_before_the_size_and_leaves_the_output() {
    for record in &BROKEN {
        for size in [0, 1, 8, 9, 16, 600] {
            let mut out = vec![0xEE; size];
            assert_eq!(write(record, &mut out), Err(8), "{record:?}");
            assert_eq!(out, vec![0xEE; size]);
        }
    }
}
