//! Generated scripts: the same everywhere, and far-reaching.

use super::run;
use second::coverage::pdu::of_seeds;
use second::generate::pdu::script;
use second::generate::random::Random;
use second::script::chunk::{call, SILENT};
use second::script::take_item;

/// The published first numbers of splitmix64 for the seed 1234567.
#[test]
fn splitmix64() {
    let mut random = Random::new(1_234_567);
    for expected in [
        6_457_827_717_110_365_317,
        3_203_168_211_198_807_973,
        9_817_491_932_198_370_423,
        4_593_380_528_125_082_431,
        16_408_922_859_458_223_821,
    ] {
        assert_eq!(random.bits(), expected);
    }
}

#[test]
fn the_same_seed_gives_the_same_script() {
    for seed in [0, 1, 19, 1 << 40, u64::MAX] {
        assert_eq!(script(seed, 100), script(seed, 100));
        assert_ne!(script(seed, 100), script(seed ^ 1, 100));
    }
}

#[test]
fn each_script_prints_a_line_for_each_item() {
    for seed in 0..120 {
        for items in [0, 1, 50] {
            let script = script(seed, items);
            let output = run(&script);
            assert_eq!(output.lines().count(), items - silent_items(&script));
            let bad = output.lines().filter(|line| *line == "bad item").count();
            let ends_badly = seed % 20 == 19 && items > 0;
            assert_eq!(bad, usize::from(ends_badly), "seed {seed}");
        }
    }
}

/// Items that print nothing. A bad one prints its line.
fn silent_items(script: &[u8]) -> usize {
    let mut count = 0;
    let mut rest = script;
    while let Some((item, tail)) = take_item(rest) {
        let is_silent = SILENT.contains(&item.kind) && call(item).is_some();
        count += usize::from(is_silent);
        rest = tail;
    }
    count
}

#[test]
fn scripts_stay_small() {
    let mut bytes = 0;
    for seed in 0..50 {
        bytes += script(seed, 300).len();
    }
    assert!(bytes / 50 < 100_000, "{} bytes each", bytes / 50);
}

/// Each sort of bad item comes up.
#[test]
fn bad_ends_differ() {
    let mut kinds = std::collections::BTreeSet::new();
    for seed in (19..220).step_by(20) {
        let script = script(seed, 1);
        kinds.insert(match take_item(&script) {
            None if script.len() < 3 => "cut header",
            None => "cut payload",
            Some((item, _)) if item.kind == b'E' => "emptying",
            Some((item, _)) if item.kind == b'T' => "too short",
            Some((item, _)) if item.kind == b'X' => "fault",
            Some((item, _)) if item.kind != b'P' => "unknown kind",
            Some((item, _)) => match item.payload {
                [low, high, ..] if u16::from_le_bytes([*low, *high]) > 17_408 => "size",
                _ => "type or fields",
            },
        });
    }
    assert_eq!(kinds.len(), 8);
}

#[test]
fn nothing_expected_is_missing() {
    let coverage = of_seeds(0, 79, 300);
    assert_eq!(coverage.missing(), Vec::<&str>::new());
}

#[test]
fn what_is_missing_is_named() {
    let coverage = of_seeds(0, 0, 0);
    let missing = coverage.missing();
    for fact in [
        "R Handshake 0",
        "R 000D 4",
        "R Execute program=520 0",
        "R Execute program=522 8",
        "P ApplicationIdResponse length=521 8",
        "P MoveSize move_type=12 8",
        "P MinMaxInfo memory-1 14",
        "K Handshake some",
        "K short 16",
    ] {
        assert!(missing.contains(&fact), "{fact}");
    }
    assert_eq!(coverage.met().count(), 0);
}
