//! Generated scripts: the same everywhere, and far-reaching.

use super::run_script;
use second::coverage::session::of_seeds;
use second::generate::session;
use second::script::parts::Parts;
use second::script::session::run;
use second::script::take_item;

fn script(seed: u64, items: usize) -> Vec<u8> {
    session::script(seed, items, &Parts::default())
}

/// The kinds of a script's items; a cut one is 0.
fn kinds(script: &[u8]) -> Vec<u8> {
    let mut kinds = Vec::new();
    let mut rest = script;
    while !rest.is_empty() {
        match take_item(rest) {
            Some((item, tail)) => {
                kinds.push(item.kind);
                rest = tail;
            }
            None => {
                kinds.push(0);
                rest = &[];
            }
        }
    }
    kinds
}

#[test]
fn the_same_seed_gives_the_same_script() {
    for seed in [0, 1, 19, 1 << 40, u64::MAX] {
        assert_eq!(script(seed, 100), script(seed, 100));
        assert_ne!(script(seed, 100), script(seed ^ 1, 100));
    }
}

#[test]
fn each_script_has_its_items_and_a_line_for_each_call() {
    for seed in 0..160 {
        for items in [0, 1, 50] {
            let script = script(seed, items);
            let kinds = kinds(&script);
            assert_eq!(kinds.len(), items);
            let output = run_script(&script);
            let bad = output.lines().filter(|line| *line == "bad item").count();
            let ends_badly = seed % 20 == 19 && items > 0;
            assert_eq!(bad, usize::from(ends_badly), "seed {seed}");
            let good = &kinds[..items - bad];
            let silent = good.iter().filter(|kind| b"TL".contains(kind)).count();
            assert_eq!(output.lines().count(), items - silent);
            assert!(!good.contains(&b'X'));
        }
    }
}

#[test]
fn scripts_stay_small() {
    let mut bytes = 0;
    for seed in 0..50 {
        bytes += script(seed, 300).len();
    }
    assert!(bytes / 50 < 150_000, "{} bytes each", bytes / 50);
}

/// Items for other parts of memory are good there.
#[test]
fn parts_are_those_given() {
    let parts = Parts::parse("7,65536,1,9,12").expect("lengths");
    for seed in 0..38 {
        let script = session::script(seed, 200, &parts);
        let mut output = Vec::new();
        run(&script, &parts, &mut output).expect("memory takes all");
        let bad = output.ends_with(b"bad item\n");
        assert_eq!(bad, seed % 20 == 19, "seed {seed}");
    }
}

/// Each sort of bad item comes up.
#[test]
fn bad_ends_differ() {
    let mut sorts = std::collections::BTreeSet::new();
    let past = Parts::default().first_of_store() + 5;
    for seed in (19..400).step_by(20) {
        let script = script(seed, 1);
        sorts.insert(match take_item(&script) {
            None if script.len() < 3 => "cut header",
            None => "cut payload",
            Some((item, _)) if !b"EDUMBWNCSIHOVTXLZ".contains(&item.kind) => "unknown kind",
            Some((item, _)) => match (item.kind, item.payload) {
                (b'T', [_, 0, 0]) => "nothing missing",
                (b'T', &[part, 1, 0]) if part == past => "part of T",
                (b'X', &[part, 0, 0, 0, 0, 1]) if part == past => "part of X",
                (b'X', [_, 0, 0, 1, 0, 1]) => "offset of X",
                (b'L', lengths) if lengths.len() == 20 => "length of a part",
                (b'H', holders) if holders.len() == 18 && holders.contains(&5) => "kind of H",
                (b'H', holders) if holders.len() == 18 => "second number of H",
                _ => "length",
            },
        });
    }
    assert_eq!(sorts.len(), 11, "{sorts:?}");
}

#[test]
fn nothing_expected_is_missing() {
    assert_eq!(of_seeds(0, 199, 300).missing(), Vec::<&str>::new());
}

#[test]
fn what_is_missing_is_named() {
    let facts = of_seeds(0, 0, 0);
    let missing = facts.missing();
    let numbers = (1..=12).chain([17]).map(|number| format!("D {number}"));
    let facts_named = numbers.chain(NAMED.map(String::from));
    for fact in facts_named {
        assert!(missing.contains(&fact.as_str()), "{fact}");
    }
    assert_eq!(facts.met().count(), 0);
}

/// The calls, the limits of document 01's table and history rules, and those of the store.
const NAMED: [&str; 96] = [
    "E lent=11 1",
    "E lent=70 0",
    "E places=12 0",
    "E places=13 0",
    "E places=63 0",
    "E places=64 0",
    "D places=12 17",
    "D places=64 17",
    "U 17",
    "L fewer, then granted again",
    "L more places than fixed, and a call granted",
    "D full store, own place by both together",
    "D 17 beside the window's other icon",
    "D 17 where the room is passed too",
    "17 undone by delete window",
    "17 undone by step back",
    "17 undone by desktop none",
    "W small kept, its cell has another",
    "W small and big at one place",
    "W big and overlay at one place",
    "D newer=00000000 0",
    "D newer=08E800C1 0",
    "D newer=08F800C1 6",
    "D overlay none that shares a place",
    "B restores an overlay that was none",
    "17 undone by overlay none",
    "H overlay notification shared=1",
    "H shared by 6 or more",
    "H equal pictures apart",
    "Z again, nothing between",
    "E 0",
    "D 0",
    "M 0",
    "B 0",
    "B 13",
    "W 0",
    "W 9",
    "N 0",
    "N 9",
    "C 0",
    "C 9",
    "S 0",
    "D windows=32 0",
    "D windows=33 10",
    "D icons=16 0",
    "D icons=17 10",
    "D title=520 0",
    "D title=522 8",
    "D tip=256 0",
    "D tip=258 8",
    "D text=510 0",
    "D text=512 8",
    "D balloon_title=126 0",
    "D balloon_title=128 8",
    "D rects=16 0",
    "D rects=17 8",
    "D vis_rects=16 0",
    "D vis_rects=17 8",
    "D stack=64 0",
    "D stack=65 8",
    "D picture=4224 0",
    "D picture=4225 8",
    "D width=0 8",
    "D width=32 0",
    "D width=33 8",
    "D height=0 8",
    "D height=32 0",
    "D height=33 8",
    "D entry=5 0",
    "D entry=6 8",
    "D cache=1 0",
    "D cache=2 8",
    "D cache=255 0",
    "D entry=65535 0",
    "D sent once 17",
    "D sent once over what a cell has",
    "B takes back one sent once",
    "D cached_entry=5 0",
    "D cached_entry=6 8",
    "D cached_cache=1 0",
    "D cached_cache=2 8",
    "D cached_cache=255 8",
    "D new window 10",
    "D new notification with icon 10",
    "D small cached icon 11",
    "D big cached icon 11",
    "D clash window icon with 00000010",
    "D desktop outside=20000000 5",
    "D orders=128 0",
    "D orders=129 12",
    "D bytes=32768 0",
    "D bytes=32769 12",
    "B one too many 13",
    "B restores windows",
    "B restores cells",
    "B restores desktop",
];
