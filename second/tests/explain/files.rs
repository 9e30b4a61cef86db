//! Files of a state and an order: what can be read of them, and what they describe.

use std::fs;
use std::path::{Path, PathBuf};

use crate::common::{hex, second};
use second::book::Book;
use second::generate::random::Random;
use second::memory::{self, Memory, STATE_SIZE};
use second::table::PLACE_SIZE;
use second::why;

/// Desktop none, which every state grants.
const GOOD: &str = "2E0700 01000004";

fn file(name: &str, bytes: &[u8]) -> PathBuf {
    let path = PathBuf::from(env!("CARGO_TARGET_TMPDIR")).join(name);
    fs::write(&path, bytes).expect("a file");
    path
}

fn emptied(places: usize) -> Vec<u8> {
    memory::write(&Book::with_places(12), places, &mut Random::new(6))
}

fn explain(state: &Path, order: &Path) -> String {
    let [state, order] = [state, order].map(|path| path.to_str().expect("a text"));
    let output = second(&["explain", state, order], b"");
    assert!(output.status.success());
    String::from_utf8(output.stdout).expect("a text")
}

#[test]
fn of_every_sort() {
    let missing = Path::new("/no/such/file");
    let state = file("state", &emptied(12));
    let order = file("order", &hex(GOOD));
    let unfit = "1\nlent state memory is shorter than needed, or not well formed\n0\n";
    let short = "2\nfewer than 4 bytes (PDU) or 7 bytes (order)\n0\n";
    assert_eq!(explain(&state, &order), "0\ndone\n");
    assert_eq!(explain(missing, &order), unfit);
    assert_eq!(explain(&state, missing), short);
    assert_eq!(explain(missing, missing), unfit);
    let folder = Path::new(env!("CARGO_TARGET_TMPDIR"));
    assert_eq!(explain(folder, &order), unfit);
    assert_eq!(explain(&state, folder), short);
    let empty = file("empty", b"");
    assert_eq!(explain(&empty, &order), unfit);
    assert_eq!(explain(&state, &empty), short);
}

#[test]
fn long_ones() {
    let state = file("long-state", &[emptied(70), vec![7; 3_000_000]].concat());
    let order = file("short-order", &hex(GOOD));
    assert_eq!(explain(&state, &order), "0\ndone\n");
    for size in [65_536 + 7, 4 * 65_536 + 7, 65_536, 5_000_000] {
        let mut bytes = hex(GOOD);
        bytes.resize(size, 0);
        let order = file(&format!("order-{size}"), &bytes);
        assert_eq!(
            explain(&state, &order),
            "3\ndeclared length differs from the bytes given\n1\n"
        );
    }
}

#[test]
fn places() {
    let order = hex(GOOD);
    let number = |file: &[u8]| why::on_file(file, &order).expect("a book").number;
    for places in [12, 13, 63, 64, 65, 80] {
        let mut file = emptied(places);
        assert_eq!(number(&file), 0);
        file.extend([7; PLACE_SIZE - 1]);
        assert_eq!(number(&file), 0);
    }
    let file = emptied(12);
    assert_eq!(number(&file[..file.len() - 1]), 1);
    assert_eq!(number(&file[..STATE_SIZE]), 1);
    assert_eq!(number(&file[..STATE_SIZE - 1]), 1);
}

#[test]
fn a_pointer_that_no_call_sets() {
    let mut book = Book::with_places(12);
    for order in [
        "2E0F00 00000012 58000100 01000000",
        "2E1B00 00000042 58000100 01000000 0000 00 20 0100 0100 0000 0000",
    ] {
        book.deliver(&hex(order)).expect("a granted order");
    }
    book.mark();
    let mut file = memory::write(&book, 12, &mut Random::new(6));
    assert_eq!(memory::read(&file), Memory::Book(Box::new(book)));
    let slot = (32..48).find(|slot| file[157 + 9 * slot] == 1);
    let pointers = 13 + 3 * slot.expect("a slot");
    file[pointers + 1] = file[pointers];
    assert_eq!(memory::read(&file), Memory::Beyond);
    let state = self::file("beyond", &file);
    let order = self::file("any-order", &hex(GOOD));
    let [state, order] = [&state, &order].map(|path| path.to_str().expect("a text"));
    let output = second(&["explain", state, order], b"");
    assert_eq!(
        (output.status.code(), &output.stdout[..]),
        (Some(3), &b""[..])
    );
}

#[test]
fn of_the_last_z() {
    let output = b"E 0 0 0\nZ 0102\nD 0 1 7\nZ 0a0bff\nS 9\n";
    let made = second(&["state"], output);
    assert_eq!(
        (made.status.success(), &made.stdout[..]),
        (true, &[10, 11, 255][..])
    );
    for none in [&b"E 0 0 0\n"[..], b"", b"Z 79139 bytes\n", b"Z 0g\n"] {
        assert!(!second(&["state"], none).status.success());
    }
}
