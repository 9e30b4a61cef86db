//! Generated pairs: what they reach, and the two ways in which orders and states are read.

use second::coverage::explain::of_seeds;
use second::generate::explain::pairs;
use second::generate::random::Random;
use second::generate::session;
use second::memory::{self, Memory};
use second::order::fields::fields;
use second::order::{decode, judge};
use second::script::parts::Parts;
use second::script::session::{call, Session};
use second::script::take_item;

/// The books that a generated script leads to, some of them.
fn books(seed: u64) -> Vec<second::book::Book> {
    let parts = Parts::default();
    let script = session::script(seed, 300, &parts);
    let mut session = Session::default();
    let mut books = Vec::new();
    let mut rest: &[u8] = &script;
    let mut number = 0;
    while let Some((item, tail)) = take_item(rest) {
        let Some(call) = call(item, &parts) else {
            break;
        };
        session.make(&call);
        rest = tail;
        number += 1;
        if number % 25 == 0 {
            books.push(session.book().clone());
        }
    }
    books
}

#[test]
fn the_gate_reaches_all() {
    let facts = of_seeds(0, 199, 40);
    assert_eq!(facts.missing(), Vec::<&str>::new());
}

#[test]
fn few_do_not() {
    assert!(!of_seeds(0, 1, 10).missing().is_empty());
}

#[test]
fn a_written_book_reads_back() {
    for seed in 0..12 {
        for (number, book) in books(seed).into_iter().enumerate() {
            let mut random = Random::new(seed);
            let file = memory::write(&book, book.places() + number % 3, &mut random);
            assert_eq!(memory::read(&file), Memory::Book(Box::new(book)));
        }
    }
}

#[test]
fn the_list_of_fields_is_the_readers() {
    for seed in 0..30 {
        for pair in pairs(seed, 60) {
            let order = pair.order.bytes();
            let list = fields(order);
            match (decode(order), judge(order)) {
                (Err(7), _) => assert!(list.cut.is_some() || list.end < order.len()),
                (Err(_), _) => {}
                (Ok(_), judged) => {
                    assert_eq!((list.cut, list.end), (None, order.len()));
                    let is_allowed = list.whole.iter().all(|field| field.allowed);
                    assert_eq!(judged.is_ok(), is_allowed);
                }
            }
        }
    }
}

#[test]
fn the_same_seed_gives_the_same_pairs() {
    assert_eq!(pairs(7, 30), pairs(7, 30));
    assert_ne!(pairs(7, 30), pairs(8, 30));
    assert_eq!(pairs(7, 30).len(), 30);
}

#[cfg(unix)]
mod compared {
    use crate::common::program::program;
    use crate::common::second;

    fn compare(name: &str, line: &str, options: &[&str]) -> (bool, String) {
        let program = program(name, line);
        let program = program.to_str().expect("a text");
        let output = second(
            &[&["compare-explain", program, "0", "1", "20"], options].concat(),
            b"",
        );
        let text = String::from_utf8(output.stdout).expect("a text");
        (output.status.success(), text)
    }

    #[test]
    fn with_itself() {
        let line = format!(
            "exec {} explain \"$1\" \"$2\"",
            env!("CARGO_BIN_EXE_second")
        );
        let (agrees, text) = compare("itself", &line, &[]);
        assert_eq!(text, "compared 2 scripts, 40 items: 0 differences\n");
        assert!(agrees);
    }

    #[test]
    fn with_one_that_grants_all() {
        let (agrees, text) = compare("grants-all", "echo 0; echo done", &[]);
        assert!(text.contains("compared 2 scripts, 40 items: 2 differences\n"));
        assert!(!agrees);
    }

    #[test]
    fn with_one_that_a_signal_ends() {
        let (agrees, text) = compare("killed", "kill -9 $$", &[]);
        assert!(text.contains("signal: 9") && !agrees);
    }

    #[test]
    fn with_states_of_a_program_that_prints_none() {
        let (agrees, text) = compare("grants-none", "echo 1", &["--states", "/bin/true"]);
        assert!(text.contains("no line of Z") && !agrees);
    }
}
