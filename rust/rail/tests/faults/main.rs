//! Faults in lent memory. `cargo run --release --example faults` makes more of them.

#[path = "../common/mod.rs"]
mod common;
mod run;

use run::{run, Tally};

#[test]
fn ten_thousand_faults() {
    let mut tally = Tally::default();
    let mut seed = 0;
    while tally.faults < 10_000 {
        let of_seed = run(seed).unwrap_or_else(|text| panic!("seed {seed}: {text}"));
        tally.add(&of_seed);
        seed += 1;
    }
    println!("{tally:?}");
    // Faults are found out as well as lived with, and the book is asked.
    assert!(tally.unfit > 1_000 && tally.granted > 1_000 && tally.refused > 1_000);
    assert!(tally.compared > 1_000);
}
