//! As many faults in lent memory as wanted, on all cores.
//!
//!     cargo run --release --example faults -- 1000000

#[path = "../tests/common/mod.rs"]
mod common;
#[path = "../tests/faults/run.rs"]
mod run;

use std::process::ExitCode;
use std::sync::atomic::{AtomicU64, Ordering};
use std::thread;

use run::{run, Tally};

fn main() -> ExitCode {
    let wanted = std::env::args().nth(1).unwrap_or("10000".into());
    let Ok(wanted) = wanted.parse() else {
        eprintln!("`{wanted}` is no number of faults");
        return ExitCode::from(2);
    };
    match run_all(wanted) {
        Ok(tally) => {
            println!("{tally:?}");
            ExitCode::SUCCESS
        }
        Err(text) => {
            println!("{text}");
            ExitCode::FAILURE
        }
    }
}

/// Takes seed after seed until there were enough faults.
fn run_all(wanted: u64) -> Result<Tally, String> {
    let (seeds, faults) = (AtomicU64::new(0), AtomicU64::new(0));
    let work = || {
        let mut tally = Tally::default();
        while faults.load(Ordering::Relaxed) < wanted {
            let seed = seeds.fetch_add(1, Ordering::Relaxed);
            let of_seed = run(seed).map_err(|text| format!("seed {seed}: {text}"))?;
            faults.fetch_add(of_seed.faults, Ordering::Relaxed);
            tally.add(&of_seed);
        }
        Ok(tally)
    };
    let workers = thread::available_parallelism().map_or(1, |count| count.get());
    thread::scope(|scope| {
        let all: Vec<_> = (0..workers).map(|_| scope.spawn(work)).collect();
        let mut tally = Tally::default();
        for worker in all {
            let part: Result<Tally, String> = worker.join().map_err(|_| "a worker panicked")?;
            tally.add(&part?);
        }
        Ok(tally)
    })
}
