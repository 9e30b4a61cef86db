//! Nanoseconds per call.

use std::array;
use std::time::{Duration, Instant};

use crate::call::{repeat, Job, Memory, Side, EMPTY, PLAIN, PROVED};
use crate::inputs;
use crate::table::{print_header, print_row, Cost};

/// Runs of which the median is taken, and about what each lasts at least. They
/// are short, so that most of them are not interrupted.
const RUNS: usize = 51;
const RUN_TIME: Duration = Duration::from_millis(1);

/// Prints the tables.
pub fn run() -> Result<(), String> {
    let mut memory = Memory::new();
    let (inputs, outputs) = (inputs::all(), inputs::outputs());
    print_header("Read", "ns");
    for input in &inputs {
        let cost = cost(input.job(), &mut memory);
        print_row(input.label, input.message.len(), cost, 1);
    }
    println!();
    print_header("Write", "ns");
    for output in &outputs {
        let cost = cost(output.job(), &mut memory);
        print_row(output.label, output.size(), cost, 1);
    }
    let [read] = medians([&EMPTY], inputs[0].job(), &mut memory);
    let [write] = medians([&EMPTY], outputs[0].job(), &mut memory);
    println!();
    println!(
        "Nanoseconds per call, the median of {RUNS} runs of about {} ms or longer. Each number has in it \
         the loop and an indirect call, which with an empty function take {read:.1} (read) and \
         {write:.1} (write). Output memory is not cleared between calls.",
        RUN_TIME.as_millis(),
    );
    Ok(())
}

fn cost(job: Job<'_>, memory: &mut Memory) -> Cost {
    let [proved, plain] = medians([&PROVED, &PLAIN], job, memory);
    Cost { proved, plain }
}

/// The median for each side. The sides take turns, so that a slower spell of the
/// machine meets all of them.
fn medians<const N: usize>(sides: [&Side; N], job: Job<'_>, memory: &mut Memory) -> [f64; N] {
    let calls = sides.map(|side| enough_calls(side, job, memory));
    let mut runs: [Vec<f64>; N] = array::from_fn(|_| Vec::with_capacity(RUNS));
    for turn in 0..RUNS {
        for place in 0..N {
            let at = (place + turn) % N;
            let taken = elapsed(sides[at], job, memory, calls[at]);
            runs[at].push(taken.as_secs_f64() * 1e9 / calls[at] as f64);
        }
    }
    runs.map(|mut run| {
        run.sort_by(f64::total_cmp);
        run[RUNS / 2]
    })
}

/// So many calls that even the quickest of a few runs lasts long enough; warms
/// up as well.
fn enough_calls(side: &Side, job: Job<'_>, memory: &mut Memory) -> u64 {
    let mut calls = 1_000;
    while (0..3).any(|_| elapsed(side, job, memory, calls) < RUN_TIME) {
        calls *= 2;
    }
    calls
}

fn elapsed(side: &Side, job: Job<'_>, memory: &mut Memory, calls: u64) -> Duration {
    let start = Instant::now();
    repeat(side, job, memory, calls);
    start.elapsed()
}
