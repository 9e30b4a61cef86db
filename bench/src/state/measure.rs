//! Instructions and nanoseconds of a call, each time from the same state.

use std::env;
use std::hint::black_box;
use std::time::{Duration, Instant};

use super::jobs::{Call, Job};
use super::listing::Listing;
use super::{Side, State, OUT};
use crate::callgrind;
use crate::kinds::Order;
use crate::table::Cost;

/// N: callgrind counts N and 2N calls. Both have as many digits.
const CALLS: usize = 20;

/// Calls of which the median time is taken, and calls before them.
pub const TIMED: usize = 1_001;
const WARMING: usize = 50;

/// What a job takes on both sides with a journal of so many orders.
pub fn instructions(listing: &Listing, job: &Job, orders: usize) -> Result<Cost, String> {
    let per_call = |side: Side| -> Result<f64, String> {
        let fewer = total(listing, job, orders, side, CALLS)?;
        let more = total(listing, job, orders, side, 2 * CALLS)?;
        Ok((more as f64 - fewer as f64) / CALLS as f64)
    };
    Ok(Cost {
        proved: per_call(Side::Proved)?,
        plain: per_call(Side::Plain)?,
    })
}

/// The instructions of the entry point in one run, those of the set-up among them.
fn total(
    listing: &Listing,
    job: &Job,
    orders: usize,
    side: Side,
    calls: usize,
) -> Result<u64, String> {
    let program = env::current_exe().map_err(|error| format!("own program: {error}"))?;
    let function = format!("{}_{}", side.prefix(), job.call.entry());
    let (orders, calls) = (orders.to_string(), calls.to_string());
    let words = [
        "state-one",
        listing.name,
        &job.name,
        &orders,
        side.name(),
        &calls,
    ];
    Ok(callgrind::count_within(&function, &program, &words)?.total)
}

/// Makes that many calls, each from the same state.
pub fn repeat(state: &mut dyn State, call: &Call, calls: usize) {
    let mut out = vec![0; OUT];
    for _ in 0..calls {
        let _ = black_box(state.call(black_box(call), &mut out));
        state.restore(call);
    }
}

/// The median times of a call on both sides, which take turns, so that a slower spell
/// of the machine meets both. The clock's own time is taken off.
pub fn nanoseconds(job: &Job, journal: &[Order]) -> Cost {
    let mut states = [Side::Proved, Side::Plain].map(|side| side.state(job, journal));
    let mut times = [Vec::new(), Vec::new(), Vec::new()];
    let mut out = vec![0; OUT];
    for turn in 0..WARMING + TIMED {
        for (state, times) in states.iter_mut().zip(&mut times) {
            let start = Instant::now();
            let answer = black_box(state.call(black_box(&job.call), &mut out));
            let taken = start.elapsed();
            assert_eq!(answer.err(), job.refused, "checked before");
            state.restore(&job.call);
            if turn >= WARMING {
                times.push(taken);
            }
        }
        times[2].push(black_box(Instant::now()).elapsed());
    }
    let [proved, plain, clock] = times.map(median);
    Cost {
        proved: proved - clock,
        plain: plain - clock,
    }
}

/// In nanoseconds.
fn median(mut times: Vec<Duration>) -> f64 {
    times.sort();
    times[times.len() / 2].as_secs_f64() * 1e9
}
