//! Runs another program on scripts with faults in the memory that it lends.

mod check;
pub mod chunk;

pub use check::check;

use std::io;
use std::ops::AddAssign;
use std::path::Path;
use std::sync::Mutex;

use crate::generate::{chunk_fault, fault};
use crate::program::{each_seed, run_program};
use crate::script::parts::Parts;

/// What was met in the lines of a script.
#[derive(Clone, Copy, Debug, Default, PartialEq, Eq)]
pub struct Met {
    /// Items.
    pub items: u64,
    /// Those of them that change memory.
    pub faults: u64,
    /// Calls that were lent too little and answered 1.
    pub lent_short: u64,
    /// Calls that were lent the whole and answered 1.
    pub unfit: u64,
    /// Calls granted after a fault and before the next emptying.
    pub granted_after_fault: u64,
    /// Items that change the store.
    pub store_faults: u64,
    /// Calls granted after faults in the store alone and before the next emptying.
    pub granted_after_store_fault: u64,
    /// Items that change the figures and leave all else as it was.
    pub figure_faults: u64,
    /// Calls that were lent the whole and answered 1 for a wrong figure.
    pub wrong_figures: u64,
}

impl AddAssign for Met {
    fn add_assign(&mut self, other: Self) {
        self.items += other.items;
        self.faults += other.faults;
        self.lent_short += other.lent_short;
        self.unfit += other.unfit;
        self.granted_after_fault += other.granted_after_fault;
        self.store_faults += other.store_faults;
        self.granted_after_store_fault += other.granted_after_store_fault;
        self.figure_faults += other.figure_faults;
        self.wrong_figures += other.wrong_figures;
    }
}

/// What a fault run came to.
#[derive(Clone, Copy, Debug, Default, PartialEq, Eq)]
pub struct Tally {
    /// Scripts run.
    pub scripts: u64,
    /// Scripts with a line that is wrong.
    pub wrong: u64,
    /// What was met in the others.
    pub met: Met,
}

impl Tally {
    /// Whether nothing is wrong, and faults were found out as well as lived with, those in
    /// a store too if there were any, and wrong figures were found out.
    pub fn holds(&self) -> bool {
        let met = &self.met;
        let store_holds = met.store_faults == 0 || met.granted_after_store_fault > 0;
        let figures_hold = met.figure_faults == 0 || met.wrong_figures > 0;
        let others_hold = met.unfit > 0 && met.granted_after_fault > 0;
        self.wrong == 0 && others_hold && store_holds && figures_hold
    }
}

/// Runs the program on the scripts of the seeds `from` to `to`. The first wrong
/// line of a script is told to `report`. An error means that the program could not
/// be run.
pub fn fault_run(
    program: &Path,
    from: u64,
    to: u64,
    items: usize,
    parts: &Parts,
    report: impl Fn(&str) + Sync,
) -> io::Result<Tally> {
    run_seeds(program, from, to, report, |seed| {
        let faulty = fault::script(seed, items, parts);
        let script = faulty.script.clone();
        (script, move |printed: &[u8]| check(&faulty, parts, printed))
    })
}

/// As [`fault_run`], with faults in the memory of chunks.
pub fn chunk_fault_run(
    program: &Path,
    from: u64,
    to: u64,
    items: usize,
    report: impl Fn(&str) + Sync,
) -> io::Result<Tally> {
    run_seeds(program, from, to, report, |seed| {
        let faulty = chunk_fault::script(seed, items);
        let script = faulty.script.clone();
        (script, move |printed: &[u8]| chunk::check(&faulty, printed))
    })
}

/// Runs the program on the script of each seed and checks what it prints.
fn run_seeds<C: FnOnce(&[u8]) -> Result<Met, String>>(
    program: &Path,
    from: u64,
    to: u64,
    report: impl Fn(&str) + Sync,
    make: impl Fn(u64) -> (Vec<u8>, C) + Sync,
) -> io::Result<Tally> {
    let tally = Mutex::new(Tally::default());
    each_seed(from, to, |seed| {
        let (script, check) = make(seed);
        let printed = run_program(program, &script)?;
        let checked = check(&printed);
        let mut tally = tally.lock().expect("no worker panics");
        tally.scripts += 1;
        match checked {
            Ok(met) => tally.met += met,
            Err(text) => {
                tally.wrong += 1;
                report(&format!("seed {seed}: {text}"));
            }
        }
        Ok(())
    })?;
    Ok(tally.into_inner().expect("no worker panics"))
}
