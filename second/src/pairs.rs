//! Runs another program on pairs of files, a state and an order, and compares what it
//! prints. The states are written here, or printed by a program of state calls (`Z`).

use std::fs;
use std::io;
use std::path::{Path, PathBuf};
use std::process::{Command, Stdio};
use std::sync::atomic::{AtomicU64, Ordering};
use std::sync::{Arc, Mutex};

use crate::compare::Tally;
use crate::generate::explain::{pairs, script, stops, Named, Pair, PairMaker, ORDERS_EACH};
use crate::memory::{self, Memory};
use crate::number::STATE_UNFIT;
use crate::program::{each_seed, run_program};
use crate::script::parts::{places, Parts, StoreLengths, FIRST_LENGTHS};
use crate::script::session::{call, Call, Session, SILENT};
use crate::script::{dump, push_item, take_item};
use crate::table::MOST_PLACES;
use crate::why::{on_book, on_file, Explanation};

/// Compares on the pairs of the seeds `from` to `to`, that many for each. Where a program
/// of state calls is given, the states are those that it prints for the script of a seed.
pub fn compare(
    program: &Path,
    states: Option<&Path>,
    seeds: [u64; 2],
    count: usize,
    report: impl Fn(&str) + Sync,
) -> io::Result<Tally> {
    let tally = Mutex::new(Tally::default());
    each_seed(seeds[0], seeds[1], |seed| {
        let folder = Folder::new()?;
        let (told, differences) = match states {
            Some(session) => printed_states(session, seed, count)?,
            None => (written_states(seed, count), Vec::new()),
        };
        let mut differences = differences;
        for (number, (pair, expected)) in told.iter().enumerate() {
            let printed = folder.run(program, pair)?;
            let expected = expected.lines();
            if printed != expected.as_bytes() {
                differences.push(format!(
                    "pair {}: {}",
                    number + 1,
                    differs(pair, &expected, &printed)
                ));
            }
        }
        let mut tally = tally.lock().expect("no worker panics");
        tally.scripts += 1;
        tally.items += told.len() as u64;
        tally.differences += u64::from(!differences.is_empty());
        for difference in differences {
            report(&format!("seed {seed}, {difference}"));
        }
        Ok(())
    })?;
    Ok(tally.into_inner().expect("no worker panics"))
}

/// The pairs of a seed with what is to be printed.
fn written_states(seed: u64, count: usize) -> Vec<(Pair, Explanation)> {
    let told = |pair: Pair| {
        let told = on_file(pair.state.bytes(), pair.order.bytes())?;
        Some((pair, told))
    };
    pairs(seed, count).into_iter().filter_map(told).collect()
}

/// Writes the pairs of a seed to a folder, with what is to be printed for each.
pub fn write(seed: u64, count: usize, folder: &Path) -> io::Result<()> {
    for (number, (pair, expected)) in written_states(seed, count).iter().enumerate() {
        let path = |kind: &str| folder.join(format!("{}.{kind}", number + 1));
        for (kind, file) in [("state", &pair.state), ("order", &pair.order)] {
            if let Named::Bytes(bytes) = file {
                fs::write(path(kind), &bytes[..])?;
            }
        }
        fs::write(path("expected"), expected.lines())?;
    }
    Ok(())
}

/// The same with the states that a program prints, and what is wrong with these.
#[allow(clippy::type_complexity)]
fn printed_states(
    program: &Path,
    seed: u64,
    count: usize,
) -> io::Result<(Vec<(Pair, Explanation)>, Vec<String>)> {
    let stops = Stops::of(seed, count);
    let printed = run_program(program, &stops.script)?;
    let lines: Vec<&[u8]> = printed.split_inclusive(|&byte| byte == b'\n').collect();
    let mut maker = PairMaker::new(seed);
    let mut told = Vec::new();
    let mut wrong = Vec::new();
    for (number, stop) in stops.all.iter().enumerate() {
        let line = lines.get(stop.line).copied().unwrap_or_default();
        let Some(file) = dump::memory(line) else {
            wrong.push(format!("state {}: no line of Z", number + 1));
            continue;
        };
        let book = stop.session.book();
        let lent = places(&stop.session.lengths()).min(MOST_PLACES);
        let is_fit = lent >= book.places();
        match memory::read(&file) {
            Memory::Unfit if !is_fit => {}
            Memory::Book(read) if is_fit && (!stop.is_cut_alike || *read == *book) => {}
            _ => wrong.push(format!("state {}: not that of the script", number + 1)),
        }
        let file = Arc::new(file);
        for _ in 0..ORDERS_EACH.min(count - told.len()) {
            let (order, of_order) = maker.order(book);
            let expected = match is_fit {
                true => on_book(book, order.bytes()),
                false => Explanation::of(STATE_UNFIT, order.bytes()),
            };
            let pair = Pair {
                state: Named::Bytes(file.clone()),
                order,
                of_state: "printed".into(),
                of_order,
            };
            told.push((pair, expected));
        }
    }
    Ok((told, wrong))
}

/// A script with an item `Z` at each stop.
struct Stops {
    script: Vec<u8>,
    all: Vec<Stop>,
}

/// What is known at a stop: the line that `Z` prints, the session, and whether the store
/// is cut as it was when it was emptied.
struct Stop {
    line: usize,
    session: Session,
    is_cut_alike: bool,
}

impl Stops {
    fn of(seed: u64, count: usize) -> Self {
        let parts = Parts::default();
        let (calls, stops) = (script(seed), stops(seed, count));
        let mut made = Self {
            script: Vec::new(),
            all: Vec::new(),
        };
        let mut session = Session::default();
        let mut cut: StoreLengths = FIRST_LENGTHS;
        let mut line = 0;
        let mut rest: &[u8] = &calls;
        for number in 0.. {
            let taken =
                take_item(rest).and_then(|(item, tail)| Some((item, call(item, &parts)?, tail)));
            let Some((item, call, tail)) = taken else {
                break;
            };
            rest = tail;
            push_item(&mut made.script, item.kind, item.payload);
            if session.make(&call) == Some(0) && call == Call::Empty {
                cut = session.lengths();
            }
            line += usize::from(!SILENT.contains(&item.kind));
            if stops.contains(&number) {
                push_item(&mut made.script, b'Z', &[]);
                made.all.push(Stop {
                    line,
                    is_cut_alike: session.lengths() == cut,
                    session: session.clone(),
                });
                line += 1;
            }
        }
        made
    }
}

/// A folder of its own for the files of pairs, removed at the end.
struct Folder(PathBuf);

/// Tells the folders of one run apart.
static FOLDERS: AtomicU64 = AtomicU64::new(0);

impl Folder {
    fn new() -> io::Result<Self> {
        let number = FOLDERS.fetch_add(1, Ordering::Relaxed);
        let name = format!("second-{}-{number}", std::process::id());
        let path = std::env::temp_dir().join(name);
        fs::create_dir(&path)?;
        Ok(Self(path))
    }

    /// The path of a file that is as named.
    fn put(&self, name: &str, file: &Named) -> io::Result<PathBuf> {
        Ok(match file {
            Named::Missing => self.0.join("missing"),
            Named::Folder => self.0.clone(),
            Named::Bytes(bytes) => {
                let path = self.0.join(name);
                fs::write(&path, &bytes[..])?;
                path
            }
        })
    }

    /// What a program prints for a pair. Its end by a signal shows as a last line. What it
    /// says on standard error of a file that cannot be read is passed over.
    fn run(&self, program: &Path, pair: &Pair) -> io::Result<Vec<u8>> {
        let output = Command::new(program)
            .arg(self.put("state", &pair.state)?)
            .arg(self.put("order", &pair.order)?)
            .stdin(Stdio::null())
            .stderr(Stdio::null())
            .output()?;
        let mut printed = output.stdout;
        if output.status.code().is_none() {
            printed.extend_from_slice(format!("({})\n", output.status).as_bytes());
        }
        Ok(printed)
    }
}

impl Drop for Folder {
    fn drop(&mut self) {
        // What is left of it can do no harm.
        let _ = fs::remove_dir_all(&self.0);
    }
}

/// The most bytes of an order that are shown.
const SHOWN: usize = 200;

fn differs(pair: &Pair, expected: &str, printed: &[u8]) -> String {
    let bytes = pair.order.bytes().iter().take(SHOWN);
    let order: String = bytes.map(|byte| format!("{byte:02x}")).collect();
    format!(
        "state: {}; order: {} {order}\n  expected: {}\n  printed:  {}",
        pair.of_state,
        pair.of_order,
        expected.escape_debug(),
        printed.escape_ascii()
    )
}
