//! Runs another program on scripts, those of two seeds at the same time.

use std::io::{self, Read, Write};
use std::path::Path;
use std::process::{Command, Stdio};
use std::sync::atomic::{AtomicU64, Ordering};
use std::thread;

/// Programs that run at the same time.
const AT_ONCE: usize = 2;

/// Does the work of each of the seeds `from` to `to`.
pub(crate) fn each_seed(
    from: u64,
    to: u64,
    work: impl Fn(u64) -> io::Result<()> + Sync,
) -> io::Result<()> {
    let next = AtomicU64::new(from);
    let work_on = || -> io::Result<()> {
        loop {
            let seed = next.fetch_add(1, Ordering::Relaxed);
            if !(from..=to).contains(&seed) {
                return Ok(());
            }
            work(seed)?;
        }
    };
    thread::scope(|scope| {
        let workers: Vec<_> = (0..AT_ONCE).map(|_| scope.spawn(work_on)).collect();
        workers
            .into_iter()
            .try_for_each(|worker| worker.join().expect("no worker panics"))
    })
}

/// The program's standard output, given the script on its standard input. Its
/// end by a signal shows as a last line. What it says of an unfit script on standard
/// error is passed over: many of the generated ones end in a bad item.
pub(crate) fn run_program(program: &Path, script: &[u8]) -> io::Result<Vec<u8>> {
    let mut child = Command::new(program)
        .stdin(Stdio::piped())
        .stdout(Stdio::piped())
        .stderr(Stdio::null())
        .spawn()?;
    let mut input = child.stdin.take().expect("a pipe");
    let mut output = child.stdout.take().expect("a pipe");
    let mut printed = Vec::new();
    thread::scope(|scope| {
        // A program that stops at a bad item may leave the rest unread.
        scope.spawn(move || {
            let _ = input.write_all(script);
        });
        output.read_to_end(&mut printed)
    })?;
    let status = child.wait()?;
    if status.code().is_none() {
        printed.extend_from_slice(format!("({status})\n").as_bytes());
    }
    Ok(printed)
}
