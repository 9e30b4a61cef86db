//! Runs programs under callgrind.

use std::path::Path;
use std::process::{Command, Stdio};

/// What a run under callgrind came to.
pub struct Counted {
    /// All instructions.
    pub total: u64,
}

/// Runs a program with these words and this input.
pub fn count(program: &Path, words: &[&str], input: Stdio) -> Result<Counted, String> {
    count_with(&[], program, words, input)
}

/// Runs a program and counts only what a function takes, with all that it calls.
pub fn count_within(function: &str, program: &Path, words: &[&str]) -> Result<Counted, String> {
    let option = format!("--toggle-collect={function}");
    count_with(&[&option], program, words, Stdio::null())
}

fn count_with(
    options: &[&str],
    program: &Path,
    words: &[&str],
    input: Stdio,
) -> Result<Counted, String> {
    let output = Command::new("valgrind")
        .args(["--tool=callgrind", "--callgrind-out-file=/dev/null"])
        .args(options)
        .arg(program)
        .args(words)
        .stdin(input)
        .output()
        .map_err(|error| format!("valgrind does not start: {error}"))?;
    let report = String::from_utf8_lossy(&output.stderr);
    if !output.status.success() {
        return Err(format!("valgrind failed: {report}"));
    }
    let total = collected(&report).ok_or_else(|| format!("valgrind told no total: {report}"))?;
    Ok(Counted { total })
}

/// The number in callgrind's line `==PID== Collected : NUMBER`.
fn collected(report: &str) -> Option<u64> {
    let line = report.lines().find(|line| line.contains("Collected :"))?;
    line.rsplit(' ').next()?.parse().ok()
}

#[cfg(test)]
mod tests {
    use super::collected;

    #[test]
    fn the_total_of_a_report() {
        let report = "==7== Events    : Ir\n==7== Collected : 160435\n==7== \n";
        assert_eq!(collected(report), Some(160_435));
        assert_eq!(collected("==7== Events    : Ir\n"), None);
    }
}
