//! What the tests of both sorts of scripts share.

use std::io::Write;
use std::process::{Command, Output, Stdio};

/// Bytes from hex with spaces.
pub fn hex(text: &str) -> Vec<u8> {
    second::hex::bytes(text.as_bytes()).expect("hex digits")
}

/// Runs the program itself.
pub fn second(arguments: &[&str], input: &[u8]) -> Output {
    let mut child = Command::new(env!("CARGO_BIN_EXE_second"))
        .args(arguments)
        .stdin(Stdio::piped())
        .stdout(Stdio::piped())
        .stderr(Stdio::piped())
        .spawn()
        .expect("the program starts");
    let mut stdin = child.stdin.take().expect("a pipe");
    stdin.write_all(input).expect("the input is taken");
    drop(stdin);
    child.wait_with_output().expect("the program ends")
}

/// The lines that a text script expects, after `# => ` in each of its items.
pub fn expected_lines(text: &str) -> Vec<&str> {
    text.lines()
        .filter(|line| line.starts_with(|first: char| first.is_ascii_alphabetic()))
        .map(|line| line.split_once("# => ").expect("an expected line").1)
        .collect()
}

/// Compares what was printed with the lines expected. ` ..` stands for any text.
pub fn assert_lines(output: &str, expected: &[&str]) {
    let printed: Vec<&str> = output.lines().collect();
    assert_eq!(printed.len(), expected.len());
    for (printed, expected) in printed.iter().zip(expected) {
        match expected.split_once(" ..") {
            Some((beginning, end)) => assert!(
                printed.starts_with(beginning) && printed.ends_with(end),
                "{printed} is not {expected}"
            ),
            None => assert_eq!(printed, expected),
        }
    }
}

#[cfg(unix)]
pub mod program {
    use std::fs;
    use std::os::unix::fs::PermissionsExt;
    use std::path::PathBuf;

    /// A program of one shell line.
    pub fn program(name: &str, line: &str) -> PathBuf {
        let path = PathBuf::from(env!("CARGO_TARGET_TMPDIR")).join(name);
        fs::write(&path, format!("#!/bin/sh\n{line}\n")).expect("a file");
        fs::set_permissions(&path, fs::Permissions::from_mode(0o755)).expect("a program");
        path
    }
}
