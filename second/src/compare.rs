//! Runs another program on generated scripts and compares what it prints.

use std::io;
use std::path::Path;
use std::sync::Mutex;

use crate::program::{each_seed, run_program};
use crate::script::{take_item, Item};

/// The scripts to compare on.
pub struct Scripts<'a> {
    /// Makes the script of a seed.
    pub make: &'a (dyn Fn(u64) -> Vec<u8> + Sync),
    /// What a script has to print.
    pub expected: &'a (dyn Fn(&[u8]) -> Vec<u8> + Sync),
    /// What another program printed for a script, in the terms of what is expected.
    pub told: &'a Told<'a>,
    /// How its items are told apart.
    pub items: Items<'a>,
}

/// The items of a script beside its lines.
#[derive(Clone, Copy)]
pub struct Items<'a> {
    /// The first item of a script and the rest of it, or none if the item is cut.
    pub take: Take,
    /// The kinds of items that print nothing.
    pub silent: &'a [u8],
    /// The lines that come before those of items.
    pub head: usize,
}

/// Takes an item.
pub type Take = fn(&[u8]) -> Option<(Item<'_>, &[u8])>;

impl<'a> Items<'a> {
    /// Those of a call script.
    pub fn of_calls(silent: &'a [u8]) -> Self {
        Self {
            take: take_item,
            silent,
            head: 0,
        }
    }

    /// How many, a cut one included.
    fn count(&self, script: &[u8]) -> u64 {
        let mut count = 0;
        let mut rest = script;
        while !rest.is_empty() {
            count += 1;
            rest = (self.take)(rest).map_or(&[], |(_, tail)| tail);
        }
        count
    }

    /// The number (from 1), kind and hex of the item that prints after so many lines.
    fn text(&self, script: &[u8], lines: usize) -> String {
        let Some(mut lines) = lines.checked_sub(self.head) else {
            return "(none)".into();
        };
        let mut rest = script;
        let mut number = 1;
        while let Some((item, tail)) = (self.take)(rest) {
            if !self.silent.contains(&item.kind) {
                if lines == 0 {
                    break;
                }
                lines -= 1;
            }
            rest = tail;
            number += 1;
        }
        let (kind, bytes) = match (self.take)(rest) {
            Some((item, _)) => (item.kind.escape_ascii().to_string(), item.payload),
            None => ("(cut)".into(), rest),
        };
        let hex: String = bytes.iter().map(|byte| format!("{byte:02x}")).collect();
        format!("{number} {kind} {hex}")
    }

    /// Tells the first line in which two outputs differ, with its item.
    fn difference(&self, script: &[u8], ours: &[u8], theirs: &[u8]) -> Option<String> {
        if ours == theirs {
            return None;
        }
        let mut our_lines = ours.split_inclusive(|&byte| byte == b'\n');
        let mut their_lines = theirs.split_inclusive(|&byte| byte == b'\n');
        let mut lines_before = 0;
        loop {
            let (our_line, their_line) = (our_lines.next(), their_lines.next());
            if our_line != their_line {
                return Some(format!(
                    "item {}\n  expected: {}\n  printed:  {}",
                    self.text(script, lines_before),
                    line_text(our_line),
                    line_text(their_line)
                ));
            }
            lines_before += 1;
        }
    }
}

/// Tells what was printed for a script.
pub type Told<'a> = dyn Fn(&[u8], Vec<u8>) -> Vec<u8> + Sync + 'a;

/// What a comparison came to.
#[derive(Clone, Copy, Debug, Default, PartialEq, Eq)]
pub struct Tally {
    /// Scripts compared.
    pub scripts: u64,
    /// Items in them.
    pub items: u64,
    /// Scripts on which the programs differ.
    pub differences: u64,
}

impl Tally {
    /// Whether something was compared and nothing differs.
    pub fn agrees(&self) -> bool {
        self.scripts > 0 && self.differences == 0
    }
}

/// Compares on the scripts of the seeds `from` to `to`. Each difference is told
/// to `report` as it is found. An error means that the program could not be run.
pub fn compare(
    program: &Path,
    from: u64,
    to: u64,
    scripts: &Scripts<'_>,
    report: impl Fn(&str) + Sync,
) -> io::Result<Tally> {
    let tally = Mutex::new(Tally::default());
    each_seed(from, to, |seed| {
        let script = (scripts.make)(seed);
        let ours = (scripts.expected)(&script);
        let theirs = (scripts.told)(&script, run_program(program, &script)?);
        let difference = scripts.items.difference(&script, &ours, &theirs);
        let mut tally = tally.lock().expect("no worker panics");
        tally.scripts += 1;
        tally.items += scripts.items.count(&script);
        if let Some(text) = difference {
            tally.differences += 1;
            report(&format!("seed {seed}: {text}"));
        }
        Ok(())
    })?;
    Ok(tally.into_inner().expect("no worker panics"))
}

/// Tells the first line in which the outputs of a call script differ, with its item.
/// Items of the silent kinds have no line.
pub fn difference(script: &[u8], silent: &[u8], ours: &[u8], theirs: &[u8]) -> Option<String> {
    Items::of_calls(silent).difference(script, ours, theirs)
}

pub(crate) fn line_text(line: Option<&[u8]>) -> String {
    line.map_or("(no line)".into(), |line| line.escape_ascii().to_string())
}

/// The item of a call script that prints after so many lines.
pub(crate) fn item_text(script: &[u8], silent: &[u8], lines: usize) -> String {
    Items::of_calls(silent).text(script, lines)
}
