//! The second program's command line.

use std::env;
use std::io::{self, BufWriter, Read, Write};
use std::path::Path;
use std::process::ExitCode;

use second::compare::{self, compare, Items, Scripts};
use second::coverage::{self, Facts};
use second::fault::{chunk_fault_run, fault_run, Tally};
use second::script::parts::Parts;
use second::script::End;
use second::{generate, hex, memory, pairs, report, script, support, why};

const HELP: &str = "\
The independent second program for RDP Remote Programs (RAIL).

usage:
  second pdu < script > output
  second session [--parts L0,L1,..] < script > output
      Runs a script of control messages or of state calls, and prints a line for
      each call. An item X, which changes state memory or the store, ends a run with the
      line `fault` on standard error and the status 3: the state here has no memory. In a
      script of control messages only a chunk taken before the change is undone, by the
      same item or by an emptying, does so. Of the memory that an item Z prints only the
      size is known here, and printed: `Z`, the number and `bytes`.
  second report < input > output
      Prints how much was visible at each mark. The input has items of a length of 2 and
      that many bytes to deliver; length 0 is a mark.
  second gen-pdu SEED ITEMS > script
  second gen-session SEED ITEMS [--parts L0,L1,..] > script
      Generates a script. The same seed and count give the same bytes.
      A seed that leaves 19 when divided by 20 gives a script whose last item is bad.
  second gen-report SEED ITEMS > input
      The same for a report. There such a seed gives an input whose last item is cut.
  second coverage-pdu FROM TO ITEMS
  second coverage-session FROM TO ITEMS
  second coverage-report FROM TO ITEMS
  second coverage-explain FROM TO ITEMS
      Runs the generated scripts of the seeds FROM to TO, prints how often each
      call, kind and number was met, also at each limit, and then what is missing.
      The status is 0 only if nothing is missing.
  second compare-pdu PROGRAM FROM TO ITEMS
  second compare-session PROGRAM FROM TO ITEMS [--parts L0,L1,..]
  second compare-report PROGRAM FROM TO ITEMS
      Runs PROGRAM on the same scripts and compares what it prints, two at a time.
      Of an item Z the size is compared, and those bytes with the Z before that no call
      between them may change. The status is 0 only if scripts were compared and none
      differs.
  second compare-explain PROGRAM FROM TO ITEMS [--states SESSION]
      The same for a program that tells why an order is refused, on that many pairs of a
      state and an order for each seed, which PROGRAM is given as files. The states are
      written here, whole and cut, with too much and with bytes that break a rule; or with
      --states they are those that SESSION prints (Z) on the way of a script of state calls,
      which must also be read here as the book that the script leads to.
  second gen-explain SEED ITEMS FOLDER
      Writes such pairs to a folder: NUMBER.state, NUMBER.order and what is to be printed,
      NUMBER.expected. A file that cannot be read is left out.
  second fault-pdu PROGRAM FROM TO ITEMS
      The same with scripts of control messages and faults in the memory of chunks.
      Once a first chunk is taken, a message is whole or 16 is answered, what is begun
      is known again, and each line must be that of `second pdu`.
  second fault-session PROGRAM FROM TO ITEMS [--parts L0,L1,..]
      Runs PROGRAM on scripts with items X strewn in, each followed by an emptying
      and the script of the next seed. Each call must answer a number listed for it;
      up to the first X, and from each emptying to the next X, each line must be that
      of `second session`, and after an X in the store too, the bytes of pictures
      aside. The status is 0 only if nothing is wrong, and of the calls on memory with
      faults some answered 1 and some were granted.
  second hex-pdu < text > script
  second hex-session < text > script
      Makes a script of lines that have the letter of a kind and hex, such as
      `R hex`. Spaces in the hex, empty lines and comments from # on are passed over.
  second hex-report < text > input
      Makes the input of a report of lines that have the hex of an order, or `mark`.
  second update-to-script [--hex] < update > script
      Makes a script of a raw update (orders back to back, as a server sends them;
      with --hex a text of hex with comments): each order is delivered, and after each
      that changes the table all windows, notification icons, the desktop state and the
      lists of ids are looked up.
  second record < script > record
      Runs a script of state calls and writes the session record of the orders that
      then stand after the mark.
  second list-record [--after SCRIPT] < record
      Lists a session record, a line for each order: its offset and size, the number
      that it gets when all are delivered in turn, its kind, ids and flags. They are
      delivered to an emptied state, or with --after to the one that SCRIPT leaves,
      with a mark at its end. A refused record is told on standard error, status 1.
  second explain STATE ORDER
      Tells why an order is refused. STATE is a file of state memory as an item Z prints
      it (its parts end to end, then its places), ORDER one with the bytes of the order; one
      that cannot be read is empty. Prints a line each: the number that delivery would give,
      its words, and the offset of the field at fault, which an accepted order has not. A
      state with a pointer that no call sets is told on standard error, status 3.
  second state < output > file
      Writes the memory of the last item Z in what rail_session printed, as such a file.
  second explain SCRIPT < output
      Tells what a session script asked and what was answered, in words: refusals by
      document 01's conditions, orders by their fields, titles as text. `output` is
      what rail_session or `second session` printed for it.
  second diff FROM TO < script
      Tells what changed in the table between two items of a session script, counted
      from 1 as `explain` does (0: before the first): records that are new or gone, and
      fields that became others.
  second --help

A script that ends a run with `bad item` is told on standard error: which item, at
which byte, and why.
--parts gives the lengths of the parts of state memory that PROGRAM lends, by
default PARTS. It only tells which items T and X name a part, those
of the store coming after them, and how many bytes an item Z prints.
";

fn main() -> ExitCode {
    let arguments: Vec<String> = env::args().skip(1).collect();
    let arguments: Vec<&str> = arguments.iter().map(String::as_str).collect();
    match dispatch(&arguments) {
        Ok(code) => code,
        Err(fault) => {
            eprintln!("second: {fault}");
            ExitCode::from(2)
        }
    }
}

fn dispatch(arguments: &[&str]) -> Result<ExitCode, String> {
    match arguments {
        ["pdu"] => run_pdu(),
        ["session", options @ ..] => run_session(&parts(options)?),
        ["report"] => run_report(),
        ["gen-report", seed, items] => {
            print(&generate::report::input(number(seed)?, count(items)?))
        }
        ["gen-pdu", seed, items] => print(&generate::pdu::script(number(seed)?, count(items)?)),
        ["gen-session", seed, items, options @ ..] => {
            let parts = parts(options)?;
            let script = generate::session::script(number(seed)?, count(items)?, &parts);
            print(&script)
        }
        ["coverage-pdu", from, to, items] => print_facts(&coverage::pdu::of_seeds(
            number(from)?,
            number(to)?,
            count(items)?,
        )),
        ["coverage-session", from, to, items] => print_facts(&coverage::session::of_seeds(
            number(from)?,
            number(to)?,
            count(items)?,
        )),
        ["coverage-report", from, to, items] => print_facts(&coverage::report::of_seeds(
            number(from)?,
            number(to)?,
            count(items)?,
        )),
        ["coverage-explain", from, to, items] => print_facts(&coverage::explain::of_seeds(
            number(from)?,
            number(to)?,
            count(items)?,
        )),
        ["compare-report", program, from, to, items] => {
            compare_report(program, number(from)?, number(to)?, count(items)?)
        }
        ["compare-explain", program, from, to, items, options @ ..] => {
            let states = match options {
                [] => None,
                ["--states", session] => Some(*session),
                _ => return Err("unknown arguments, see --help".into()),
            };
            let seeds = [number(from)?, number(to)?];
            compare_explain(program, states, seeds, count(items)?)
        }
        ["gen-explain", seed, items, folder] => {
            gen_explain(number(seed)?, count(items)?, Path::new(folder))
        }
        ["state"] => {
            let output = input()?;
            let file = script::dump::last_memory(&output).ok_or("no line of an item Z")?;
            print(&file)
        }
        ["explain", state, order] => explain_files(Path::new(state), Path::new(order)),
        ["compare-pdu", program, from, to, items] => {
            compare_pdu(program, number(from)?, number(to)?, count(items)?)
        }
        ["compare-session", program, from, to, items, options @ ..] => {
            let parts = parts(options)?;
            compare_session(program, number(from)?, number(to)?, count(items)?, &parts)
        }
        ["fault-pdu", program, from, to, items] => {
            fault_pdu(program, number(from)?, number(to)?, count(items)?)
        }
        ["fault-session", program, from, to, items, options @ ..] => {
            let parts = parts(options)?;
            fault_session(program, number(from)?, number(to)?, count(items)?, &parts)
        }
        ["hex-pdu"] => print_script(script::pdu::KINDS),
        ["hex-report"] => {
            let text = String::from_utf8(input()?).map_err(|_| "input: not a text")?;
            print(&report::from_text(&text)?)
        }
        ["hex-session"] => print_script(script::session::KINDS),
        ["update-to-script"] => print(&support::import::script(&input()?)),
        ["update-to-script", "--hex"] => print(&support::import::script(&hex_input()?)),
        ["record"] => print(&support::record::of_script(&input()?)?),
        ["list-record"] => list_record(&[]),
        ["list-record", "--after", script] => list_record(&file(script)?),
        ["explain", script] => explain(script),
        ["diff", from, to] => {
            let text = support::diff::diff(&input()?, count(from)?, count(to)?)?;
            print(text.as_bytes())
        }
        ["--help"] | ["-h"] => print(help().as_bytes()),
        _ => Err("unknown arguments, see --help".into()),
    }
}

fn help() -> String {
    let lengths = Parts::default().lengths().to_vec();
    let lengths: Vec<String> = lengths.iter().map(u32::to_string).collect();
    HELP.replace("PARTS", &lengths.join(","))
}

fn number(text: &str) -> Result<u64, String> {
    text.parse().map_err(|_| format!("not a number: {text}"))
}

fn count(text: &str) -> Result<usize, String> {
    text.parse().map_err(|_| format!("not a count: {text}"))
}

fn parts(options: &[&str]) -> Result<Parts, String> {
    match options {
        [] => Ok(Parts::default()),
        ["--parts", lengths] => Parts::parse(lengths),
        _ => Err("unknown arguments, see --help".into()),
    }
}

fn run_pdu() -> Result<ExitCode, String> {
    let script = input()?;
    let end = to_output(|out| script::pdu::run(&script, out))?;
    Ok(ended(end, "pdu", || support::unfit_pdu(&script)))
}

/// Says on standard error why an input is no script.
fn tell_unfit(kind: &str, fault: Option<String>) {
    if let Some(fault) = fault {
        eprintln!("second: {fault}");
        eprintln!("usage: second {kind} < script (second --help)");
    }
}

/// The bytes of a text of hex with comments from # on.
fn hex_input() -> Result<Vec<u8>, String> {
    let text = String::from_utf8(input()?).map_err(|_| "input: not a text")?;
    let mut bytes = Vec::new();
    for (index, line) in text.lines().enumerate() {
        let digits = line.split('#').next().unwrap_or_default();
        let line = hex::bytes(digits.as_bytes());
        bytes.extend(line.map_err(|fault| format!("input: line {}: {fault}", index + 1))?);
    }
    Ok(bytes)
}

fn file(name: &str) -> Result<Vec<u8>, String> {
    std::fs::read(name).map_err(|fault| format!("{name}: {fault}"))
}

fn list_record(before: &[u8]) -> Result<ExitCode, String> {
    match support::record::list(&input()?, before) {
        Ok(text) => print(text.as_bytes()),
        Err(fault) => {
            eprintln!("second: {fault}");
            Ok(ExitCode::from(1))
        }
    }
}

fn explain(script: &str) -> Result<ExitCode, String> {
    let bytes = file(script)?;
    let output = String::from_utf8(input()?).map_err(|_| "input: not a text")?;
    let text = support::explain::explain(&bytes, &output)?;
    print(text.as_bytes())
}

fn explain_files(state: &Path, order: &Path) -> Result<ExitCode, String> {
    let state = why::contents(state, memory::FILE_LIMIT);
    let order = why::contents(order, why::ORDER_LIMIT);
    match why::on_file(&state, &order) {
        Some(told) => print(told.lines().as_bytes()),
        None => {
            eprintln!("second: the state has a pointer that no call sets");
            Ok(ExitCode::from(3))
        }
    }
}

fn gen_explain(seed: u64, items: usize, folder: &Path) -> Result<ExitCode, String> {
    pairs::write(seed, items, folder).map_err(|fault| format!("{}: {fault}", folder.display()))?;
    Ok(ExitCode::SUCCESS)
}

fn run_session(parts: &Parts) -> Result<ExitCode, String> {
    let script = input()?;
    let end = to_output(|out| script::session::run(&script, parts, out))?;
    Ok(ended(end, "session", || {
        support::unfit_session(&script, parts)
    }))
}

fn run_report() -> Result<ExitCode, String> {
    let input = input()?;
    to_output(|out| report::run(&input, out))?;
    Ok(ExitCode::SUCCESS)
}

/// The status of a run; standard error tells what is wrong with its script, or that a fault ended it.
fn ended(end: End, kind: &str, unfit: impl Fn() -> Option<String>) -> ExitCode {
    match end {
        End::Done => {
            tell_unfit(kind, unfit());
            ExitCode::SUCCESS
        }
        End::Fault => {
            eprintln!("fault");
            ExitCode::from(3)
        }
    }
}

/// What a run gives, its output written through.
fn to_output<T>(run: impl FnOnce(&mut dyn Write) -> io::Result<T>) -> Result<T, String> {
    let mut out = BufWriter::with_capacity(1 << 16, io::stdout().lock());
    run(&mut out)
        .and_then(|result| out.flush().map(|()| result))
        .map_err(|fault| format!("output: {fault}"))
}

fn print_facts(facts: &Facts) -> Result<ExitCode, String> {
    let missing = facts.missing();
    let mut text = String::new();
    for (fact, count) in facts.met() {
        text += &format!("{fact}: {count}\n");
    }
    for fact in &missing {
        text += &format!("missing: {fact}\n");
    }
    text += &format!("{} missing\n", missing.len());
    print(text.as_bytes())?;
    Ok(ExitCode::from(u8::from(!missing.is_empty())))
}

fn compare_pdu(program: &str, from: u64, to: u64, items: usize) -> Result<ExitCode, String> {
    let scripts = Scripts {
        make: &|seed| generate::pdu::script(seed, items),
        expected: &|script| written(|out| script::pdu::run(script, out)),
        told: &|_, printed| printed,
        items: Items::of_calls(script::chunk::SILENT),
    };
    compare_scripts(program, from, to, &scripts)
}

fn compare_session(
    program: &str,
    from: u64,
    to: u64,
    items: usize,
    parts: &Parts,
) -> Result<ExitCode, String> {
    let scripts = Scripts {
        make: &|seed| generate::session::script(seed, items, parts),
        expected: &|script| written(|out| script::session::run(script, parts, out)),
        told: &|script, printed| script::dump::told(script, parts, &printed),
        items: Items::of_calls(script::session::SILENT),
    };
    compare_scripts(program, from, to, &scripts)
}

fn compare_report(program: &str, from: u64, to: u64, items: usize) -> Result<ExitCode, String> {
    let scripts = Scripts {
        make: &|seed| generate::report::input(seed, items),
        expected: &|input| written(|out| report::run(input, out)),
        told: &|_, printed| printed,
        items: Items {
            take: report::take_item,
            silent: report::SILENT,
            head: 1,
        },
    };
    compare_scripts(program, from, to, &scripts)
}

/// What a run writes.
fn written<T>(run: impl FnOnce(&mut dyn Write) -> io::Result<T>) -> Vec<u8> {
    let mut output = Vec::new();
    run(&mut output).expect("memory takes all that is written");
    output
}

fn compare_explain(
    program: &str,
    states: Option<&str>,
    seeds: [u64; 2],
    items: usize,
) -> Result<ExitCode, String> {
    let report = |text: &str| println!("{text}");
    let tally = pairs::compare(
        Path::new(program),
        states.map(Path::new),
        seeds,
        items,
        report,
    )
    .map_err(|fault| format!("{program}: {fault}"))?;
    Ok(compared(&tally))
}

/// Prints what a comparison came to.
fn compared(tally: &compare::Tally) -> ExitCode {
    println!(
        "compared {} scripts, {} items: {} differences",
        tally.scripts, tally.items, tally.differences
    );
    ExitCode::from(u8::from(!tally.agrees()))
}

fn compare_scripts(
    program: &str,
    from: u64,
    to: u64,
    scripts: &Scripts<'_>,
) -> Result<ExitCode, String> {
    let report = |text: &str| println!("{text}");
    let tally = compare(Path::new(program), from, to, scripts, report)
        .map_err(|fault| format!("{program}: {fault}"))?;
    Ok(compared(&tally))
}

fn fault_session(
    program: &str,
    from: u64,
    to: u64,
    items: usize,
    parts: &Parts,
) -> Result<ExitCode, String> {
    let report = |text: &str| println!("{text}");
    let tally = fault_run(Path::new(program), from, to, items, parts, report)
        .map_err(|fault| format!("{program}: {fault}"))?;
    Ok(told(&tally))
}

fn fault_pdu(program: &str, from: u64, to: u64, items: usize) -> Result<ExitCode, String> {
    let report = |text: &str| println!("{text}");
    let tally = chunk_fault_run(Path::new(program), from, to, items, report)
        .map_err(|fault| format!("{program}: {fault}"))?;
    Ok(told(&tally))
}

/// Prints what a fault run came to.
fn told(tally: &Tally) -> ExitCode {
    let met = tally.met;
    println!(
        "calls that answered 1: {}, and {} that were lent too little",
        met.unfit, met.lent_short
    );
    println!("calls granted after a fault: {}", met.granted_after_fault);
    if met.store_faults > 0 {
        let (faults, granted) = (met.store_faults, met.granted_after_store_fault);
        println!("faults in the store: {faults}, calls granted after such alone: {granted}");
    }
    if met.figure_faults > 0 {
        let (faults, refused) = (met.figure_faults, met.wrong_figures);
        println!(
            "faults in the figures alone: {faults}, calls that answered 1 for them: {refused}"
        );
    }
    println!(
        "ran {} scripts, {} items, {} faults: {} wrong",
        tally.scripts, met.items, met.faults, tally.wrong
    );
    ExitCode::from(u8::from(!tally.holds()))
}

fn print_script(kinds: &[u8]) -> Result<ExitCode, String> {
    let text = String::from_utf8(input()?).map_err(|_| "input: not a text")?;
    print(&hex::script(kinds, &text)?)
}

fn input() -> Result<Vec<u8>, String> {
    let mut bytes = Vec::new();
    io::stdin()
        .lock()
        .read_to_end(&mut bytes)
        .map_err(|fault| format!("input: {fault}"))?;
    Ok(bytes)
}

fn print(bytes: &[u8]) -> Result<ExitCode, String> {
    to_output(|out| out.write_all(bytes))?;
    Ok(ExitCode::SUCCESS)
}
