//! Speed of the proved code beside the plain Rust of `second`: nanoseconds and
//! instructions per call, on the same messages and orders, in the same run.

mod call;
mod callgrind;
mod check;
mod chunks;
mod figures;
mod inputs;
mod instructions;
mod kept;
mod kinds;
mod orders;
mod plain;
mod records;
mod search;
mod state;
mod table;
mod time;
mod updates;

use std::env;
use std::process::ExitCode;

const HELP: &str = "\
bench: the proved code beside the plain Rust of `second`

  bench                check, time, instructions, chunks, orders, state, search,
                       updates, records, figures and kept, in turn
  bench check          compare the two sides' answers, words and bytes on every
                       benchmark message and on generated ones
  bench time           print nanoseconds per call as a Markdown table
  bench instructions   print instructions per call as a Markdown table; runs
                       itself under valgrind --tool=callgrind
  bench one MESSAGE SIDE JOB N
                       make N calls and print nothing, for callgrind.
                       SIDE: proved, plain or empty; JOB: read or write
  bench chunks         print instructions of a message in one chunk beside reading it
                       where it lies and its copy, as a Markdown table
  bench chunk-one MESSAGE CALL N
                       make N calls and print nothing, for callgrind.
                       CALL: read, whole, first or no-data
  bench messages       list the benchmark messages
  bench orders         print instructions per delivery of an order, and per mark
                       that brings it into the table, as a Markdown table,
                       beside the book of `second`
  bench state [LISTING]
                       print instructions and nanoseconds per state call at the C
                       boundary as Markdown tables, beside the book of `second`,
                       and the aims with what was measured; LISTING: that table
                       alone
  bench state-one LISTING CALL ORDERS SIDE N
                       make N state calls and print nothing, for callgrind.
                       LISTING: one, eight, full, equal, store, or apart-0, apart-1,
                       apart-4 and apart-16 of `bench kept`; ORDERS: in the journal;
                       SIDE: proved or plain
  bench state-calls    list the state calls
  bench search         print instructions of a window's lookup by the place that it is
                       found in, with 32 windows listed, as a Markdown table
  bench updates        print instructions per order in a whole update, with its share of
                       the validation, as a Markdown table, beside the book of `second`
  bench update-one LISTING ORDER LIMIT SIDE N
                       make N calls and print nothing, for callgrind. ORDER: a label of
                       that table; SIDE: rail_update or plain_update

  bench records        print instructions of writing a session record and of opening
                       one, as a Markdown table
  bench record-one ORDERS BYTES CALL N
                       make N calls and print nothing, for callgrind. BYTES: of each
                       order, 7 or a title's; CALL: refused, written or opened
  bench figures        print instructions of counting the figure at the mark, which the
                       validation does, and of reading it, as a Markdown table
  bench figure-one WINDOWS RECTANGLES LIE CALL N
                       make N calls and print nothing, for callgrind. LIE: apart or
                       stairs; CALL: hidden, refused or granted
  bench kept           print instructions of a delivery on a full table by the
                       rectangles of its windows, beside the aims, and of the lookup of
                       its desktop state, as Markdown tables

Jobs: `read` takes a message's bytes to the 12 words of its record, judged;
`write` takes 12 words and strings to a message's bytes in an output buffer.

Times depend on the machine and its load: run it on an idle one. Instruction
counts are the same in every run of the same two builds on the same machine and
in the same environment.

Exit status: 0 done, 1 a difference or a failure, 2 bad usage.
";

fn main() -> ExitCode {
    let words: Vec<String> = env::args().skip(1).collect();
    let words: Vec<&str> = words.iter().map(String::as_str).collect();
    let done = match words[..] {
        [] => everything(),
        ["check"] => check::run(),
        ["time"] => time::run(),
        ["instructions"] => instructions::run(),
        ["one", message, side, job, calls] => instructions::one(message, side, job, calls),
        ["chunks"] => chunks::run(),
        ["chunk-one", message, call, calls] => chunks::one(message, call, calls),
        ["messages"] => list_messages(),
        ["orders"] => orders::run(),
        ["state"] => state::run(None),
        ["state", listing] => state::run(Some(listing)),
        ["state-one", listing, call, orders, side, calls] => {
            state::one(listing, call, orders, side, calls)
        }
        ["state-calls"] => state::list(),
        ["search"] => search::run(),
        ["updates"] => updates::run(),
        ["update-one", listing, order, limit, side, calls] => {
            updates::one(listing, order, limit, side, calls)
        }
        ["records"] => records::run(),
        ["record-one", orders, bytes, call, calls] => records::one(orders, bytes, call, calls),
        ["figures"] => figures::run(),
        ["kept"] => kept::run(),
        ["figure-one", windows, rectangles, lie, call, calls] => {
            figures::one(windows, rectangles, lie, call, calls)
        }
        ["--help" | "-h" | "help"] => {
            print!("{HELP}");
            Ok(())
        }
        _ => {
            eprint!("{HELP}");
            return ExitCode::from(2);
        }
    };
    match done {
        Ok(()) => ExitCode::SUCCESS,
        Err(fault) => {
            eprintln!("bench: {fault}");
            ExitCode::FAILURE
        }
    }
}

fn everything() -> Result<(), String> {
    check::run()?;
    println!();
    time::run()?;
    println!();
    instructions::run()?;
    println!();
    chunks::run()?;
    println!();
    orders::run()?;
    println!();
    state::run(None)?;
    println!();
    search::run()?;
    println!();
    updates::run()?;
    println!();
    records::run()?;
    println!();
    figures::run()?;
    println!();
    kept::run()
}

fn list_messages() -> Result<(), String> {
    for input in inputs::all() {
        println!("{}: {}", input.name, input.label);
    }
    for output in inputs::outputs().iter().filter(|output| output.size() == 0) {
        println!("{} (write): {}", output.name, output.label);
    }
    Ok(())
}
