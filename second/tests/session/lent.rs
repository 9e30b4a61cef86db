//! Fault runs on a program that keeps its book in state memory: it writes a file after each
//! call and reads it before the next one, so that a fault meets every rule of such files.

use second::fault::{check, Tally};
use second::generate::fault::{script, Faulty};
use second::generate::random::Random;
use second::memory::{self, Memory, FIGURES_AT, FIGURES_SIZE, PARTS, STATE_SIZE};
use second::script::parts::{places_of, Parts};
use second::script::session::{call, Call, Session};
use second::script::{take_item, Item};
use second::table::{MOST_PLACES, PLACE_SIZE};

struct Program {
    session: Session,
    file: Vec<u8>,
    /// The figures as they were written, for a program that does not look at them.
    figures: Option<Vec<u8>>,
    random: Random,
}

impl Program {
    fn new(looks: bool) -> Self {
        let mut program = Self {
            session: Session::default(),
            file: Vec::new(),
            figures: (!looks).then(Vec::new),
            random: Random::new(3),
        };
        program.write();
        program
    }

    fn write(&mut self) {
        self.file = memory::write(self.session.book(), MOST_PLACES, &mut self.random);
        if let Some(figures) = &mut self.figures {
            *figures = self.file[FIGURES_AT..][..FIGURES_SIZE].to_vec();
        }
    }

    fn read(&self) -> Memory {
        let Some(figures) = &self.figures else {
            return memory::read(&self.file);
        };
        let mut file = self.file.clone();
        file[FIGURES_AT..][..FIGURES_SIZE].copy_from_slice(figures);
        memory::read(&file)
    }

    /// Where in the file the byte of an item `X` stands, if it does.
    fn at(&self, part: usize, offset: usize) -> Option<usize> {
        let Some(part) = part.checked_sub(PARTS.len()) else {
            return Some(PARTS[..part].iter().sum::<usize>() + offset);
        };
        let lengths = self.session.lengths().map(places_of);
        let before: usize = lengths[..part].iter().sum();
        let at = STATE_SIZE + before * PLACE_SIZE + offset;
        (offset < lengths[part] * PLACE_SIZE && at < self.file.len()).then_some(at)
    }

    /// Adds what an item prints.
    fn run(&mut self, item: Item<'_>, parts: &Parts, out: &mut Vec<u8>) {
        let call = call(item, parts).expect("a good item");
        match (call, item.payload) {
            (Call::Fault | Call::FaultStore(..), &[part, a, b, c, d, bits]) => {
                let offset = u32::from_le_bytes([a, b, c, d]) as usize;
                if let Some(at) = self.at(part.into(), offset) {
                    self.file[at] ^= bits;
                }
            }
            (Call::Dump, _) => {
                let size = self.session.dump_size(parts);
                out.extend_from_slice(format!("Z {}\n", "00".repeat(size)).as_bytes());
            }
            (Call::Shorten | Call::ShortenStore(..) | Call::Lend(_), _) => {
                self.session.make(&call);
            }
            (Call::Empty | Call::ReadRecord(_), _) => self.make(item, &call, parts, out),
            _ => match self.read() {
                Memory::Book(book) => {
                    self.session.go_on_from(*book);
                    self.make(item, &call, parts, out);
                }
                _ => {
                    self.session.refuse();
                    out.extend_from_slice(&[item.kind, b' ', b'1', b'\n']);
                }
            },
        }
    }

    fn make(&mut self, item: Item<'_>, call: &Call<'_>, parts: &Parts, out: &mut Vec<u8>) {
        let line = out.len();
        self.session.make_line(item.kind, call, parts, out);
        let changes = matches!(
            call,
            Call::Empty | Call::Deliver(_) | Call::Update(..) | Call::Mark | Call::StepBack(_)
        );
        if changes && !out[line..].ends_with(b" 1\n") {
            self.write();
        }
    }
}

fn fault_run(looks: bool) -> Tally {
    let parts = Parts::default();
    let mut tally = Tally::default();
    for seed in 0..40 {
        let faulty: Faulty = script(seed, 60, &parts);
        let mut program = Program::new(looks);
        let mut printed = Vec::new();
        let mut rest = faulty.script.as_slice();
        while let Some((item, tail)) = take_item(rest) {
            program.run(item, &parts, &mut printed);
            rest = tail;
        }
        tally.scripts += 1;
        match check(&faulty, &parts, &printed) {
            Ok(met) => tally.met += met,
            Err(text) if looks => panic!("seed {seed}: {text}"),
            Err(_) => tally.wrong += 1,
        }
    }
    tally
}

#[test]
fn a_program_that_looks_at_all() {
    let tally = fault_run(true);
    assert!(tally.holds(), "{tally:?}");
    assert!(tally.met.figure_faults > 20, "{tally:?}");
    assert!(tally.met.wrong_figures > 100, "{tally:?}");
}

#[test]
fn a_program_that_takes_any_figure() {
    let tally = fault_run(false);
    assert!(tally.wrong > 3 && !tally.holds(), "{tally:?}");
}
