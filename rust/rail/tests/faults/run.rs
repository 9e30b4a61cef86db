//! Faults in lent memory: random bytes strewn in its parts, parts exchanged for older
//! ones or lent with another length. Every call answers a number that is listed for it, a
//! refusal or a lookup changes no byte, calls agree on whether memory is well formed, and
//! an emptying makes all good again.

use rail::{Memory, Refusal, FEWEST_PLACES, STORE_PARTS};
use second::generate::random::Random;
use second::generate::session::script;
use second::script::parts::{places, Parts, StoreLengths, FIRST_LENGTHS};
use second::script::session::{Call, Session as BookSession};

use crate::common::{
    compare, lend, lend_to_book, make, may_change, memory, number_of, steps, Answer, Lack, Step,
    SIZES,
};

/// Faults between an emptying and the next.
const FAULTS: u64 = 4;
/// Calls before the first fault, after each, and after the emptying.
const BEFORE: usize = 12;
const AFTER: usize = 6;
const AGAIN: usize = 6;
/// Calls of the list that they are taken from.
const LIST: usize = 90;

/// What a run came to.
#[derive(Clone, Copy, Debug, Default)]
pub struct Tally {
    pub faults: u64,
    pub calls: u64,
    /// Calls after a fault that were granted.
    pub granted: u64,
    /// Those refused with 1.
    pub unfit: u64,
    /// Those refused with another number.
    pub refused: u64,
    /// Calls after an emptying that were compared with the book.
    pub compared: u64,
}

impl Tally {
    pub fn add(&mut self, other: &Tally) {
        self.faults += other.faults;
        self.calls += other.calls;
        self.granted += other.granted;
        self.unfit += other.unfit;
        self.refused += other.refused;
        self.compared += other.compared;
    }
}

/// The faults of a seed; a text where something is wrong.
pub fn run(seed: u64) -> Result<Tally, String> {
    let script = script(seed, LIST, &Parts::default());
    let calls = steps(&script);
    let mut run = Run {
        random: Random::new(!seed),
        memory: memory(),
        lack: None,
        store: None,
        tally: Tally::default(),
    };
    run.check(&reset())?;
    // Those of the list come first, as they were made one after the other.
    let (before, rest) = calls.split_at(BEFORE.min(calls.len()));
    let mut older = run.memory.clone();
    for (at, step) in before.iter().enumerate() {
        if at == BEFORE / 2 {
            older = run.memory.clone();
        }
        run.check(step)?;
    }
    for _ in 0..FAULTS {
        run.strew(&older);
        for _ in 0..AFTER {
            run.call_after_fault(rest)?;
        }
    }
    run.is_good_again(&calls)?;
    Ok(run.tally)
}

fn reset() -> Step<'static> {
    alone(Call::Empty)
}

/// A call that is lent all that it needs.
fn alone(call: Call<'static>) -> Step<'static> {
    Step {
        call,
        lack: None,
        store: FIRST_LENGTHS,
    }
}

struct Run {
    random: Random,
    memory: Memory,
    /// What memory lacks until the emptying.
    lack: Option<Lack>,
    /// In what lengths the store is lent until then, if not in those of the step.
    store: Option<StoreLengths>,
    tally: Tally,
}

impl Run {
    fn check(&mut self, step: &Step<'_>) -> Result<(), String> {
        self.answer(step).map(drop)
    }

    /// Makes a call and checks its number and that what must stay stays.
    fn answer(&mut self, step: &Step<'_>) -> Result<Answer, String> {
        let before = self.memory.clone();
        let lack = step.lack.or(self.lack);
        let store = self.store.unwrap_or(step.store);
        let answer = make(&mut lend(&mut self.memory, lack, &store), &step.call);
        self.tally.calls += 1;
        let told = |text: &str| Err(format!("{:02x?}: {text}: {answer:?}", step.call));
        if !may_answer(&step.call, &answer, lack, &store) {
            return told("answers a number that is not listed for it");
        }
        let changes = answer.is_ok() && may_change(&step.call);
        if !changes && self.memory != before {
            return told("changes memory that it must leave alone");
        }
        // An undo of 0 changes nothing and is refused on unfit memory only.
        let after = lend(&mut self.memory, lack, &store).undo(0);
        let agrees = match &answer {
            Ok((standing, _)) => after == Ok(*standing),
            Err(refusal) => after.is_err() == (*refusal == Refusal::UnfitMemory),
        };
        if !agrees {
            return told("disagrees with an undo of 0 after it");
        }
        Ok(answer)
    }

    /// One of the calls, or any kind with any numbers.
    fn call_after_fault(&mut self, calls: &[Step<'_>]) -> Result<(), String> {
        let step = match calls.get(self.random.below(calls.len() + 8)) {
            Some(step) if step.call != Call::Empty => Step { ..*step },
            _ => self.any_call(),
        };
        match self.answer(&step)? {
            Ok(_) => self.tally.granted += 1,
            Err(Refusal::UnfitMemory) => self.tally.unfit += 1,
            Err(_) => self.tally.refused += 1,
        }
        Ok(())
    }

    fn any_call(&mut self) -> Step<'static> {
        let call = match self.random.below(4) {
            0 => Call::Mark,
            1 => Call::StepBack(self.random.below(4) as u32),
            2 => Call::Deliver(&[0x2E, 7, 0, 2, 0, 0, 4]),
            _ => Call::Desktop,
        };
        alone(call)
    }

    /// After an emptying the same calls answer as the book does.
    fn is_good_again(&mut self, calls: &[Step<'_>]) -> Result<(), String> {
        (self.lack, self.store) = (None, None);
        if self.answer(&reset())?.is_err() {
            return Err("an emptying is refused".into());
        }
        let mut book = BookSession::default();
        for step in calls.iter().take(AGAIN) {
            let answer = self.answer(step)?;
            lend_to_book(&mut book, step);
            compare(&mut book, &step.call, &answer)
                .map_err(|text| format!("after an emptying, {:02x?}: {text}", step.call))?;
            self.tally.compared += 1;
        }
        Ok(())
    }

    /// One fault.
    fn strew(&mut self, older: &Memory) {
        self.tally.faults += 1;
        let random = &mut self.random;
        let part = random.below(SIZES.len() + STORE_PARTS);
        let sort = random.below(20);
        if sort == 0 {
            match part.checked_sub(SIZES.len()) {
                None => self.lack = Some((part, 1 + random.below(SIZES[part]))),
                Some(part) => {
                    let mut store = FIRST_LENGTHS;
                    store[part] = random.below(store[part] as usize) as u32;
                    self.store = Some(store);
                }
            }
            return;
        }
        let older = part_of(&mut older.clone(), part).clone();
        strew_part(random, sort, part_of(&mut self.memory, part), &older);
    }
}

/// A part by its number: index, bodies, journal, then those of the store.
fn part_of(memory: &mut Memory, part: usize) -> &mut Box<[u8]> {
    match part {
        0 => &mut memory.index,
        1 => &mut memory.bodies,
        2 => &mut memory.journal,
        _ => &mut memory.store[part - SIZES.len()],
    }
}

/// Strews a fault of one of the sorts 1 to 19 in a part.
fn strew_part(random: &mut Random, sort: usize, bytes: &mut [u8], older: &[u8]) {
    // Half of the places are where memory is in use.
    let below = random.pick(&[bytes.len(), 40, 500, 2_000]).min(bytes.len());
    let at = random.below(below);
    let length = match sort {
        1..=8 => 1,
        9..=12 => 1 + random.below(64),
        13 => 1 + random.below(bytes.len()),
        _ => bytes.len(),
    };
    match sort {
        14 => bytes.fill(random.pick(&[0, 1, 0xFF])),
        15..=17 => bytes.copy_from_slice(older),
        // A small number in a byte.
        18 => bytes[at] = random.below(5) as u8,
        19 => bytes[at] ^= 1 << random.below(8),
        _ => {
            let end = bytes.len().min(at + length);
            bytes[at..end].fill_with(|| random.bits() as u8);
        }
    }
}

/// Whether a number is listed for a call, whatever its memory holds.
fn may_answer(call: &Call<'_>, answer: &Answer, lack: Option<Lack>, store: &StoreLengths) -> bool {
    let number = number_of(answer);
    if lack.is_some() || places(store) < FEWEST_PLACES {
        return number == 1;
    }
    match call {
        Call::Empty => number == 0,
        Call::Deliver(_) | Call::Update(..) => number <= 12 || number == 17,
        Call::WriteRecord(_) => [0, 1, 14].contains(&number),
        Call::Mark | Call::Desktop | Call::Lists => number <= 1,
        Call::StepBack(_) => [0, 1, 13].contains(&number),
        _ => [0, 1, 9].contains(&number),
    }
}
