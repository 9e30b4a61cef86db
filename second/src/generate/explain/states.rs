//! Files of a state: whole, with more places than it has fixed, cut, and with a byte that
//! breaks one of the rules of state memory.

use super::figures;
use crate::book::Book;
use crate::generate::random::Random;
use crate::memory::{self, Memory, PARTS, STATE_SIZE};
use crate::table::{MOST_PLACES, PLACE_SIZE};

/// What is done with the file of a state so that it stays one; the last more rarely.
pub const WHOLE: [&str; 7] = [
    "just the places fixed",
    "more places than fixed",
    "a broken place at the end",
    "64 places",
    "more than 64 places",
    "more than 64 places and a broken one",
    "megabytes more",
];

/// The bytes that are more.
const MEGABYTES: usize = 3_000_000;

/// What is done with it so that it is none, or may be none.
const OTHER: [&str; 9] = [
    "one place too few",
    "one byte of the last place missing",
    "no place",
    "one byte of the parts missing",
    "cut anywhere",
    "no bytes",
    "zeros",
    "noise",
    "one byte changed",
];

/// The rules of state memory that a byte can break.
#[rustfmt::skip]
const RULES: [&str; 36] = [
    "11 places", "65 places", "fewer places than pointers need", "a pointer past the places",
    "two cells at one place", "a free slot with a pointer", "a slot neither used nor free",
    "a window with a second id", "a window twice", "a notification icon twice",
    "a window's first mark", "a window's second mark", "a notification icon's mark",
    "show state", "title", "RPContent", "window rectangles", "visibility rectangles",
    "overlay text", "taskbar", "server z", "application bar", "edge",
    "tip", "balloon text", "balloon title", "hooked", "syncing", "stack",
    "bits per pixel", "width", "height", "picture",
    "129 orders", "an order past the room", "an order refused in its turn",
];

/// Every rule by its name.
pub fn rules() -> impl Iterator<Item = &'static str> {
    RULES.into_iter().chain(figures::RULES)
}

/// A file of a book, and what else is in it.
pub fn whole(book: &Book, random: &mut Random) -> (Vec<u8>, &'static str) {
    let fixed = book.places();
    let sort = match random.chance(2) {
        true => WHOLE[6],
        false => random.pick(&WHOLE[..6]),
    };
    let places = match sort {
        "more places than fixed" if fixed < MOST_PLACES => {
            fixed + 1 + random.below(MOST_PLACES - fixed)
        }
        "64 places" => MOST_PLACES,
        "more than 64 places" | "more than 64 places and a broken one" => {
            MOST_PLACES + 1 + random.below(3)
        }
        _ => fixed,
    };
    let mut file = memory::write(book, places, random);
    match sort {
        "more places than fixed" if fixed == MOST_PLACES => (file, "64 places"),
        "a broken place at the end" | "more than 64 places and a broken one" => {
            let length = random.pick(&[1, 2_000, PLACE_SIZE - 1]);
            file.extend(random.bytes(length));
            (file, sort)
        }
        "megabytes more" => {
            file.resize(file.len() + MEGABYTES, 0x5A);
            (file, sort)
        }
        _ => (file, sort),
    }
}

/// A file that is cut or changed, and how; a rule by turns.
pub fn other(book: &Book, turn: usize, random: &mut Random) -> (Vec<u8>, &'static str) {
    let fixed = book.places();
    let mut file = memory::write(book, fixed, random);
    if random.chance(50) {
        let whole = file.clone();
        // Not every state can break every rule: the next that it can is taken.
        let rules: Vec<_> = rules().collect();
        for n in 0..rules.len() {
            let rule = rules[(turn + n) % rules.len()];
            if Breaker::of(&mut file).breaks(rule, random).is_some() {
                return (file, rule);
            }
            file.clone_from(&whole);
        }
    }
    let sort = random.pick(&OTHER);
    match sort {
        "one place too few" => file.truncate(STATE_SIZE + PLACE_SIZE * (fixed - 1)),
        "one byte of the last place missing" => file.truncate(file.len() - 1),
        "no place" => file.truncate(STATE_SIZE),
        "one byte of the parts missing" => file.truncate(STATE_SIZE - 1),
        "cut anywhere" => file.truncate(random.below(file.len())),
        "no bytes" => file.clear(),
        "zeros" => file.fill(0),
        "noise" => file = random.bytes(file.len()),
        _ => change(&mut file, random),
    }
    // No book has what a changed byte can make of it.
    if memory::read(&file) == Memory::Beyond {
        return (memory::write(book, fixed, random), WHOLE[0]);
    }
    (file, sort)
}

/// Changes a byte, most of them where something is.
fn change(file: &mut [u8], random: &mut Random) {
    let at = match random.below(4) {
        0 => random.below(PARTS[0]),
        1 => random.below(PARTS[0] + PARTS[1]),
        2 => PARTS[0] + PARTS[1] + random.below(600),
        _ => random.below(STATE_SIZE),
    };
    file[at] ^= 1 << random.below(8);
}

/// Where the parts of a file stand, by docs/MEMORY.md.
const POINTERS: usize = 1;
const SLOTS: usize = 157;
const BODIES: usize = PARTS[0];
const ICONS: usize = BODIES + 44_544;
const DESKTOP: usize = BODIES + 59_200;
const HEADS: usize = BODIES + 60_116;
const JOURNAL: usize = BODIES + PARTS[1];

/// Where the body of a window stands, by its slot.
pub(super) fn window_at(slot: usize) -> usize {
    BODIES + 1_392 * slot
}

/// Breaks a rule in a file.
struct Breaker<'a> {
    file: &'a mut Vec<u8>,
}

impl<'a> Breaker<'a> {
    fn of(file: &'a mut Vec<u8>) -> Self {
        Self { file }
    }

    /// The slots of windows, or of notification icons, that are used or free.
    fn slots(&self, icons: bool, used: bool) -> Vec<usize> {
        let all = if icons { 32..48 } else { 0..32 };
        all.filter(|slot| (self.file[SLOTS + 9 * slot] == 1) == used)
            .collect()
    }

    fn set16(&mut self, at: usize, number: u16) {
        self.file[at..at + 2].copy_from_slice(&number.to_le_bytes());
    }

    /// Breaks a rule; none where the state has nothing of the sort.
    fn breaks(&mut self, rule: &str, random: &mut Random) -> Option<()> {
        let windows = self.slots(false, true);
        if figures::RULES.contains(&rule) {
            return figures::breaks(self.file, rule, &windows, random);
        }
        let icons = self.slots(true, true);
        let mut one = |list: &[usize]| (!list.is_empty()).then(|| random.pick(list));
        let (window, icon) = (one(&windows), one(&icons));
        let in_window = |offset: usize| window.map(|slot| window_at(slot) + offset);
        let in_icon = |offset: usize| icon.map(|slot| ICONS + 916 * (slot - 32) + offset);
        let desktop = DESKTOP;
        let pointers: Vec<usize> = (POINTERS..SLOTS).filter(|&at| self.file[at] > 0).collect();
        let pointer = one(&pointers);
        let head = pointer.map(|at| HEADS + 14 * (usize::from(self.file[at]) - 1));
        let orders = u16::from_le_bytes([self.file[JOURNAL], self.file[JOURNAL + 1]]);
        match rule {
            "11 places" => self.file[0] = 11,
            "65 places" => self.file[0] = 65,
            "fewer places than pointers need" => {
                let most = pointers.iter().map(|&at| self.file[at]).max()?;
                self.file[0] = Some(most - 1).filter(|&places| places >= 12)?;
            }
            "a pointer past the places" => self.file[pointer?] = self.file[0] + 1,
            "two cells at one place" => {
                let cells: Vec<usize> = pointers.iter().copied().filter(|&at| at <= 12).collect();
                let from = one(&cells)?;
                let to = if from == 1 { 2 } else { from - 1 };
                self.file[to] = self.file[from];
            }
            "a free slot with a pointer" => {
                let free = [self.slots(false, false), self.slots(true, false)].concat();
                let slot = one(&free)?;
                self.file[13 + 3 * slot + slot % 3] = self.file[pointer?];
            }
            "a slot neither used nor free" => {
                let slot = [window, icon].into_iter().flatten().next()?;
                self.file[SLOTS + 9 * slot] = 2;
            }
            "a window with a second id" => self.file[SLOTS + 9 * window? + 6] = 1,
            "a window twice" => self.twice(&windows)?,
            "a notification icon twice" => self.twice(&icons)?,
            "a window's first mark" => self.file[in_window(0)?] = 1,
            "a window's second mark" => self.file[in_window(1)?] = 1,
            "a notification icon's mark" => self.file[in_icon(1)?] = 255,
            "show state" => self.file[in_window(14)?] = 1,
            "title" => self.set16(in_window(15)?, random.pick(&[1, 521, 522])),
            "RPContent" => self.file[in_window(569)?] = 2,
            "window rectangles" => self.set16(in_window(598)?, random.pick(&[17, 256])),
            "visibility rectangles" => self.set16(in_window(736)?, random.pick(&[17, 256])),
            "overlay text" => self.set16(in_window(866)?, random.pick(&[1, 521, 522])),
            "taskbar" => self.file[in_window(1_388)?] = 2,
            "server z" => self.file[in_window(1_389)?] = 2,
            "application bar" => self.file[in_window(1_390)?] = 2,
            "edge" => self.file[in_window(1_391)?] = 4,
            "tip" => self.set16(in_icon(6)?, random.pick(&[1, 257, 258])),
            "balloon text" => self.set16(in_icon(272)?, random.pick(&[1, 511, 512])),
            "balloon title" => self.set16(in_icon(784)?, random.pick(&[1, 127, 128])),
            "hooked" => self.file[desktop] = 2,
            "syncing" => self.file[desktop + 1] = 2,
            "stack" => self.file[desktop + 6] = 65,
            "bits per pixel" => self.file[head? + 3] = 2,
            "width" => self.set16(head? + 4, random.pick(&[0, 33])),
            "height" => self.set16(head? + 6, random.pick(&[0, 33])),
            "picture" => {
                let at = head?;
                let color = match self.file[at + 3] {
                    1 | 4 | 8 => at + 12,
                    _ => at + 10,
                };
                self.set16(color, 4_225);
            }
            "129 orders" => self.set16(JOURNAL, 129),
            "an order past the room" => {
                Some(()).filter(|()| orders > 0)?;
                self.set16(JOURNAL + 3, 32_769);
            }
            "an order refused in its turn" => {
                Some(()).filter(|()| orders > 0)?;
                self.file[JOURNAL + 2] = 0x2F;
            }
            _ => unreachable!("a rule of the list"),
        }
        Some(())
    }

    /// The ids of a slot are those of another.
    fn twice(&mut self, slots: &[usize]) -> Option<()> {
        let &[from, .., to] = slots else { return None };
        let ids = self.file[SLOTS + 9 * from + 1..][..8].to_vec();
        self.file[SLOTS + 9 * to + 1..][..8].copy_from_slice(&ids);
        Some(())
    }
}
