//! Words with one of them changed: what is written of them reads back as these words.

use second::generate::pdu::script;
use second::generate::random::Random;
use second::script::take_item;

use crate::ffi::{pdu_read, pdu_write, Words};

const FILL: u8 = 0xEE;
/// What is written of an application id.
const APPLICATION_ID: u32 = 520;

/// The indices at which words have the places of strings; their lengths come next.
fn places(words: &Words) -> &'static [usize] {
    match words[0] {
        0x01 => &[2, 4, 6],
        0x03 if words[1] == 0x43 => &[3],
        0x0F => &[2],
        0x80 => &[4],
        _ => &[],
    }
}

/// Changes one word, by a bit, to a neighbor, past 16 bits or to any number.
fn change(words: &mut Words, random: &mut Random) {
    let word = &mut words[random.below(12)];
    *word = match random.below(6) {
        0 => *word ^ 1 << random.below(32),
        1 => word.wrapping_add(1),
        2 => word.wrapping_sub(1),
        3 => word.wrapping_add(0x1_0000),
        4 => random.number(u32::MAX),
        _ => return,
    };
}

/// The string whose place stands at this index, if it lies in these bytes.
fn string<'a>(words: &Words, at: usize, bytes: &'a [u8]) -> Option<&'a [u8]> {
    let [place, length] = [words[at], words[at + 1]].map(|word| word as usize);
    bytes.get(place..)?.get(..length)
}

/// Whether a granted write stands for exactly these words and strings.
fn reads_back(words: &Words, strings: &[u8], written: &[u8]) -> bool {
    let mut read = [0; 12];
    if pdu_read(written, &mut read) != 0 {
        return false;
    }
    let mut expected = *words;
    for &at in places(words) {
        let Some(string) = string(words, at, strings) else {
            return false;
        };
        let there = self::string(&read, at, written);
        if !there.is_some_and(|there| there.starts_with(string)) {
            return false;
        }
        expected[at] = read[at];
    }
    if words[0] == 0x0F && words[3] <= APPLICATION_ID {
        expected[3] = APPLICATION_ID;
    }
    read == expected
}

/// Writes words; the number, or a text where something is wrong.
fn write(words: &Words, strings: &[u8], out: &mut [u8]) -> Result<u32, String> {
    out.fill(FILL);
    let answer = pdu_write(words, strings, out);
    let (number, length) = (answer & 0xFFFF, (answer >> 16) as usize);
    let right = match number {
        0 => reads_back(words, strings, &out[..length]),
        8 | 14 => length == 0,
        _ => false,
    };
    let kept = out[length..].iter().all(|&byte| byte == FILL);
    if right && kept {
        Ok(number)
    } else {
        Err(format!(
            "{words:x?} are written with {answer:08x}, the rest kept: {kept}"
        ))
    }
}

#[test]
fn changed_words() {
    let mut random = Random::new(1);
    let mut out = vec![0; super::MESSAGE_LIMIT + 3];
    let mut numbers = [0; 15];
    for seed in 0..100 {
        let script = script(seed, 300);
        let mut rest = script.as_slice();
        while let Some((item, tail)) = take_item(rest) {
            rest = tail;
            let mut words = [0; 12];
            if !b"Rr".contains(&item.kind) || pdu_read(item.payload, &mut words) != 0 {
                continue;
            }
            for _ in 0..5 {
                let mut words = words;
                change(&mut words, &mut random);
                let room = random.pick(&[out.len(), out.len(), item.payload.len(), 10]);
                let number = write(&words, item.payload, &mut out[..room]);
                numbers[number.unwrap_or_else(|text| panic!("seed {seed}: {text}")) as usize] += 1;
            }
        }
    }
    println!("numbers {numbers:?}");
    assert!([0, 8, 14].iter().all(|&number| numbers[number] > 1_000));
}
