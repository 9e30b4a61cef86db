//! Messages in chunks: any cutting reads as the uncut message, and scripts of chunks answer
//! as the second program's do.

use rail::{Channel, Message, Profile, Refusal, MESSAGE_LIMIT};
use second::generate::pdu::script;
use second::generate::random::Random;
use second::pdu::chunk::{flag, Assembly, Head};
use second::script::chunk::{call, Call};
use second::script::take_item;

/// Scripts and the items of each.
const SCRIPTS: u64 = 200;
const ITEMS: usize = 300;

/// Messages, good and bad ones, of generated scripts, of 1 byte or more.
fn messages() -> Vec<Vec<u8>> {
    let mut messages = Vec::new();
    for seed in 0..40 {
        let script = script(seed, ITEMS);
        let mut rest = script.as_slice();
        while let Some((item, tail)) = take_item(rest) {
            let lengths = 1..=MESSAGE_LIMIT;
            if item.kind == b'R' && lengths.contains(&item.payload.len()) {
                messages.push(item.payload.to_vec());
            }
            rest = tail;
        }
    }
    messages
}

/// A cutting at random, its pieces with their flags; some are empty.
fn cut<'a>(message: &'a [u8], random: &mut Random) -> Vec<(u32, &'a [u8])> {
    let mut ends: Vec<usize> = (0..random.below(6))
        .map(|_| random.below(message.len() + 1))
        .collect();
    ends.push(message.len());
    ends.sort_unstable();
    let mut from = 0;
    let mut pieces = Vec::new();
    for &end in &ends {
        // Bits that do not matter.
        let other = random.pick(&[0, 0x10, 0x20, 0x40, 0xFFDF_FFFC]);
        pieces.push((other, &message[from..end]));
        from = end;
    }
    let last = pieces.len() - 1;
    pieces[0].0 |= flag::FIRST;
    pieces[last].0 |= flag::LAST;
    pieces
}

/// The property: whatever was begun, the pieces of a message answer none but for the last,
/// which answers as the uncut message is read.
#[test]
fn any_cutting_reads_as_the_uncut_message() {
    let mut random = Random::new(2_023);
    let mut channel = Channel::new();
    let messages = messages();
    assert!(messages.len() > 2_000);
    let (mut read, mut refused, mut in_pieces) = (0, 0, 0);
    for message in &messages {
        for _ in 0..3 {
            let length = message.len();
            let pieces = cut(message, &mut random);
            let (last, before) = pieces.split_last().expect("a piece");
            for &(flags, piece) in before {
                let chunk = Head { length, flags }.with(piece);
                assert_eq!(channel.take(&chunk), Ok(None));
            }
            let chunk = Head {
                length,
                flags: last.0,
            }
            .with(last.1);
            match (channel.take(&chunk), Message::read(message)) {
                (Ok(taken), Ok(uncut)) => {
                    assert_eq!(taken, Some(uncut));
                    read += 1;
                }
                (taken, uncut) => {
                    assert_eq!(taken.map(|_| ()), uncut.map(|_| ()));
                    refused += 1;
                }
            }
            in_pieces += usize::from(!before.is_empty());
            // Sometimes something is begun when the next message comes.
            let (length, flags) = (9, flag::FIRST);
            if random.chance(30) {
                let begun = Head { length, flags }.with(&[1, 2]);
                assert_eq!(channel.take(&begun), Ok(None));
            }
        }
    }
    assert!(read > 1_000 && refused > 1_000 && in_pieces > 1_000);
}

/// The chunks of generated scripts, spoiled ones among them.
#[test]
fn chunks_as_the_second_program_takes_them() {
    let mut counts = [0; 17];
    for seed in 0..SCRIPTS {
        let mut channel = Channel::new();
        let mut assembly = Assembly::default();
        let script = script(seed, ITEMS);
        let mut rest = script.as_slice();
        while let Some((item, tail)) = take_item(rest) {
            rest = tail;
            let Some(Call::Take(chunk)) = call(item) else {
                continue;
            };
            let ours = channel.take(chunk);
            let theirs = match assembly.take(chunk) {
                Ok(None) => {
                    assert_eq!(ours, Ok(None));
                    0
                }
                Ok(Some(message)) => {
                    assert_eq!(ours, Message::read(&message).map(Some));
                    second::pdu::read(&message).err().unwrap_or(0)
                }
                Err(number) => {
                    assert_eq!(ours, Err(Refusal::try_from(number).expect("a refusal")));
                    number
                }
            };
            counts[usize::from(theirs)] += 1;
        }
    }
    for number in [0, 2, 3, 4, 7, 8, 15, 16] {
        assert!(counts[number] > 50, "{number}: {}", counts[number]);
    }
}

/// In the counter profile a message of a client is refused once it is whole, and dropped.
#[test]
fn chunks_at_a_counter() {
    let mut channel = Channel::new();
    let both = flag::FIRST | flag::LAST;
    let chunk = |length, flags, piece: &[u8]| Head { length, flags }.with(piece);
    let activate = [2, 0, 9, 0, 1, 0, 0, 0, 1];
    let first = chunk(9, flag::FIRST, &activate[..5]);
    let last = chunk(9, flag::LAST, &activate[5..]);
    assert_eq!(channel.take_in(Profile::Counter, &first), Ok(None));
    assert_eq!(
        channel.take_in(Profile::Counter, &last),
        Err(Refusal::WrongEnd)
    );
    assert_eq!(
        channel.take_in(Profile::Counter, &last),
        Err(Refusal::BadChunk)
    );
    assert_eq!(
        channel.take_in(Profile::Plain, &chunk(9, both, &activate)),
        Message::read(&activate).map(Some)
    );
    assert_eq!(
        channel.take_in(Profile::Counter, &chunk(8, both, &[5, 0, 8, 0, 9, 0, 0, 0])),
        Ok(Some(Message::Handshake { build_number: 9 }))
    );
}

#[test]
fn a_reset_drops_what_was_begun() {
    let mut channel = Channel::default();
    let chunk = |flags, piece: &[u8]| Head { length: 8, flags }.with(piece);
    assert_eq!(channel.take(&chunk(flag::FIRST, &[5, 0, 8, 0])), Ok(None));
    assert_eq!(channel.take(&[0; 7]), Err(Refusal::ChunkTooShort));
    channel.reset();
    let last = chunk(flag::LAST, &[9, 0, 0, 0]);
    assert_eq!(channel.take(&last), Err(Refusal::BadChunk));
    assert_eq!(format!("{channel:?}"), "Channel { .. }");
}
