//! Session records: written, read, refused, and delivered again.

use rail::{Memory, Record, Refusal, Session, RECORD_LIMIT};
use second::generate;
use second::script::parts::Parts;
use second::script::session::{call, Call};
use second::script::take_item;

const WINDOW: [u8; 15] = [0x2E, 15, 0, 4, 0, 0, 0x11, 0x58, 0, 1, 0, 2, 0, 0x41, 0];
const SHOWN: [u8; 12] = [0x2E, 12, 0, 0x10, 0, 0, 1, 0x58, 0, 1, 0, 5];
const HOOKED: [u8; 7] = [0x2E, 7, 0, 2, 0, 0, 4];

fn after_mark() -> Session {
    let mut session = Session::new();
    session.deliver(&WINDOW).unwrap();
    session.checkpoint();
    session.deliver(&SHOWN).unwrap();
    session.deliver(&HOOKED).unwrap();
    session
}

#[test]
fn the_orders_since_the_checkpoint() {
    let bytes = after_mark().record();
    assert_eq!(
        bytes[..18],
        [2, 0, 18, 0, 0, 0, 12, 0, 0, 0, 30, 0, 0, 0, 7, 0, 0, 0]
    );
    let record = Record::open(&bytes).unwrap();
    assert_eq!(
        (record.len(), record.bytes(), record.is_empty()),
        (2, 19, false)
    );
    assert!(record.iter().eq([&SHOWN[..], &HOOKED[..]]));
    assert_eq!(record.iter().len(), 2);
    // each is a part of the record
    let first = record.get(0).unwrap();
    assert_eq!(first.as_ptr(), bytes[18..].as_ptr());
    assert_eq!((record.get(1).unwrap().len(), record.get(2)), (7, None));
    assert_eq!(Session::new().record(), [0, 0]);
    assert!(Record::open(&[0, 0]).unwrap().is_empty());
}

#[test]
fn delivered_again_at_the_checkpoint() {
    let session = after_mark();
    let mut again = Session::new();
    again.deliver(&WINDOW).unwrap();
    again.checkpoint();
    for order in Record::open(&session.record()).unwrap() {
        again.deliver(order).unwrap();
    }
    assert_eq!(again.record(), session.record());
    assert!(again.windows().eq(session.windows()));
    assert_eq!(again.desktop(), session.desktop());
}

#[test]
fn refused_records() {
    let bytes = after_mark().record();
    for cut in 0..bytes.len() {
        assert_eq!(Record::open(&bytes[..cut]), Err(Refusal::RecordCut));
    }
    let mut longer = bytes.clone();
    longer.push(0x2E);
    assert_eq!(Record::open(&longer), Err(Refusal::RecordDiffers));
    for (at, number, refusal) in [
        (2, 19, Refusal::RecordDiffers),
        (2, u32::MAX, Refusal::RecordCut),
        (6, 11, Refusal::RecordDiffers),
        (6, u32::MAX, Refusal::RecordCut),
        (10, 29, Refusal::RecordDiffers),
    ] {
        let mut damaged = bytes.clone();
        damaged[at..at + 4].copy_from_slice(&number.to_le_bytes());
        assert_eq!(Record::open(&damaged), Err(refusal));
    }
    let many = |count: u16| {
        let head = 2 + 8 * u32::from(count);
        let mut bytes = count.to_le_bytes().to_vec();
        for _ in 0..count {
            bytes.extend([head.to_le_bytes(), [0; 4]].concat());
        }
        Record::open(&bytes).map(|record| record.len())
    };
    assert_eq!(many(128), Ok(128));
    assert_eq!(many(129), Err(Refusal::RecordDiffers));
}

#[test]
fn lent_memory() {
    let mut memory = Memory::new();
    memory.lend().reset().unwrap();
    memory.lend().deliver(&WINDOW).unwrap();
    let mut out = [0xEE; RECORD_LIMIT];
    let standing = memory.view().record_bytes(&mut out).unwrap();
    assert_eq!((standing.orders, standing.bytes), (1, 15));
    assert!(out[25..].iter().all(|&byte| byte == 0xEE));
    let mut small = [0xEE; 24];
    let refused = memory.view().record_bytes(&mut small);
    assert_eq!((refused, small), (Err(Refusal::OutputTooSmall), [0xEE; 24]));
    memory.journal[0] = 0xFF;
    let refused = memory.view().record_bytes(&mut small);
    assert_eq!(refused, Err(Refusal::UnfitMemory));
}

/// Records good and damaged, as the second program reads them.
#[test]
fn as_the_second_program_reads() {
    let parts = Parts::default();
    let mut numbers = [0; 20];
    for seed in 0..60 {
        let script = generate::session::script(seed, 300, &parts);
        let mut rest = &script[..];
        while let Some((item, tail)) = take_item(rest) {
            rest = tail;
            let Some(Call::ReadRecord(bytes)) = call(item, &parts) else {
                continue;
            };
            let expected = second::record::read(bytes);
            match Record::open(bytes) {
                Ok(record) => assert_eq!(Ok(record.iter().collect()), expected),
                Err(refusal) => assert_eq!(Err(refusal.number()), expected),
            }
            numbers[usize::from(expected.err().unwrap_or(0))] += 1;
        }
    }
    assert!([0, 18, 19].iter().all(|&number| numbers[number] > 20));
}
