//! Messages in chunks: the request's sentences, their items in scripts, faults.

use super::common::{assert_lines, second};
use super::{hex, read_number, run, run_text, script_of};
use second::fault::chunk::check;
use second::generate::chunk_fault::script as faulty_script;
use second::generate::random::Random;
use second::pdu::chunk::{flag, Assembly, Head, LONGEST};
use second::script::pdu::run as run_script;
use second::script::{push_item, take_item, End};

fn chunk(length: usize, flags: u32, piece: &[u8]) -> Vec<u8> {
    Head { length, flags }.with(piece)
}

#[test]
fn stored_vectors() {
    let text = include_str!("../../vectors/chunks.txt");
    let expected: Vec<&str> = text
        .lines()
        .filter(|line| line.starts_with(['K', 'E', 'R']))
        .map(|line| line.split_once("# => ").expect("an expected line").1)
        .collect();
    assert!(expected.len() >= 60);
    assert_lines(&run_text(text), &expected);
}

/// Any cutting answers as the uncut message.
#[test]
fn random_cuttings() {
    let mut random = Random::new(4);
    for _ in 0..2_000 {
        let length = 1 + random.below(40);
        let message = random.bytes(length);
        let mut assembly = Assembly::default();
        if random.chance(50) {
            assert_eq!(assembly.take(&chunk(9, flag::FIRST, &[1])), Ok(None));
        }
        let mut from = 0;
        let mut flags = flag::FIRST;
        while random.chance(70) {
            let end = from + random.below(length - from + 1);
            let taken = assembly.take(&chunk(length, flags, &message[from..end]));
            assert_eq!(taken, Ok(None));
            flags = 0;
            from = end;
        }
        let last = chunk(length, flags | flag::LAST, &message[from..]);
        assert_eq!(assembly.take(&last), Ok(Some(message)));
        assert_eq!(assembly.unfinished(), None);
    }
}

#[test]
fn the_longest_message() {
    let message = vec![7; LONGEST];
    let mut assembly = Assembly::default();
    for (index, piece) in message.chunks(1_600).enumerate() {
        let flags = u32::from(index == 0) | (2 * u32::from(index == 10));
        let taken = assembly.take(&chunk(LONGEST, flags, piece));
        assert_eq!(taken, Ok((index == 10).then(|| message.clone())));
    }
    assert_eq!(assembly.take(&chunk(LONGEST + 1, 1, &[])), Err(16));
}

#[test]
fn each_refusal_leaves_or_drops_what_was_begun() {
    let begun = || {
        let mut assembly = Assembly::default();
        assert_eq!(assembly.take(&chunk(8, 1, &[1, 2, 3])), Ok(None));
        assembly
    };
    for short in 0..8 {
        let mut assembly = begun();
        assert_eq!(assembly.take(&vec![0; short]), Err(15));
        assert_eq!(assembly, begun());
    }
    for bad in [
        chunk(8, flag::COMPRESSED, &[4]),
        chunk(7, 0, &[4]),
        chunk(9, 0, &[4]),
        chunk(0, 1, &[]),
        chunk(LONGEST + 1, 1, &[]),
        chunk(8, 0, &[4; 6]),
        chunk(8, flag::LAST, &[4; 4]),
        chunk(8, flag::FIRST | flag::LAST, &[4; 7]),
    ] {
        let mut assembly = begun();
        assert_eq!(assembly.take(&bad), Err(16), "{bad:?}");
        assert_eq!(assembly, Assembly::default());
    }
    assert_eq!(Assembly::default().take(&chunk(8, 0, &[])), Err(16));
}

#[test]
fn items_without_a_listed_form_are_bad() {
    for item in [
        "E 00",
        "T",
        "T 01",
        "T 010000",
        "T 0000",
        "X 00000000",
        "X 0000000001 00",
        "X 00000100 01",
        "X FFFFFFFF 01",
    ] {
        assert_eq!(run_text(item), "bad item\n", "{item}");
    }
    // Bad items come before 1.
    assert_eq!(run_text("T 0100\nE 00"), "bad item\n");
}

#[test]
fn a_chunk_from_changed_memory_ends_the_run() {
    let ends = |text: &str| {
        let mut output = Vec::new();
        let end = run_script(&script_of(text).expect("a text form"), &mut output);
        (end.expect("memory takes all"), output)
    };
    assert_eq!(
        ends("X 00000000 01\nE\nK"),
        (End::Done, b"E 0\nK 15\n".to_vec())
    );
    assert_eq!(
        ends("X 00000000 01\nR\nK\nR"),
        (End::Fault, b"R 2\n".to_vec())
    );
    let output = second(
        &["pdu"],
        &script_of("X 00000000 01\nK").expect("a text form"),
    );
    assert_eq!(output.status.code(), Some(3));
}

/// A program whose memory is never found unfit passes, and one that gives a wrong line
/// does not.
#[test]
fn the_fault_run_finds_wrong_lines() {
    for seed in 0..20 {
        let faulty = faulty_script(seed, 60);
        let mut harmless = Vec::new();
        let mut rest = faulty.script.as_slice();
        while let Some((item, tail)) = take_item(rest) {
            if item.kind != b'X' {
                push_item(&mut harmless, item.kind, item.payload);
            }
            rest = tail;
        }
        let good = run(&harmless);
        let met = check(&faulty, good.as_bytes()).expect("nothing wrong");
        assert_eq!(met.unfit, 0);
        assert!(met.faults > 0);
        assert!(check(&faulty, &good.as_bytes()[..good.len() - 1]).is_err());
        assert!(check(&faulty, format!("{good}K 0\n").as_bytes()).is_err());
        for (index, line) in good.lines().enumerate() {
            let wrong = match line.as_bytes()[0] {
                b'K' => "K 9",
                b'E' => "E 2",
                _ => "R 1",
            };
            let lines: Vec<&str> = good
                .lines()
                .enumerate()
                .map(|(at, line)| if at == index { wrong } else { line })
                .collect();
            let printed = lines.join("\n") + "\n";
            assert!(
                check(&faulty, printed.as_bytes()).is_err(),
                "seed {seed}: {line}"
            );
        }
    }
}

/// Memory that was found unfit stays so until an emptying or a further fault.
#[test]
fn unfit_memory_stays_unfit() {
    let text = "X 9C420000 FF\nK 08000000 03000000 05000800B11D0000\nK 08000000 03000000 05000800B11D0000\nE\n";
    let script = script_of(text).expect("a text form");
    let faulty = second::generate::fault::Faulty {
        last_part: script.len() - 3,
        script,
    };
    let handshake = "K 0 type=0005 build=7601\n";
    for (lines, holds) in [
        ("K 1\nK 1\nE 0\n".into(), true),
        (format!("{handshake}{handshake}E 0\n"), true),
        (format!("K 1\n{handshake}E 0\n"), false),
        (format!("{handshake}K 1\nE 0\n"), false),
        ("K 16\nK 16\nE 0\n".into(), false),
    ] {
        assert_eq!(check(&faulty, lines.as_bytes()).is_ok(), holds, "{lines}");
    }
}

#[test]
fn reading_and_chunks_part_at_the_ends_only() {
    assert_eq!(read_number(&[]), 2);
    assert_eq!(Assembly::default().take(&chunk(0, 3, &[])), Err(16));
    assert_eq!(hex("9C42"), (LONGEST as u16).to_le_bytes());
}
