//! Control messages are read and written as the second program does it.

use rail::{Message, NotifyIconId, Profile, Rectangle, Refusal, Setting, WindowId};
use second::generate::pdu::script;
use second::pdu::setting::{self, Body};
use second::pdu::{self, Record, SystemParameters};
use second::script::pdu::{run, run_with, Writers};
use second::script::take_item;

/// Scripts and the items of each, about half of them messages to be read.
const SCRIPTS: u64 = 200;
const ITEMS: usize = 300;

/// The message of a record, or none where Enabled is not 0 or 1.
fn message<'a>(record: &Record<'a>) -> Option<Message<'a>> {
    Some(match record {
        Record::Activate(r) => Message::Activate {
            window_id: WindowId(r.window_id.0),
            enabled: match r.enabled {
                0 => false,
                1 => true,
                _ => return None,
            },
        },
        Record::SystemCommand(r) => Message::SystemCommand {
            window_id: WindowId(r.window_id.0),
            command: r.command,
        },
        Record::Handshake(r) => Message::Handshake {
            build_number: r.build_number,
        },
        Record::NotifyEvent(r) => Message::NotifyEvent {
            window_id: WindowId(r.window_id.0),
            notify_icon_id: NotifyIconId(r.notify_icon_id.0),
            message: r.message,
        },
        Record::ClientInformation(r) => Message::ClientInformation { flags: r.flags },
        Record::GetApplicationId(r) => Message::GetApplicationId {
            window_id: WindowId(r.window_id.0),
        },
        Record::Execute(_) | Record::ApplicationIdResponse(_) | Record::ExecuteResult(_) => {
            with_strings(record)
        }
        Record::SystemParameters(r) => Message::SystemParameters {
            setting: setting(r),
        },
        Record::HandshakeEx(r) => Message::HandshakeEx {
            build_number: r.build_number,
            flags: r.flags,
        },
        _ => with_positions(record),
    })
}

/// The setting of system parameters.
fn setting<'a>(r: &SystemParameters<'a>) -> Setting<'a> {
    match r.body {
        Body::Value(value) => match r.setting {
            setting::SPI_SETDRAGFULLWINDOWS => Setting::DragFullWindows(value),
            setting::SPI_SETKEYBOARDCUES => Setting::KeyboardCues(value),
            setting::SPI_SETKEYBOARDPREF => Setting::KeyboardPref(value),
            setting::SPI_SETMOUSEBUTTONSWAP => Setting::MouseButtonSwap(value),
            setting::SPI_SETSCREENSAVEACTIVE => Setting::ScreenSaveActive(value),
            _ => Setting::ScreenSaveSecure(value),
        },
        Body::Area(r_area) => {
            let area = Rectangle {
                left: r_area.left,
                top: r_area.top,
                right: r_area.right,
                bottom: r_area.bottom,
            };
            match r.setting {
                setting::SPI_SETWORKAREA => Setting::WorkArea(area),
                setting::RAIL_SPI_TASKBARPOS => Setting::TaskbarPos(area),
                _ => Setting::DisplayChange(area),
            }
        }
        Body::Contrast(contrast) => Setting::HighContrast {
            flags: contrast.flags,
            color_scheme: contrast.color_scheme,
        },
    }
}

/// The messages that have strings.
fn with_strings<'a>(record: &Record<'a>) -> Message<'a> {
    match record {
        Record::Execute(r) => Message::Execute {
            flags: r.flags,
            exe_or_file: r.exe_or_file,
            working_dir: r.working_dir,
            arguments: r.arguments,
        },
        Record::ApplicationIdResponse(r) => Message::ApplicationIdResponse {
            window_id: WindowId(r.window_id.0),
            application_id: r.application_id,
        },
        Record::ExecuteResult(r) => Message::ExecuteResult {
            flags: r.flags,
            exec_result: r.exec_result,
            raw_result: r.raw_result,
            exe_or_file: r.exe_or_file,
        },
        _ => unreachable!("a record with strings"),
    }
}

/// The messages that have positions, which the second program reads as unsigned.
fn with_positions<'a>(record: &Record<'a>) -> Message<'a> {
    match record {
        Record::WindowMove(r) => Message::WindowMove {
            window_id: WindowId(r.window_id.0),
            left: r.left,
            top: r.top,
            right: r.right,
            bottom: r.bottom,
        },
        Record::MoveSize(r) => Message::MoveSize {
            window_id: WindowId(r.window_id.0),
            is_start: r.is_move_size_start,
            move_size_type: r.move_size_type,
            pos_x: r.pos_x,
            pos_y: r.pos_y,
        },
        Record::MinMaxInfo(r) => Message::MinMaxInfo {
            window_id: WindowId(r.window_id.0),
            max_width: r.max_width,
            max_height: r.max_height,
            max_pos_x: r.max_pos_x,
            max_pos_y: r.max_pos_y,
            min_track_width: r.min_track_width,
            min_track_height: r.min_track_height,
            max_track_width: r.max_track_width,
            max_track_height: r.max_track_height,
        },
        Record::SystemMenu(r) => Message::SystemMenu {
            window_id: WindowId(r.window_id.0),
            left: r.left,
            top: r.top,
        },
        _ => unreachable!("a record with positions"),
    }
}

/// Reading, and where it is granted writing back.
fn read_alike(bytes: &[u8], read: &mut [u64; 15]) -> Result<(), String> {
    let expected = pdu::read(bytes);
    let message_read = Message::read(bytes).map_err(Refusal::number);
    let number = message_read.err().unwrap_or(0);
    read[usize::from(number)] += 1;
    let record = match expected {
        Ok(record) => record,
        Err(_) if message_read == expected.map(|_| unreachable!("refused")) => return Ok(()),
        Err(_) => return Err(format!("reads {message_read:?}, not {expected:?}")),
    };
    let granted = message_read.ok();
    if granted != message(&record) {
        return Err(format!("reads {granted:?}, not {record:?}"));
    }
    let mut expected = vec![0xEE; bytes.len()];
    let written = pdu::write(&record, &mut expected);
    assert_eq!(written, Ok(bytes.len()), "a record that was read");
    let mut again = vec![0xEE; bytes.len() + 3];
    let length = granted.map(|message| message.write(&mut again));
    if length != Some(Ok(bytes.len())) || !again.starts_with(&expected) {
        return Err(format!("writes {again:02x?}"));
    }
    if !again.ends_with(&[0xEE; 3]) {
        return Err("writes past the end".into());
    }
    Ok(())
}

#[test]
fn messages_are_read_alike() {
    let mut read = [0; 15];
    for seed in 0..SCRIPTS {
        let script = script(seed, ITEMS);
        let mut rest = script.as_slice();
        while let Some((item, tail)) = take_item(rest) {
            rest = tail;
            if item.kind == b'R' {
                read_alike(item.payload, &mut read)
                    .unwrap_or_else(|text| panic!("seed {seed}, {:02x?}: {text}", item.payload));
            }
        }
    }
    println!("read: numbers {read:?}");
    assert!([0, 2, 3, 4, 7, 8].iter().all(|&number| read[number] > 100));
}

/// The same in the counter profile, of the messages that are to be read in it.
#[test]
fn messages_are_read_alike_at_a_counter() {
    let mut read = [0; 21];
    for seed in 0..SCRIPTS {
        let script = script(seed, ITEMS);
        let mut rest = script.as_slice();
        while let Some((item, tail)) = take_item(rest) {
            rest = tail;
            if item.kind == b'r' {
                let expected = pdu::counter::read(item.payload);
                let read_here = Profile::Counter.read(item.payload);
                assert_eq!(
                    read_here.map_err(Refusal::number).map(Some),
                    expected.map(|record| message(&record)),
                    "seed {seed}"
                );
                read[usize::from(expected.err().unwrap_or(0))] += 1;
            }
        }
    }
    println!("read at a counter: numbers {read:?}");
    assert!([0, 2, 3, 4, 7, 8, 20]
        .iter()
        .all(|&number| read[number] > 20));
}

/// Writing by this crate, in the second program's terms.
fn write(profile: Profile, record: &Record<'_>, out: &mut [u8]) -> Result<usize, u8> {
    let message = message(record).ok_or(Refusal::OutsideSet.number())?;
    profile.write(&message, out).map_err(Refusal::number)
}

const WRITERS: Writers = Writers {
    plain: |record, out| write(Profile::Plain, record, out),
    counter: |record, out| write(Profile::Counter, record, out),
};

/// The lines are the same, and no byte changes that must not.
#[test]
fn messages_are_written_alike() {
    let mut written = [0; 3];
    for seed in 0..SCRIPTS {
        let script = script(seed, ITEMS);
        let (mut expected, mut printed) = (Vec::new(), Vec::new());
        run(&script, &mut expected).expect("memory takes all that is written");
        run_with(WRITERS, &script, &mut printed).expect("memory takes all that is written");
        if printed != expected {
            let lines = |text: &[u8]| -> Vec<String> {
                let text = String::from_utf8_lossy(text);
                text.lines().map(String::from).collect()
            };
            for (printed, expected) in lines(&printed).iter().zip(lines(&expected)) {
                assert_eq!(*printed, expected, "seed {seed}");
            }
            panic!("seed {seed}: not as many lines");
        }
        for (count, line) in written.iter_mut().zip([b"P 0 ", b"p 0 ", b"p 21"]) {
            *count += printed.windows(4).filter(|part| part == line).count();
        }
    }
    println!("written: {written:?}");
    assert!(written.iter().all(|&count| count > 300));
}

/// Memory of the very length is enough, and one byte less is not.
#[test]
fn the_last_byte_of_room() {
    let message = Message::Handshake { build_number: 1 };
    let mut out = [0xEE; 8];
    assert_eq!(message.write(&mut out[..7]), Err(Refusal::OutputTooSmall));
    assert_eq!(out, [0xEE; 8]);
    assert_eq!(message.write(&mut out), Ok(8));
    assert_eq!(out, [5, 0, 8, 0, 1, 0, 0, 0]);
    assert_eq!(message.write(&mut []), Err(Refusal::OutputTooSmall));
}

/// A number outside its set is refused before memory that is too small.
#[test]
fn outside_its_set() {
    let message = Message::SystemCommand {
        window_id: WindowId(1),
        command: 0xF001,
    };
    assert_eq!(message.write(&mut []), Err(Refusal::OutsideSet));
    assert_eq!(message.to_vec(), Err(Refusal::OutsideSet));
}

/// Two strings that each fit, one behind the other: the first may not be empty.
#[test]
fn no_program_name() {
    let message = Message::Execute {
        flags: 0,
        exe_or_file: &[],
        working_dir: b"c\0",
        arguments: b"a\0",
    };
    assert_eq!(message.to_vec(), Err(Refusal::OutsideSet));
}
