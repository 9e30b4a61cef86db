//! Each kind's layout, both ways, and how it is printed.

use super::samples::{message, SAMPLES};
use super::{hex, run_text};
use second::pdu::{read, write, Record};

#[test]
fn every_kind_is_read_by_its_layout() {
    for sample in &SAMPLES {
        assert_eq!(read(&message(sample)), Ok(sample.0));
    }
}

#[test]
fn every_kind_is_written_by_its_layout() {
    for sample in &SAMPLES {
        let message = message(sample);
        let mut out = vec![0xEE; 600];
        assert_eq!(write(&sample.0, &mut out), Ok(message.len()));
        assert_eq!(out[..message.len()], message);
    }
}

/// Each message and `P` item with the two lines printed.
#[test]
fn every_kind_is_printed_by_name() {
    let z = "5a".repeat(520);
    let id = format!("R 0F00 1002 01020304 {z}");
    let write_id = format!("P 1002 0F00 01020304 0802 {z}");
    let lines = [
        (
            "R 0100 1800 1600 0200 0400 0600 4142 43444546 4748494A4B4C",
            "R 0 type=0001 flags=22 program=4142 directory=43444546 arguments=4748494a4b4c",
            "P 1800 0100 1600 0200 0400 0600 4142 43444546 4748494A4B4C",
        ),
        (
            "R 0200 0900 01020304 01",
            "R 0 type=0002 window=67305985 enabled=1",
            "P 0900 0200 01020304 01",
        ),
        (
            "R 0400 0A00 01020304 60F1",
            "R 0 type=0004 window=67305985 command=61792",
            "P 0A00 0400 01020304 60F1",
        ),
        (
            "R 0500 0800 11121314",
            "R 0 type=0005 build=336794129",
            "P 0800 0500 11121314",
        ),
        (
            "R 0600 1000 01020304 21222324 31323334",
            "R 0 type=0006 window=67305985 icon=606282273 message=875770417",
            "P 1000 0600 01020304 21222324 31323334",
        ),
        (
            "R 0800 1000 01020304 2122 3132 4142 5152",
            "R 0 type=0008 window=67305985 left=8737 top=12849 right=16961 bottom=21073",
            "P 1000 0800 01020304 2122 3132 4142 5152",
        ),
        (
            "R 0900 1000 01020304 0100 0B00 4142 5152",
            "R 0 type=0009 window=67305985 start=1 move_type=11 x=16961 y=21073",
            "P 1000 0900 01020304 01 0B00 4142 5152",
        ),
        (
            "R 0A00 1800 01020304 1112 2122 3132 4142 5152 6162 7172 8182",
            "R 0 type=000a window=67305985 max_width=4625 max_height=8737 max_x=12849 max_y=16961 \
             min_track_width=21073 min_track_height=25185 max_track_width=29297 max_track_height=33409",
            "P 1800 0A00 01020304 1112 2122 3132 4142 5152 6162 7172 8182",
        ),
        (
            "R 0B00 0800 11121314",
            "R 0 type=000b flags=336794129",
            "P 0800 0B00 11121314",
        ),
        (
            "R 0C00 0C00 01020304 21FF 3132",
            "R 0 type=000c window=67305985 left=-223 top=12849",
            "P 0C00 0C00 01020304 21FF 3132",
        ),
        (
            "R 0E00 0800 01020304",
            "R 0 type=000e window=67305985",
            "P 0800 0E00 01020304",
        ),
        (
            &id,
            &format!("R 0 type=000f window=67305985 string={z}"),
            &write_id,
        ),
        (
            "R 8000 1300 EEFF 0700 21222324 0000 0300 414243",
            "R 0 type=0080 flags=65518 result=7 raw=606282273 string=414243",
            "P 1300 8000 EEFF 0700 21222324 0300 414243",
        ),
        (
            "R 0300 0900 0B100000 FE",
            "R 0 type=0003 setting=0000100b value=254",
            "P 0900 0300 0B100000 FE",
        ),
        (
            "R 0300 1000 01F00000 2122 3132 4142 5152",
            "R 0 type=0003 setting=0000f001 left=8737 top=12849 right=16961 bottom=21073",
            "P 1000 0300 01F00000 2122 3132 4142 5152",
        ),
        (
            "R 0300 1500 43000000 11121314 05000000 0300 414243",
            "R 0 type=0003 setting=00000043 flags=336794129 string=414243",
            "P 1500 0300 43000000 11121314 0300 414243",
        ),
        (
            "R 1300 0C00 11121314 21222324",
            "R 0 type=0013 build=336794129 flags=606282273",
            "P 0C00 1300 11121314 21222324",
        ),
    ];
    for (read_item, printed, write_item) in lines {
        let bytes = read_item[1..].replace(' ', "").to_lowercase();
        let expected = format!("{printed}\nP 0 {bytes}\n");
        assert_eq!(run_text(&format!("{read_item}\n{write_item}")), expected);
    }
}

#[test]
fn any_nonzero_start_is_yes_and_written_as_1() {
    for (start, printed, written) in [
        ("0000", '0', "0000"),
        ("0100", '1', "0100"),
        ("0200", '1', "0100"),
        ("0001", '1', "0100"),
        ("FFFF", '1', "0100"),
    ] {
        let message = hex(&format!("0900 1000 01000000 {start} 0100 0000 0000"));
        let record = read(&message).expect("granted");
        let Record::MoveSize(r) = record else {
            panic!("not a Move/Size: {record:?}");
        };
        assert_eq!(r.is_move_size_start, printed == '1');
        let mut out = [0; 16];
        assert_eq!(write(&record, &mut out), Ok(16));
        let expected = hex(&format!("0900 1000 01000000 {written} 0100 0000 0000"));
        assert_eq!(out[..], expected);
    }
    assert_eq!(
        run_text("P 1000 0900 01000000 80 0100 0000 0000"),
        "P 0 09001000010000000100010000000000\n"
    );
}

#[test]
fn padding_is_passed_over_and_written_as_0() {
    let carried = hex("8000 1100 0000 0000 00000000 ADDE 0100 41");
    let record = read(&carried).expect("granted");
    let mut out = [0xEE; 17];
    assert_eq!(write(&record, &mut out), Ok(17));
    assert_eq!(out[..], hex("8000 1100 0000 0000 00000000 0000 0100 41"));
}

#[test]
fn strings_are_parts_of_the_message() {
    let message = hex("0100 1200 0000 0200 0000 0400 4142 43444546");
    let Ok(Record::Execute(r)) = read(&message) else {
        panic!("not an Execute");
    };
    assert_eq!(r.exe_or_file.as_ptr_range(), message[12..14].as_ptr_range());
    assert_eq!(r.working_dir.as_ptr_range(), message[14..14].as_ptr_range());
    assert_eq!(r.arguments.as_ptr_range(), message[14..18].as_ptr_range());
}

#[test]
fn a_short_application_id_is_filled_with_zeros() {
    let mut expected = hex("0F00 1002 01000000 4142");
    expected.resize(528, 0);
    let printed = run_text("P 0044 0F00 01000000 0200 4142");
    assert_eq!(hex(printed.trim_end().trim_start_matches("P 0 ")), expected);
    let Ok(Record::ApplicationIdResponse(r)) = read(&expected) else {
        panic!("not an Application ID Response");
    };
    assert_eq!(r.application_id, &expected[8..]);
}
