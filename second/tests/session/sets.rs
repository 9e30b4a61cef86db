//! Number 8: the numbers that each field may hold.

use super::{judged, order, ID, IDS};

/// Checks that exactly the allowed ones of these numbers are granted.
fn check<T: Copy + std::fmt::Debug>(
    numbers: impl IntoIterator<Item = T>,
    allowed: impl Fn(T) -> bool,
    flags: u32,
    rest: impl Fn(T) -> String,
) {
    for number in numbers {
        let expected = if allowed(number) { 0 } else { 8 };
        assert_eq!(judged(&order(flags, &rest(number))), expected, "{number:?}");
    }
}

/// The hex of a 2-byte number.
fn two(number: u16) -> String {
    format!("{:04X}", number.swap_bytes())
}

fn string(length: u16) -> String {
    two(length) + &"41".repeat(usize::from(length))
}

fn even_to(limit: u16) -> impl Fn(u16) -> bool {
    move |length| length <= limit && length % 2 == 0
}

#[test]
fn show_state_and_rp_content() {
    let shown = |n| matches!(n, 0 | 2 | 3 | 5);
    check(0..=255_u8, shown, 0x0100_0010, |n| format!("{ID} {n:02X}"));
    check(
        0..=255_u8,
        |n| n <= 1,
        0x1102_0000,
        |n| format!("{ID} {n:02X}"),
    );
}

/// The newer servers' bytes: the edge goes to 3, the others to 1.
#[test]
fn newer_bytes() {
    for (flags, most) in [
        (0x0180_0000, 1),
        (0x1108_0000, 1),
        (0x0100_0040, 1),
        (0x1100_0001, 3),
    ] {
        check(
            0..=255_u8,
            |n| n <= most,
            flags,
            |n| format!("{ID} {n:02X}"),
        );
    }
}

#[test]
fn strings() {
    check(0..=540, even_to(520), 0x0100_0004, |n| {
        format!("{ID} {}", string(n))
    });
    check(0..=540, even_to(520), 0x1140_0000, |n| {
        format!("{ID} {}", string(n))
    });
    check(0..=270, even_to(256), 0x0200_0001, |n| {
        format!("{IDS} {}", string(n))
    });
    let numbers = "01000000 02000000";
    check(0..=530, even_to(510), 0x0200_0002, |n| {
        format!("{IDS} {numbers} {} 0000", string(n))
    });
    check(0..=140, even_to(126), 0x0200_0002, |n| {
        format!("{IDS} {numbers} 0000 {}", string(n))
    });
}

#[test]
fn lists() {
    for flags in [0x0100_0100, 0x0100_0200] {
        check(
            0..=20_u16,
            |n| n <= 16,
            flags,
            |n| format!("{ID} {} {}", two(n), "00".repeat(8 * usize::from(n))),
        );
    }
    check(
        0..=255_u8,
        |n| n <= 64,
        0x0400_0010,
        |n| format!("{n:02X} {}", "00".repeat(4 * usize::from(n))),
    );
}

#[test]
fn icon_sides() {
    let side = |n| (1..=32).contains(&n);
    let numbers = || (0..=40).chain([0xFF, 0x100, 0x120, 0x2000, 0xFFFF]);
    check(numbers(), side, 0x4100_0000, |n: u16| {
        format!("{ID} 0000 00 20 {} 0100 0000 0000", two(n))
    });
    check(numbers(), side, 0x4200_0000, |n: u16| {
        format!("{IDS} 0000 00 20 0100 {} 0000 0000", two(n))
    });
}

/// Mask, color table and color: alone and in shares.
#[test]
fn picture_bytes() {
    for (flags, ids) in [(0x4100_0000, ID), (0x4200_0000, IDS)] {
        for [mask, table, color] in [
            [4_224, 0, 0],
            [0, 4_224, 0],
            [0, 0, 4_224],
            [1, 1_024, 3_199],
            [0, 0, 4_223],
        ] {
            for more in 0..3_u16 {
                let size = mask + table + color + more;
                let expected = if size <= 4_224 { 0 } else { 8 };
                let bytes = "55".repeat(usize::from(size));
                let lengths = two(table) + &two(mask + more) + &two(color);
                let rest = format!("{ids} 0500 01 08 2000 2000 {lengths} {bytes}");
                assert_eq!(judged(&order(flags, &rest)), expected, "{size}");
            }
        }
        let odd = format!(
            "{ids} 0500 01 04 2000 2000 0100 0300 0500 {}",
            "55".repeat(9)
        );
        assert_eq!(judged(&order(flags, &odd)), 0);
    }
}

/// In an icon the cache id FF passes, whatever its entry.
#[test]
fn cells() {
    for cache in 0..=255_u8 {
        for entry in [0, 1, 4, 5, 6, 7, 0xFF, 0x100, 0xFFFF] {
            let cell = cache <= 1 && entry <= 5;
            let place = format!("{} {cache:02X}", two(entry));
            let number = |passes| if passes { 0 } else { 8 };
            let icon = format!("{ID} {place} 20 0100 0100 0000 0000");
            assert_eq!(
                judged(&order(0x4100_0000, &icon)),
                number(cell || cache == 0xFF)
            );
            let cached = format!("{ID} {place}");
            assert_eq!(judged(&order(0x8100_0000, &cached)), number(cell));
            let cached = format!("{IDS} {place}");
            assert_eq!(judged(&order(0x8200_0000, &cached)), number(cell));
        }
    }
    // The other fields beside FF are still judged.
    for icon in ["20 2100 0100", "20 0100 0000", "21 0100 0100"] {
        let rest = format!("{ID} 0000 FF {icon} 0000 0000");
        assert_eq!(judged(&order(0x4100_0000, &rest)), 8);
    }
}

/// Fields without a set take any number.
#[test]
fn any_number() {
    for byte in ["00", "7F", "80", "FF"] {
        let four = byte.repeat(4);
        let eight = byte.repeat(8);
        for flags in [0x0100_0002, 0x0104_0000] {
            assert_eq!(judged(&order(flags, &format!("{ID} {four}"))), 0);
        }
        for flags in [
            0x8, 0x4000, 0x1_0000, 0x80, 0x800_0000, 0x800, 0x8000, 0x400, 0x1000,
        ] {
            assert_eq!(
                judged(&order(0x0100_0000 | flags, &format!("{ID} {eight}"))),
                0
            );
        }
        for flags in [0x0200_0008, 0x0200_0004] {
            assert_eq!(judged(&order(flags, &format!("{IDS} {four}"))), 0);
        }
        assert_eq!(
            judged(&order(0x0200_0002, &format!("{IDS} {eight} 0000 0000"))),
            0
        );
        assert_eq!(
            judged(&order(0x0100_0100, &format!("{ID} 0100 {eight}"))),
            0
        );
        assert_eq!(judged(&order(0x0400_0030, &format!("{four} 01 {four}"))), 0);
        assert_eq!(judged(&order(0x2100_0000, &four)), 0);
    }
}
