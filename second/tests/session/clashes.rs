//! Number 6: each clash, and what is none.

use super::{judged, order, IDS};

/// The number of an order of these flags, with ids and zeros behind them. A
/// clash shows before the fields are looked at; without one 0, 7 or 8 may come.
fn clashes(flags: u32) -> bool {
    let number = judged(&order(flags, IDS));
    assert!(matches!(number, 0 | 6 | 7 | 8), "{flags:08X} {number}");
    number == 6
}

fn bits(mask: u32) -> impl Iterator<Item = u32> {
    (0..32)
        .map(|shift| 1 << shift)
        .filter(move |bit| mask & bit != 0)
}

const WINDOW_FIELDS: u32 = 0x08EF_DFDF;

#[test]
fn deleted_with_anything() {
    assert!(!clashes(0x2100_0000));
    assert!(!clashes(0x2200_0000));
    for bit in bits(0xD8FF_FFDF) {
        assert!(clashes(0x2100_0000 | bit), "{bit:08X}");
    }
    for bit in bits(0xD000_000F) {
        assert!(clashes(0x2200_0000 | bit), "{bit:08X}");
    }
}

#[test]
fn icon_with_cached_icon() {
    for rest in [0, 0x1000_0000] {
        assert!(clashes(0xC100_0000 | rest));
        assert!(clashes(0xC100_2000 | rest));
        assert!(clashes(0xC200_0000 | rest));
        assert!(clashes(0xC200_000F | rest));
    }
}

#[test]
fn window_icons_stand_alone() {
    for icon in [0x4100_0000, 0x8100_0000] {
        for beside in [0, 0x1000_0000, 0x2000, 0x1000_2000, 0x10_0000, 0x1010_0000] {
            assert!(!clashes(icon | beside));
            for bit in bits(WINDOW_FIELDS) {
                assert!(clashes(icon | beside | bit), "{bit:08X}");
            }
        }
    }
}

#[test]
fn notification_icons_go_with_fields() {
    for icon in [0x4200_0000, 0x8200_0000] {
        for fields in 0..16 {
            assert!(!clashes(icon | fields));
            assert!(!clashes(icon | fields | 0x1000_0000));
        }
    }
}

#[test]
fn big_or_overlay_without_an_icon() {
    for which in [0x2000, 0x10_0000, 0x10_2000] {
        assert!(clashes(0x0100_0000 | which));
        assert!(clashes(0x1100_0000 | which));
        for bit in bits(WINDOW_FIELDS) {
            assert!(clashes(0x0100_0000 | which | bit), "{bit:08X}");
        }
    }
}

#[test]
fn big_with_overlay() {
    for icon in [0x4100_0000, 0x8100_0000, 0x5100_0000, 0x9100_0000] {
        assert!(clashes(icon | 0x10_2000));
    }
}

/// All 64 sets of desktop flags.
#[test]
fn desktop_flags() {
    for flags in 0..64_u32 {
        let none = flags & 1 != 0 && flags != 1;
        let both = flags & 12 == 12;
        assert_eq!(clashes(0x0400_0000 | flags), none || both, "{flags:02X}");
    }
}

/// All sets of window fields without state bits, one by one and together.
#[test]
fn fields_never_clash() {
    for bit in bits(WINDOW_FIELDS) {
        assert!(!clashes(0x0100_0000 | bit));
        assert!(!clashes(0x1100_0000 | bit));
    }
    assert!(!clashes(0x0100_0000 | WINDOW_FIELDS));
    assert!(!clashes(0x1100_0000 | WINDOW_FIELDS));
    assert!(!clashes(0x0200_000F));
    assert!(!clashes(0x1200_000F));
}
