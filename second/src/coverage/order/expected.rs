//! The facts that the deliveries of generated scripts have to meet on any table.

use crate::order::flags::{self, closed_list};

/// The sorts of orders with the numbers that each can meet on a table.
const SORTS: [(&str, &[u8]); 18] = [
    ("new window", &[0, 7, 8, 9, 10]),
    ("update window", &[0, 7, 8, 9]),
    ("delete window", &[0, 7, 9]),
    ("small icon", &[0, 7, 8, 9]),
    ("big icon", &[0, 7, 8, 9]),
    ("overlay icon", &[0, 7, 8, 9]),
    ("small cached icon", &[0, 7, 8, 9, 11]),
    ("big cached icon", &[0, 7, 8, 9, 11]),
    ("overlay cached icon", &[0, 7, 8, 9, 11]),
    ("new notification", &[0, 7, 8, 9, 10]),
    ("new notification with icon", &[0, 8, 9, 10]),
    ("new notification with cached icon", &[0, 9, 10, 11]),
    ("update notification", &[0, 7, 8, 9]),
    ("update notification with icon", &[0, 8, 9]),
    ("update notification with cached icon", &[0, 8, 9, 11]),
    ("delete notification", &[0, 7, 9]),
    ("desktop none", &[0, 7]),
    ("desktop", &[0, 7, 8]),
];

/// Numbers at limits: allowed ones, then those that are not.
const LIMITS: [(&str, &[usize], &[usize]); 22] = [
    ("show", &[0, 2, 3, 5], &[1, 4, 6, 255]),
    ("rp", &[0, 1], &[2, 255]),
    ("title", &[0, 2, 518, 520], &[1, 519, 521, 522]),
    ("rects", &[0, 1, 15, 16], &[17, 18]),
    ("vis_rects", &[0, 1, 15, 16], &[17, 18]),
    ("overlay_text", &[0, 2, 518, 520], &[1, 519, 521, 522]),
    ("taskbar", &[0, 1], &[2, 255]),
    ("server_z", &[0, 1], &[2, 255]),
    ("app_bar", &[0, 1], &[2, 255]),
    ("edge", &[0, 1, 2, 3], &[4, 255]),
    ("tip", &[0, 2, 254, 256], &[1, 255, 257, 258]),
    ("text", &[0, 2, 508, 510], &[1, 509, 511, 512]),
    ("balloon_title", &[0, 2, 124, 126], &[1, 125, 127, 128]),
    ("stack", &[0, 1, 63, 64], &[65, 66, 255]),
    ("entry", &[0, 1, 2, 3, 4, 5], &[6, 255, 256, 65_535]),
    ("cache", &[0, 1], &[2, 254]),
    (
        "bpp",
        &[1, 4, 8, 16, 24, 32],
        &[0, 2, 3, 5, 15, 17, 25, 31, 33, 255],
    ),
    ("width", &[1, 2, 31, 32], &[0, 33, 255, 256, 65_535]),
    ("height", &[1, 2, 31, 32], &[0, 33, 255, 256, 65_535]),
    ("picture", &[0, 1, 4_224], &[4_225]),
    ("cached_entry", &[0, 1, 2, 3, 4, 5], &[6, 255, 256, 65_535]),
    ("cached_cache", &[0, 1], &[2, 254, 255]),
];

/// Facts of their own.
const SINGLE: [&str; 23] = [
    "D first byte 4",
    "D types=0 4",
    "D types=3 4",
    "D types=5 4",
    "D types=6 4",
    "D types=7 4",
    "D declared+1 3",
    "D declared-1 3",
    "D cache=255 0",
    "D entry=6 0",
    "D entry=65535 0",
    "D windows=32 0",
    "D windows=33 10",
    "D icons=16 0",
    "D icons=17 10",
    "D clash window icon with cached icon",
    "D clash notification icon with cached icon",
    "D clash window big without an icon",
    "D clash window overlay without an icon",
    "D clash window big and overlay without an icon",
    "D clash window icon with big and overlay",
    "D clash window cached icon with big and overlay",
    "D clash desktop start with end",
];

/// Calls with the numbers that each has to meet.
pub fn calls(calls: &[(char, &[u8])]) -> Vec<String> {
    let of_call = |(call, numbers): &(char, &[u8])| {
        let call = *call;
        let facts = numbers.iter().map(move |number| format!("{call} {number}"));
        facts.collect::<Vec<_>>()
    };
    calls.iter().flat_map(of_call).collect()
}

/// All facts about orders.
pub fn facts() -> Vec<String> {
    let mut facts: Vec<String> = SINGLE.map(String::from).to_vec();
    facts.extend((0..7).map(|size| format!("D size={size} 2")));
    for (sort, numbers) in SORTS {
        facts.extend(numbers.iter().map(|number| format!("D {sort} {number}")));
    }
    for (name, allowed, others) in LIMITS {
        facts.extend(allowed.iter().map(|value| format!("D {name}={value} 0")));
        facts.extend(others.iter().map(|value| format!("D {name}={value} 8")));
    }
    facts.extend(flag_facts());
    for kind in ["window", "notification", "desktop"] {
        facts.push(format!("D {kind} one byte short 7"));
        facts.push(format!("D {kind} one byte over 7"));
    }
    facts
}

/// Each flag granted, outside the closed list, and in each clash.
fn flag_facts() -> Vec<String> {
    let mut facts = Vec::new();
    let kinds = [
        ("window", flags::WINDOW),
        ("notification", flags::NOTIFICATION),
        ("desktop", flags::DESKTOP),
    ];
    for (name, kind) in kinds {
        for bit in bits(!flags::TYPES) {
            if closed_list(kind) & bit == 0 {
                facts.push(format!("D {name} outside={bit:08X} 5"));
                continue;
            }
            facts.push(format!("D {name} flag={bit:08X} 0"));
            if kind != flags::DESKTOP && bit != flags::DELETED {
                facts.push(format!("D clash {name} deleted with {bit:08X}"));
            }
        }
    }
    // Every combination of the newer servers' flags, without an icon.
    for newer in subsets(flags::NEWER) {
        let number = if newer & flags::OVERLAY != 0 { 6 } else { 0 };
        facts.push(format!("D newer={newer:08X} {number}"));
    }
    for bit in bits(closed_list(flags::WINDOW) & !OF_PICTURES) {
        facts.push(format!("D new window flag={bit:08X} 0"));
        facts.push(format!("D clash window icon with {bit:08X}"));
        facts.push(format!("D clash window cached icon with {bit:08X}"));
    }
    for bit in bits(0x3E) {
        facts.push(format!("D clash desktop none with {bit:08X}"));
    }
    facts
}

/// The bits of a window that do not stand for fields, or have no place beside them.
const OF_PICTURES: u32 = 0xF100_0000 | flags::BIG | flags::OVERLAY;

/// The subsets of a mask, all of them.
pub fn subsets(mask: u32) -> impl Iterator<Item = u32> {
    let mut next = Some(0);
    std::iter::from_fn(move || {
        let subset = next?;
        next = Some((subset | !mask).wrapping_add(1) & mask).filter(|&after| after != 0);
        Some(subset)
    })
}

/// The bits of a mask, one by one.
pub fn bits(mask: u32) -> impl Iterator<Item = u32> {
    (0..32)
        .map(|shift| 1 << shift)
        .filter(move |bit| mask & bit != 0)
}
