//! The facts about stores that generated scripts of state calls have to meet.

/// The numbers of places at which something is asked for.
const SIZES: [usize; 4] = [12, 13, 63, 64];
/// The kinds of holders.
pub const KINDS: [&str; 5] = ["cell", "small", "big", "notification", "overlay"];
/// The calls on the state.
const CALLS: &str = "EDUMBWNCSIHO";

/// Facts of their own.
const SINGLE: [&str; 66] = [
    "E lent=11 1",
    "E lent=0 1",
    "E lent=70 0",
    "E lent=75 0",
    "E fixes fewer",
    "E fixes more",
    "E cut: a broken place",
    "E cut: a part of no place between others",
    "E cut: a part of one byte less than a place",
    "E cut: a part of 65536 bytes",
    "E cut: to the byte",
    "L fewer, then granted again",
    "L more places than fixed, and a call granted",
    "T store, and a call granted",
    "T store, and a call refused",
    "T store, and E fixes fewer",
    "T store, and E refused",
    "T store, lent empty",
    "D 17 where the room is passed too",
    "D 17 beside the window's other icon",
    "D 17 for an empty cell",
    "D 17 for a filled cell",
    "D 9 with an icon and a full store",
    "D 11 with a full store",
    "D sent once 17",
    "D sent once, the last place taken",
    "D sent once, own place in a full store",
    "D sent once over what a cell has",
    "D sent once over one sent once",
    "D sent once, to a new notification",
    "B takes back one sent once",
    "D full store, own place by the cell",
    "D full store, own place by the pointer",
    "D full store, own place by both together",
    "D cached icon with a full store",
    "D cached icon of the cell that it shares",
    "D icon over the cell that it shares",
    "D desktop none with kept pictures",
    "17 undone by delete window",
    "17 undone by delete notification",
    "17 undone by desktop none",
    "17 undone by step back",
    "17 undone by cached icon",
    "17 undone by overlay none",
    "W small kept, its cell has another",
    "W big kept, its cell has another",
    "W overlay kept, its cell has another",
    "W small and big at one place",
    "W small and overlay at one place",
    "W big and overlay at one place",
    "D overlay none that alone points at a place",
    "D overlay none that shares a place",
    "D overlay none where it is none",
    "D overlay none of a new window",
    "B restores an overlay that was none",
    "W picture of 4224 bytes",
    "N picture kept, its cell has another",
    "N picture of 4224 bytes",
    "H shared by 6 or more",
    "H equal pictures apart",
    "B restores pictures",
    "B restores sharing",
    "Z 12 places",
    "Z 64 places",
    "Z again, nothing between",
    "Z again, places past those fixed",
];

/// All expected facts.
pub fn facts() -> Vec<String> {
    let mut facts: Vec<String> = SINGLE.map(String::from).to_vec();
    for size in SIZES {
        facts.push(format!("E places={size} 0"));
        facts.push(format!("D places={size} 17"));
        facts.push(format!("D places={size}, the last one taken"));
    }
    facts.extend(CALLS.chars().map(|kind| format!("{kind} lent too few 1")));
    for sort in [
        "small icon",
        "big icon",
        "overlay icon",
        "new notification with icon",
        "update notification with icon",
    ] {
        facts.push(format!("D {sort} 17"));
    }
    for one in KINDS {
        for other in KINDS {
            facts.push(format!("H {one} {other} shared=0"));
            facts.push(format!("H {one} {other} shared=1"));
        }
        facts.push(format!("H {one} with itself shared=1"));
        facts.push(format!("H {one} of nothing 9"));
    }
    for kind in ["cell outside", "window absent", "notification absent"] {
        facts.push(format!("H {kind} 9"));
    }
    facts
}
