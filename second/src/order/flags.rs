//! The bits of FieldsPresentFlags.

/// A window order.
pub const WINDOW: u32 = 0x0100_0000;
/// A notification order.
pub const NOTIFICATION: u32 = 0x0200_0000;
/// A desktop order.
pub const DESKTOP: u32 = 0x0400_0000;
/// The three type bits.
pub const TYPES: u32 = WINDOW | NOTIFICATION | DESKTOP;

/// The record is new.
pub const NEW: u32 = 0x1000_0000;
/// The record is to go.
pub const DELETED: u32 = 0x2000_0000;
/// An icon is carried.
pub const ICON: u32 = 0x4000_0000;
/// A cached icon is named.
pub const CACHED_ICON: u32 = 0x8000_0000;

/// Window: owner.
pub const OWNER: u32 = 0x0000_0002;
/// Window: title.
pub const TITLE: u32 = 0x0000_0004;
/// Window: style and extended style.
pub const STYLE: u32 = 0x0000_0008;
/// Window: show state.
pub const SHOW: u32 = 0x0000_0010;
/// Window: window rectangles.
pub const WINDOW_RECTS: u32 = 0x0000_0100;
/// Window: visibility rectangles.
pub const VISIBILITY: u32 = 0x0000_0200;
/// Window: width and height.
pub const WINDOW_SIZE: u32 = 0x0000_0400;
/// Window: offset.
pub const WINDOW_OFFSET: u32 = 0x0000_0800;
/// Window: visible offset.
pub const VISIBLE_OFFSET: u32 = 0x0000_1000;
/// Window: the icon is the big one.
pub const BIG: u32 = 0x0000_2000;
/// Window: client offset.
pub const CLIENT_OFFSET: u32 = 0x0000_4000;
/// Window: window client delta.
pub const CLIENT_DELTA: u32 = 0x0000_8000;
/// Window: client width and height.
pub const CLIENT_SIZE: u32 = 0x0001_0000;
/// Window: RPContent.
pub const RP_CONTENT: u32 = 0x0002_0000;
/// Window: root parent.
pub const ROOT_PARENT: u32 = 0x0004_0000;

/// Window, newer servers: left and right resize margin.
pub const MARGIN_X: u32 = 0x0000_0080;
/// Window, newer servers: top and bottom resize margin.
pub const MARGIN_Y: u32 = 0x0800_0000;
/// Window, newer servers: overlay description.
pub const OVERLAY_TEXT: u32 = 0x0040_0000;
/// Window, newer servers: taskbar button.
pub const TASKBAR: u32 = 0x0080_0000;
/// Window, newer servers: stacking by the server.
pub const SERVER_Z: u32 = 0x0008_0000;
/// Window, newer servers: application bar.
pub const APP_BAR: u32 = 0x0000_0040;
/// Window, newer servers: the application bar's edge.
pub const EDGE: u32 = 0x0000_0001;
/// Window, newer servers: the icon is the overlay icon.
pub const OVERLAY: u32 = 0x0010_0000;
/// Window, newer servers: the overlay icon is none from now on.
pub const OVERLAY_NONE: u32 = 0x0020_0000;
/// The bits that only newer servers set.
pub const NEWER: u32 = MARGIN_X
    | MARGIN_Y
    | OVERLAY_TEXT
    | TASKBAR
    | SERVER_Z
    | APP_BAR
    | EDGE
    | OVERLAY
    | OVERLAY_NONE;

/// Notification: tip.
pub const TIP: u32 = 0x0000_0001;
/// Notification: balloon.
pub const BALLOON: u32 = 0x0000_0002;
/// Notification: state.
pub const STATE: u32 = 0x0000_0004;
/// Notification: version.
pub const VERSION: u32 = 0x0000_0008;

/// Desktop: not monitored.
pub const NONE: u32 = 0x0000_0001;
/// Desktop: hooked.
pub const HOOKED: u32 = 0x0000_0002;
/// Desktop: syncing ends.
pub const SYNC_ENDS: u32 = 0x0000_0004;
/// Desktop: syncing starts.
pub const SYNC_STARTS: u32 = 0x0000_0008;
/// Desktop: stacking list.
pub const STACK: u32 = 0x0000_0010;
/// Desktop: active window id.
pub const ACTIVE: u32 = 0x0000_0020;

/// The closed list of a kind's bits.
pub const fn closed_list(kind: u32) -> u32 {
    match kind {
        WINDOW => 0xF9FF_FFDF,
        NOTIFICATION => 0xF200_000F,
        _ => 0x0400_003F,
    }
}

/// Whether the flags of an order of this kind clash.
pub fn clash(kind: u32, flags: u32) -> bool {
    let any = |bits: u32| flags & bits != 0;
    let besides = |bits: u32| flags & !bits != 0;
    if kind == DESKTOP {
        return any(NONE) && besides(DESKTOP | NONE) || any(SYNC_STARTS) && any(SYNC_ENDS);
    }
    let both = any(ICON) && any(CACHED_ICON);
    if both || any(DELETED) && besides(kind | DELETED) {
        return true;
    }
    if kind == NOTIFICATION {
        return false;
    }
    if any(ICON | CACHED_ICON) {
        let both = any(BIG) && any(OVERLAY);
        both || besides(WINDOW | NEW | BIG | OVERLAY | ICON | CACHED_ICON)
    } else {
        any(BIG | OVERLAY)
    }
}
