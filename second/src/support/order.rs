//! An order in words: what it is about, and the fields that it carries.

use std::fmt::Display;

use super::words::quoted;
use crate::order::rules::{self, ID_SIZE, NO_CACHE, RECT_SIZE};
use crate::order::{
    decode, DesktopFields, DesktopOrder, Icon, NotificationChange, NotificationFields, Order,
    Picture, WindowChange, WindowFields, WindowIcon,
};

/// What the bytes of a delivery say, also where they are refused.
pub fn told(order: &[u8]) -> String {
    match decode(order) {
        Ok(Order::Window(order)) => {
            let about = format!("window {}", order.window_id.0);
            match order.change {
                WindowChange::New(fields) => joined(format!("{about} new"), &window(&fields)),
                WindowChange::Update(fields) => joined(about, &window(&fields)),
                WindowChange::Delete => format!("{about} deleted"),
                WindowChange::Picture { which, picture: of } => {
                    let which = match which {
                        WindowIcon::Small => "small",
                        WindowIcon::Big => "big",
                        WindowIcon::Overlay => "overlay",
                    };
                    format!("{about} {which} {}", picture(&of))
                }
            }
        }
        Ok(Order::Notification(order)) => {
            let (window, icon) = (order.window_id.0, order.notify_icon_id.0);
            let about = format!("notification icon {window}/{icon}");
            match order.change {
                NotificationChange::New(fields) => {
                    joined(format!("{about} new"), &notification(&fields))
                }
                NotificationChange::Update(fields) => joined(about, &notification(&fields)),
                NotificationChange::Delete => format!("{about} deleted"),
            }
        }
        Ok(Order::Desktop(DesktopOrder::None)) => "desktop none".into(),
        Ok(Order::Desktop(DesktopOrder::Monitored(fields))) => {
            joined("desktop".into(), &desktop(&fields))
        }
        Err(_) => header(order),
    }
}

fn joined(about: String, fields: &[String]) -> String {
    let mut parts = vec![about];
    parts.extend_from_slice(fields);
    parts.join(" ")
}

/// Of bytes whose fields cannot be told: what their header says.
fn header(order: &[u8]) -> String {
    let Some((&[first, low, high, ref flags @ ..], _)) = order.split_first_chunk::<7>() else {
        return format!("{} bytes, fewer than a header has", order.len());
    };
    let (size, flags) = (u16::from_le_bytes([low, high]), u32::from_le_bytes(*flags));
    format!("first byte {first:02X}, OrderSize {size}, FieldsPresentFlags {flags:08X}")
}

/// Adds ` name=value` for each field that is there.
macro_rules! fields {
    ($($name:literal $value:expr),* $(,)?) => {{
        let mut all: Vec<String> = Vec::new();
        $(if let Some(value) = $value { all.push(format!("{}={value}", $name)); })*
        all
    }};
}

fn pair<T: Display>((x, y): (T, T)) -> String {
    format!("{x},{y}")
}

fn rects(bytes: &[u8]) -> String {
    format!("{} rectangles", bytes.len() / 8)
}

fn window(f: &WindowFields<'_>) -> Vec<String> {
    fields!(
        "owner" f.owner.map(|id| id.0),
        "style" f.style.map(|(style, extended)| format!("{style:08X},{extended:08X}")),
        "show" f.show_state,
        "title" f.title.map(quoted),
        "client" f.client_offset.map(pair),
        "client_size" f.client_size.map(pair),
        "margin_x" f.margin_x.map(pair),
        "margin_y" f.margin_y.map(pair),
        "rp" f.rp_content,
        "root" f.root_parent.map(|id| id.0),
        "offset" f.window_offset.map(pair),
        "delta" f.client_delta.map(pair),
        "size" f.window_size.map(pair),
        "rects" f.window_rects.map(rects),
        "visible" f.visible_offset.map(pair),
        "vis_rects" f.visibility_rects.map(rects),
        "overlay_text" f.overlay_text.map(quoted),
        "taskbar" f.taskbar,
        "server_z" f.server_z,
        "app_bar" f.app_bar,
        "edge" f.edge,
        "overlay" f.overlay_none.then_some("none"),
    )
}

fn notification(f: &NotificationFields<'_>) -> Vec<String> {
    fields!(
        "version" f.version,
        "tip" f.tip.map(quoted),
        "timeout" f.balloon.map(|balloon| balloon.timeout),
        "flags" f.balloon.map(|balloon| balloon.flags),
        "text" f.balloon.map(|balloon| quoted(balloon.text)),
        "title" f.balloon.map(|balloon| quoted(balloon.title)),
        "state" f.state,
        "picture" f.picture.as_ref().map(picture),
    )
}

fn desktop(f: &DesktopFields<'_>) -> Vec<String> {
    let ids = |bytes: &[u8]| {
        let ids = bytes
            .chunks_exact(4)
            .map(|id| u32::from_le_bytes([id[0], id[1], id[2], id[3]]).to_string());
        ids.collect::<Vec<_>>().join(",")
    };
    fields!(
        "hooked" f.hooked.then_some(1),
        "syncing" f.syncing.map(u8::from),
        "active" f.active.map(|id| id.0),
        "stack" f.stack.map(ids),
    )
}

fn picture(picture: &Picture<'_>) -> String {
    match picture {
        Picture::Icon(Icon {
            place,
            bits_per_pixel,
            width,
            height,
            ..
        }) => format!(
            "icon into cell {}/{}, {width} by {height}, {bits_per_pixel} bits",
            place.cache, place.entry
        ),
        Picture::Cached(place) => format!("icon of cell {}/{}", place.cache, place.entry),
    }
}

/// The fields of an order whose numbers are outside their sets, each with the set.
pub fn outside(order: &[u8]) -> Vec<String> {
    let mut found = Vec::new();
    match decode(order) {
        Ok(Order::Window(order)) => match order.change {
            WindowChange::New(fields) | WindowChange::Update(fields) => {
                outside_window(&fields, &mut found);
            }
            WindowChange::Delete => {}
            WindowChange::Picture { picture, .. } => outside_picture(&picture, &mut found),
        },
        Ok(Order::Notification(order)) => match order.change {
            NotificationChange::New(fields) | NotificationChange::Update(fields) => {
                outside_notification(&fields, &mut found);
            }
            NotificationChange::Delete => {}
        },
        Ok(Order::Desktop(DesktopOrder::Monitored(fields))) => {
            let count = fields.stack.map_or(0, |ids| ids.len() / ID_SIZE);
            if !rules::stack(count) {
                found.push(format!("stack of {count} ids, over {}", rules::STACK_LIMIT));
            }
        }
        Ok(Order::Desktop(DesktopOrder::None)) | Err(_) => {}
    }
    found
}

fn outside_string(name: &str, bytes: Option<&[u8]>, limit: usize, found: &mut Vec<String>) {
    let length = bytes.map_or(0, <[u8]>::len);
    if !rules::string(length, limit) {
        found.push(format!(
            "{name} of {length} bytes, not an even number up to {limit}"
        ));
    }
}

fn outside_yes_or_no(name: &str, number: Option<u8>, found: &mut Vec<String>) {
    if let Some(number) = number.filter(|&number| !rules::yes_or_no(number)) {
        found.push(format!("{name}={number}, not 0 or 1"));
    }
}

fn outside_window(f: &WindowFields<'_>, found: &mut Vec<String>) {
    if let Some(show) = f.show_state.filter(|&show| !rules::show_state(show)) {
        found.push(format!("show={show}, not 0, 2, 3 or 5"));
    }
    outside_string("title", f.title, rules::TITLE_LIMIT, found);
    outside_yes_or_no("rp", f.rp_content, found);
    for (name, list) in [("rects", f.window_rects), ("vis_rects", f.visibility_rects)] {
        let count = list.map_or(0, |list| list.len() / RECT_SIZE);
        if !rules::rects(count) {
            found.push(format!("{name} of {count}, over {}", rules::RECTS_LIMIT));
        }
    }
    let limit = rules::OVERLAY_TEXT_LIMIT;
    outside_string("overlay_text", f.overlay_text, limit, found);
    outside_yes_or_no("taskbar", f.taskbar, found);
    outside_yes_or_no("server_z", f.server_z, found);
    outside_yes_or_no("app_bar", f.app_bar, found);
    if let Some(edge) = f.edge.filter(|&edge| !rules::edge(edge)) {
        found.push(format!("edge={edge}, not 0 to 3"));
    }
}

fn outside_notification(f: &NotificationFields<'_>, found: &mut Vec<String>) {
    outside_string("tip", f.tip, rules::TIP_LIMIT, found);
    let balloon = f.balloon.as_ref();
    let (text, title) = (balloon.map(|b| b.text), balloon.map(|b| b.title));
    outside_string("text", text, rules::BALLOON_TEXT_LIMIT, found);
    outside_string("title", title, rules::BALLOON_TITLE_LIMIT, found);
    if let Some(picture) = &f.picture {
        outside_picture(picture, found);
    }
}

fn outside_picture(picture: &Picture<'_>, found: &mut Vec<String>) {
    let (place, icon) = match picture {
        Picture::Icon(icon) => (icon.place, Some(icon)),
        Picture::Cached(place) => (*place, None),
    };
    if !(rules::cell(place) || icon.is_some() && place.cache == NO_CACHE) {
        found.push(format!(
            "cell {}/{}, not 0/0 to 1/5",
            place.cache, place.entry
        ));
    }
    let Some(icon) = icon else { return };
    if !rules::bits_per_pixel(icon.bits_per_pixel) {
        let bits = icon.bits_per_pixel;
        found.push(format!("{bits} bits per pixel, not 1, 4, 8, 16, 24 or 32"));
    }
    for (name, side) in [("width", icon.width), ("height", icon.height)] {
        if !rules::side(side) {
            found.push(format!("{name} {side}, not 1 to 32"));
        }
    }
    if !rules::picture_size(icon.size()) {
        let (size, limit) = (icon.size(), rules::PICTURE_LIMIT);
        found.push(format!("picture of {size} bytes, over {limit}"));
    }
}
