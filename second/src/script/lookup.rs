//! How what a lookup hands out is printed.

use std::fmt::Display;

use super::print::{push_hex, Fields};
use super::session::Call;
use crate::figure;
use crate::ids::{NotifyIconId, WindowId};
use crate::table::{Cell, Desktop, Holder, NotificationIcon, Rect, Table, Window};

/// Adds the fields of what a lookup finds in a table; of another call nothing.
pub fn push_found(line: &mut Vec<u8>, table: &Table, call: &Call<'_>) {
    match *call {
        Call::Window(id) => {
            if let Some(window) = table.window(id) {
                push_window(line, id, window);
                push_picture(line, "small", table.shown(Holder::Small(id)));
                push_picture(line, "big", table.shown(Holder::Big(id)));
                push_picture(line, "overlay", table.shown(Holder::Overlay(id)));
                Fields { line }.number("pixels", figure::of_window(window));
            }
        }
        Call::Icon(window, icon) => {
            if let Some(found) = table.icon(window, icon) {
                push_icon(line, (window, icon), found);
                let picture = table.shown(Holder::Notification(window, icon));
                push_picture(line, "picture", picture);
            }
        }
        Call::Cell(place) => {
            if let Some(cell) = table.cell(place) {
                push_cell(line, cell);
            }
        }
        Call::Desktop => {
            push_desktop(line, table.desktop());
            let figure = figure::of(table);
            Fields { line }
                .text("shown", &figure.windows.to_string())
                .text("pixels", &figure.pixels.to_string());
        }
        Call::Lists => push_lists(line, table),
        Call::Shared(one, other) => {
            if let Some(shared) = table.store().shared(one, other) {
                Fields { line }.number("shared", shared);
            }
        }
        _ => {}
    }
}

/// Adds the ids of all windows and of all notification icons.
fn push_lists(line: &mut Vec<u8>, table: &Table) {
    let windows: Vec<String> = table.window_ids().map(|id| id.0.to_string()).collect();
    let icons: Vec<String> = table
        .icon_ids()
        .map(|(window, icon)| format!("{}/{}", window.0, icon.0))
        .collect();
    Fields { line }
        .text("windows", &windows.join(","))
        .text("icons", &icons.join(","));
}

/// Adds the fields of a window, its pictures and its pixels aside.
fn push_window(line: &mut Vec<u8>, id: WindowId, window: &Window) {
    Fields { line }
        .number("id", id.0)
        .number("owner", window.owner.0)
        .number("style", window.style)
        .number("ext", window.extended_style)
        .number("show", window.show_state)
        .string("title", &window.title)
        .text("client", &pair(window.client_offset))
        .text("client_size", &pair(window.client_size))
        .text("margin_x", &pair(window.margin_x))
        .text("margin_y", &pair(window.margin_y))
        .number("rp", window.rp_content)
        .number("root", window.root_parent.0)
        .text("offset", &pair(window.window_offset))
        .text("delta", &pair(window.client_delta))
        .text("size", &pair(window.window_size))
        .text("rects", &rects(&window.window_rects))
        .text("visible", &pair(window.visible_offset))
        .text("vis_rects", &rects(&window.visibility_rects))
        .string("overlay_text", &window.overlay_text)
        .number("taskbar", window.taskbar)
        .number("server_z", window.server_z)
        .number("app_bar", window.app_bar)
        .number("edge", window.edge);
}

/// Adds the fields of a notification icon, its picture aside.
fn push_icon(line: &mut Vec<u8>, ids: (WindowId, NotifyIconId), icon: &NotificationIcon) {
    Fields { line }
        .number("window", ids.0 .0)
        .number("icon", ids.1 .0)
        .number("version", icon.version)
        .string("tip", &icon.tip)
        .number("timeout", icon.balloon_timeout)
        .number("flags", icon.balloon_flags)
        .string("text", &icon.balloon_text)
        .string("title", &icon.balloon_title)
        .number("state", icon.state);
}

/// Adds the fields of a cell.
fn push_cell(line: &mut Vec<u8>, cell: &Cell) {
    Fields { line }
        .number("bpp", cell.bits_per_pixel)
        .number("width", cell.width)
        .number("height", cell.height)
        .string("mask", &cell.mask)
        .string("table", &cell.color_table)
        .string("color", &cell.color);
}

/// Adds the fields of the desktop state, the figure aside.
fn push_desktop(line: &mut Vec<u8>, desktop: &Desktop) {
    let stack: Vec<String> = desktop.stack.iter().map(|id| id.0.to_string()).collect();
    Fields { line }
        .number("active", desktop.active.0)
        .number("hooked", desktop.hooked)
        .number("syncing", desktop.syncing)
        .text("stack", &stack.join(","));
}

fn pair<T: Display>((x, y): (T, T)) -> String {
    format!("{x},{y}")
}

fn rects(list: &[Rect]) -> String {
    let texts: Vec<String> = list
        .iter()
        .map(|rect| {
            let Rect {
                left,
                top,
                right,
                bottom,
            } = rect;
            format!("{left},{top},{right},{bottom}")
        })
        .collect();
    texts.join(";")
}

/// Adds a picture as one field, or that there is none.
fn push_picture(line: &mut Vec<u8>, name: &str, picture: Option<&Cell>) {
    let Some(picture) = picture else {
        Fields { line }.text(name, "none");
        return;
    };
    let (bits, width, height) = (picture.bits_per_pixel, picture.width, picture.height);
    Fields { line }.text(name, &format!("{bits},{width},{height}"));
    for bytes in [&picture.mask, &picture.color_table, &picture.color] {
        line.push(b',');
        push_hex(line, bytes);
    }
}
