//! Records as the second program has them.

use std::fmt::Debug;

use rail::{Desktop, NotificationIcon, Picture, Point, Rectangle, Size, Window};
use second::figure::{self, of_window, Figure};
use second::ids::WindowId;
use second::script::session::Call;
use second::table::{self, Holder, Table};

use super::Record;

/// Whether the record of a granted call is what the table has; else a text.
pub fn found(table: &Table, call: &Call<'_>, record: &Record) -> Result<(), String> {
    match (call, record) {
        (Call::Window(id), Record::Window(found)) => {
            same(table.window(*id), window(found))?;
            same(table.window(*id).map(of_window).as_ref(), found.pixels)?;
            shown(table, Holder::Small(*id), &found.small)?;
            shown(table, Holder::Big(*id), &found.big)?;
            shown(table, Holder::Overlay(*id), &found.overlay)
        }
        (Call::Icon(window, id), Record::NotificationIcon(found)) => {
            same(table.icon(*window, *id), icon(found))?;
            shown(table, Holder::Notification(*window, *id), &found.icon)
        }
        (Call::Shared(one, other), Record::Shared(found)) => {
            same(table.store().shared(*one, *other).as_ref(), *found)
        }
        (Call::Cell(place), Record::Picture(found)) => same(table.cell(*place), cell(found)),
        (Call::Lists, Record::Lists(windows, icons)) => same(
            Some(&lists(table)),
            (
                windows.iter().map(|id| id.0).collect(),
                icons.iter().map(|(w, i)| (w.0, i.0)).collect(),
            ),
        ),
        (Call::Desktop, Record::Desktop(found)) => {
            same(Some(table.desktop()), desktop(found))?;
            let (windows, pixels) = (found.figure.windows as usize, found.figure.pixels);
            same(Some(&figure::of(table)), Figure { windows, pixels })
        }
        (_, Record::Nothing) => Ok(()),
        _ => Err(format!("the record is of another kind: {record:?}")),
    }
}

fn same<T: PartialEq + Debug>(expected: Option<&T>, found: T) -> Result<(), String> {
    match expected {
        Some(expected) if *expected == found => Ok(()),
        _ => Err(format!("found {found:?}, the book has {expected:?}")),
    }
}

/// Whether a holder shows that picture.
fn shown(table: &Table, holder: Holder, found: &Option<Picture>) -> Result<(), String> {
    let found = found.as_ref().map(cell);
    if table.shown(holder) == found.as_ref() {
        return Ok(());
    }
    Err(format!("{holder:?} shows another picture: {found:?}"))
}

type Lists = (Vec<u32>, Vec<(u32, u32)>);

fn lists(table: &Table) -> Lists {
    let icons = table.icon_ids().map(|(w, i)| (w.0, i.0));
    (table.window_ids().map(|id| id.0).collect(), icons.collect())
}

fn window(found: &Window) -> table::Window {
    table::Window {
        owner: WindowId(found.owner.0),
        style: found.style,
        extended_style: found.extended_style,
        show_state: found.show_state.number(),
        title: bytes(found.title_utf16()),
        client_offset: pair(found.client_offset),
        client_size: sides(found.client_size),
        margin_x: (found.resize_margins.left, found.resize_margins.right),
        margin_y: (found.resize_margins.top, found.resize_margins.bottom),
        rp_content: found.rp_content.into(),
        root_parent: WindowId(found.root_parent.0),
        window_offset: pair(found.window_offset),
        client_delta: pair(found.client_delta),
        window_size: sides(found.window_size),
        window_rects: rects(&found.window_rects),
        visible_offset: pair(found.visible_offset),
        visibility_rects: rects(&found.visibility_rects),
        overlay_text: bytes(found.overlay_description_utf16()),
        taskbar: found.taskbar_button.into(),
        server_z: found.enforce_server_z_order.into(),
        app_bar: found.app_bar.into(),
        edge: found.app_bar_edge,
    }
}

fn icon(found: &NotificationIcon) -> table::NotificationIcon {
    table::NotificationIcon {
        version: found.version,
        tip: bytes(found.tool_tip_utf16()),
        balloon_timeout: found.balloon_timeout,
        balloon_flags: found.balloon_info_flags,
        balloon_text: bytes(found.balloon_text_utf16()),
        balloon_title: bytes(found.balloon_title_utf16()),
        state: found.state,
    }
}

fn cell(found: &Picture) -> table::Cell {
    table::Cell {
        bits_per_pixel: found.bits_per_pixel,
        width: found.width,
        height: found.height,
        mask: found.mask.clone(),
        color_table: found.color_table.clone(),
        color: found.color.clone(),
    }
}

fn desktop(found: &Desktop) -> table::Desktop {
    table::Desktop {
        active: WindowId(found.active_window.0),
        hooked: found.hooked,
        syncing: found.syncing,
        stack: found.z_order.iter().map(|id| WindowId(id.0)).collect(),
    }
}

fn bytes(units: &[u16]) -> Vec<u8> {
    units.iter().flat_map(|unit| unit.to_le_bytes()).collect()
}

fn pair(point: Point) -> (i32, i32) {
    (point.x, point.y)
}

fn sides(size: Size) -> (u32, u32) {
    (size.width, size.height)
}

fn rects(list: &[Rectangle]) -> Vec<table::Rect> {
    let rect = |side: &Rectangle| table::Rect {
        left: side.left,
        top: side.top,
        right: side.right,
        bottom: side.bottom,
    };
    list.iter().map(rect).collect()
}
