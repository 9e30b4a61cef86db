//! How much of a table's windows is visible.

use crate::table::{Rect, Table, Window};

/// The windows that are shown, and the pixels of their visibility rectangles.
#[derive(Clone, Copy, Debug, Default, PartialEq, Eq)]
#[allow(missing_docs)]
pub struct Figure {
    pub windows: usize,
    pub pixels: u64,
}

/// The figure of a table: the pixels of several windows are added up, wherever the windows
/// lie.
pub fn of(table: &Table) -> Figure {
    table
        .window_ids()
        .filter_map(|id| table.window(id))
        .filter(|window| is_shown(window))
        .fold(Figure::default(), |figure, window| Figure {
            windows: figure.windows + 1,
            pixels: figure.pixels + u64::from(of_window(window)),
        })
}

/// Whether a window is shown: its show state is not 0.
pub fn is_shown(window: &Window) -> bool {
    window.show_state != 0
}

/// The pixels of a window's visibility rectangles; 0 if it is not shown.
pub fn of_window(window: &Window) -> u32 {
    match is_shown(window) {
        true => area(&window.visibility_rects),
        false => 0,
    }
}

/// The pixels that some rectangle covers. With sides below 65,536 they fit 32 bits.
pub fn area(rects: &[Rect]) -> u32 {
    u32::try_from(pixels(rects)).expect("at most 65,535 by 65,535")
}

/// The pixels that some rectangle covers, by strips: between two edges nothing changes.
pub fn pixels(rects: &[Rect]) -> u64 {
    let mut edges: Vec<u16> = rects.iter().flat_map(|r| [r.top, r.bottom]).collect();
    edges.sort_unstable();
    edges.dedup();
    edges
        .windows(2)
        .map(|strip| {
            let crossing = rects
                .iter()
                .filter(|r| r.top <= strip[0] && strip[1] <= r.bottom);
            let spans = crossing.map(|r| (r.left, r.right)).collect();
            u64::from(strip[1] - strip[0]) * covered(spans)
        })
        .sum()
}

/// How many numbers lie in some span, whose end is outside.
fn covered(mut spans: Vec<(u16, u16)>) -> u64 {
    spans.sort_unstable();
    let mut end = 0;
    let mut count = 0;
    for (left, right) in spans {
        let from = left.max(end);
        if right > from {
            count += u64::from(right - from);
            end = right;
        }
    }
    count
}
