//! Orders that change what is visible: windows with a show state, rectangles or both, and
//! rectangles of every sort.

use super::session::Maker;
use crate::order::flags;
use crate::table::Rect;

/// The most rectangles of a list.
const MOST_RECTS: usize = 16;

impl Maker<'_> {
    /// A window made, changed or deleted.
    pub fn seen_or_not(&mut self) -> Vec<u8> {
        let new = self.random.chance(25);
        match self.listed_window() {
            Some(id) if !new => {
                if self.random.chance(6) {
                    return order(flags::WINDOW | flags::DELETED, id, &[]);
                }
                self.seen_window(id, 0)
            }
            _ => {
                let id = self.absent_window();
                self.seen_window(id, flags::NEW)
            }
        }
    }

    /// An order for a window with its show state, its rectangles or both.
    pub fn seen_window(&mut self, id: u32, new: u32) -> Vec<u8> {
        let mut flags = flags::WINDOW | new;
        let mut fields = Vec::new();
        if self.random.chance(60) {
            flags |= flags::SHOW;
            fields.push(self.random.pick(&[0, 2, 3, 5, 5, 5]));
        }
        if self.random.chance(15) {
            flags |= flags::WINDOW_RECTS;
            push_rects(&mut fields, &self.rects());
        }
        if self.random.chance(75) {
            flags |= flags::VISIBILITY;
            push_rects(&mut fields, &self.rects());
        }
        order(flags, id, &fields)
    }

    /// A list of rectangles, most of one sort.
    fn rects(&mut self) -> Vec<Rect> {
        let count = match self.random.below(8) {
            0 => 0,
            1 => MOST_RECTS,
            2 => 1 + self.random.below(MOST_RECTS),
            _ => 1 + self.random.below(4),
        };
        let sort = self.random.below(SORTS);
        let mixed = self.random.chance(30);
        (0..count)
            .map(|index| {
                let sort = if mixed {
                    self.random.below(SORTS)
                } else {
                    sort
                };
                self.rect(sort, index as u16)
            })
            .collect()
    }

    /// The rectangle of that index in a list of a sort.
    fn rect(&mut self, sort: usize, index: u16) -> Rect {
        let mut below = |limit: usize| self.random.below(limit) as u16;
        match sort {
            // Apart, or touching where the step is the side.
            0 => {
                let (left, top) = (20 * (index % 4), 20 * (index / 4));
                let side = 10 + 10 * below(2);
                rect([left, top, left + side, top + side])
            }
            // One inside the other.
            1 => rect([index, index, 100 - index, 90 - index]),
            // Overlapping, in steps.
            2 => rect([5 * index, 5 * index, 5 * index + 10, 5 * index + 10]),
            // Few points, in any relation: inverted and empty ones too.
            3 => rect([below(12), below(12), below(12), below(12)]),
            // Empty or inverted one way alone.
            4 => {
                let (side, other) = (below(30), 1 + below(30));
                match below(4) {
                    0 => rect([side, 0, side, other]),
                    1 => rect([0, side, other, side]),
                    2 => rect([side + other, 0, side, other]),
                    _ => rect([0, side + other, other, side]),
                }
            }
            // Huge, and at the ends of the numbers.
            5 => {
                let ends = [0, 1, 65_534, 65_535];
                rect([(); 4].map(|()| ends[usize::from(below(4))]))
            }
            6 => rect([below(3), below(3), 65_535 - below(3), 65_535 - below(3)]),
            // Bars across bars.
            7 if index.is_multiple_of(2) => rect([0, 9 * index, 300, 9 * index + 5]),
            7 => rect([9 * index, 0, 9 * index + 5, 300]),
            // The same again and again.
            8 => rect([7, 8, 70, 80]),
            _ => rect([(); 4].map(|()| below(65_536))),
        }
    }
}

/// The sorts of rectangles.
const SORTS: usize = 10;

fn rect([left, top, right, bottom]: [u16; 4]) -> Rect {
    Rect {
        left,
        top,
        right,
        bottom,
    }
}

fn push_rects(fields: &mut Vec<u8>, rects: &[Rect]) {
    fields.extend_from_slice(&(rects.len() as u16).to_le_bytes());
    for r in rects {
        let numbers = [r.left, r.top, r.right, r.bottom].map(u16::to_le_bytes);
        fields.extend_from_slice(numbers.as_flattened());
    }
}

/// An order for a window with these fields.
pub fn order(flags: u32, id: u32, fields: &[u8]) -> Vec<u8> {
    let size = 11 + fields.len() as u16;
    let mut order = vec![0x2E];
    order.extend_from_slice(&size.to_le_bytes());
    order.extend_from_slice(&flags.to_le_bytes());
    order.extend_from_slice(&id.to_le_bytes());
    order.extend_from_slice(fields);
    order
}
