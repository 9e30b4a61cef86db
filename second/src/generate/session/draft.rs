//! Orders in the making, whose fields may be outside what the rules allow.

use super::slot::{
    pool_id, FlagFields, Slot, CACHED_FIELDS, DESKTOP_FIELDS, ICON_FIELDS, NOTIFICATION_FIELDS,
    WINDOW_FIELDS,
};
use crate::generate::random::Random;
use crate::order::flags;

/// An order in the making.
pub struct Draft {
    flags: u32,
    ids: Vec<u32>,
    fields: Vec<Field>,
}

/// A number carried, and what it ought to be by the bytes that follow.
struct Field {
    slot: Slot,
    said: u32,
    meant: u32,
}

impl Draft {
    /// An order with these flags and ids. The numbers not fixed are allowed ones.
    pub fn new(flags: u32, ids: &[u32], fixed: &[(Slot, u32)], random: &mut Random) -> Self {
        let mut draft = Self {
            flags,
            ids: ids.to_vec(),
            fields: Vec::new(),
        };
        for slot in slots(flags) {
            let without_table =
                |field: &Field| field.slot == Slot::Bits && !matches!(field.meant, 1 | 4 | 8);
            if slot == Slot::ColorTable && draft.fields.iter().any(without_table) {
                continue;
            }
            let meant = match fixed.iter().find(|(at, _)| *at == slot) {
                Some(&(_, number)) => number,
                None => slot.usual(random),
            };
            let said = meant;
            draft.fields.push(Field { slot, said, meant });
        }
        draft
    }

    /// Changes a length or count without its bytes; says whether there is one.
    pub fn missay_length(&mut self, random: &mut Random) -> bool {
        let counts: Vec<usize> = (0..self.fields.len())
            .filter(|&at| self.fields[at].slot.unit() > 0)
            .collect();
        if counts.is_empty() {
            return false;
        }
        let field = &mut self.fields[random.pick(&counts)];
        field.said = match random.below(8) {
            0 => random.number(0xFFFF),
            // Right if taken modulo 65,536.
            1 if field.slot.unit() == 8 => field.said ^ 0x2000,
            1..=4 => field.said.wrapping_add(1),
            _ => field.said.wrapping_sub(1),
        };
        true
    }

    /// The order's bytes, its size that of the whole.
    pub fn order(&self, random: &mut Random) -> Vec<u8> {
        let mut order = vec![0x2E, 0, 0];
        order.extend_from_slice(&self.flags.to_le_bytes());
        for id in &self.ids {
            order.extend_from_slice(&id.to_le_bytes());
        }
        let mut end = 0;
        for field in &self.fields {
            order.extend_from_slice(&field.said.to_le_bytes()[..field.slot.width()]);
            let size = field.meant as usize * field.slot.unit();
            if field.slot.counts_end() {
                end += size;
            } else if field.slot == Slot::Stack {
                for _ in 0..field.meant {
                    order.extend_from_slice(&pool_id(random).to_le_bytes());
                }
            } else {
                order.extend(random.bytes(size));
            }
        }
        order.extend(random.bytes(end));
        declare_size(&mut order);
        order
    }
}

/// The fields that flags ask for, in carried order.
fn slots(flags: u32) -> Vec<Slot> {
    let mut slots = Vec::new();
    let fields: &[FlagFields] = if flags & flags::WINDOW != 0 {
        &WINDOW_FIELDS
    } else if flags & flags::NOTIFICATION != 0 {
        &NOTIFICATION_FIELDS
    } else {
        &DESKTOP_FIELDS
    };
    for (flag, of_flag) in fields {
        if flags & flag != 0 {
            slots.extend_from_slice(of_flag);
        }
    }
    if flags & flags::ICON != 0 {
        slots.extend(ICON_FIELDS);
    }
    if flags & flags::CACHED_ICON != 0 {
        slots.extend(CACHED_FIELDS);
    }
    slots
}

/// Sets the size in an order's header to that of its bytes.
pub fn declare_size(order: &mut [u8]) {
    let size = order.len() as u16;
    if let Some(declared) = order.get_mut(1..3) {
        declared.copy_from_slice(&size.to_le_bytes());
    }
}
