//! The state calls of the proved library, on lent memory.

use rail::{CacheCell, Holder, Memory, NotifyIconId, Refusal, WindowId};

use super::jobs::{Call, Job};
use super::{Answer, State};
use crate::kinds::Order;

/// Memory lent to the library.
#[derive(Clone, PartialEq, Eq)]
pub struct Proved {
    memory: Memory,
    /// As the job begins with it.
    before: Box<Memory>,
}

impl Proved {
    /// The state that a job begins with.
    pub fn new(job: &Job, journal: &[Order]) -> Self {
        let mut memory = Memory::new();
        let mut lent = memory.lend();
        lent.reset().expect("an emptying is granted");
        for order in &job.at_mark {
            lent.deliver(order).expect("the orders before are granted");
            lent.checkpoint().expect("a mark is granted");
        }
        for order in journal {
            lent.deliver(order)
                .expect("the journal's orders are granted");
        }
        let before = Box::new(memory.clone());
        Self { memory, before }
    }
}

impl State for Proved {
    #[inline]
    fn call(&mut self, call: &Call, out: &mut [u8]) -> Answer {
        let view = self.memory.view();
        let standing = match *call {
            Call::Explain(ref order) => {
                let refused = view.explain(order).refused();
                return refused.map_or(Ok((0, 0)), |order| {
                    super::put_offset(out, order.offset);
                    Err(order.refusal.number())
                });
            }
            Call::Deliver(ref order) => self.memory.lend().deliver(order),
            Call::Undo => self.memory.lend().undo(1),
            Call::Checkpoint => self.memory.lend().checkpoint(),
            Call::Window(id) => view.window_bytes(WindowId(id), out),
            Call::Notification(window, icon) => {
                view.notification_icon_bytes(WindowId(window), NotifyIconId(icon), out)
            }
            Call::Cell(cache_id, cache_entry) => {
                let cell = CacheCell {
                    cache_id,
                    cache_entry,
                };
                view.picture_bytes(cell, out)
            }
            Call::Desktop => view.desktop_bytes(out),
            Call::Windows => view.window_ids_bytes(out),
            Call::Notifications => view.notification_icon_ids_bytes(out),
            Call::Shared(window, cache_id, cache_entry) => {
                let cell = CacheCell {
                    cache_id,
                    cache_entry,
                };
                view.shared_bytes(Holder::SmallIcon(WindowId(window)), cell.into(), out)
            }
        };
        let standing = standing.map_err(Refusal::number)?;
        Ok((standing.orders, standing.bytes))
    }

    /// After a delivery or an undo the journal's bytes still stand behind its count, so the
    /// count is enough.
    fn restore(&mut self, call: &Call) {
        if let Call::Checkpoint = call {
            self.memory.clone_from(&self.before);
        }
        let count = &self.before.journal[..2];
        self.memory.journal[..2].copy_from_slice(count);
    }
}
