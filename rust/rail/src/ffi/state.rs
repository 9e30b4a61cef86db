//! The state calls and lookups. State memory goes over in eight parts, always in this
//! order: the index, the bodies, the five parts of the store, the journal.

use crate::memory::LentSession;
use crate::view::View;

/// Declares calls on state memory: which parts they write, then what else they take.
macro_rules! on_state {
    ($(fn $name:ident(
        $index:tt index, $bodies:tt bodies, $store:tt store, $journal:tt journal
        $(, $more:ident: $kind:ty)*
    ) -> $answer:ty;)*) => {
        extern "C" {
            $(fn $name(
                index: *$index u8,
                index_length: usize,
                bodies: *$bodies u8,
                bodies_length: usize,
                store_a: *$store u8,
                store_a_length: usize,
                store_b: *$store u8,
                store_b_length: usize,
                store_c: *$store u8,
                store_c_length: usize,
                store_d: *$store u8,
                store_d_length: usize,
                store_e: *$store u8,
                store_e_length: usize,
                journal: *$journal u8,
                journal_length: usize,
                $($more: $kind),*
            ) -> $answer;)*
        }
    };
}

on_state! {
    fn rail_reset(mut index, mut bodies, const store, mut journal) -> u32;
    fn rail_deliver(
        const index, const bodies, const store, mut journal,
        order: *const u8, order_length: usize
    ) -> u32;
    fn rail_update(
        const index, const bodies, const store, mut journal,
        limit: u32, orders: *const u8, orders_length: usize
    ) -> u64;
    fn rail_checkpoint(mut index, mut bodies, mut store, mut journal) -> u32;
    fn rail_undo(const index, const bodies, const store, mut journal, steps: u64) -> u32;
    fn rail_window(
        const index, const bodies, const store, const journal,
        window_id: u32, out: *mut u8, out_length: usize
    ) -> u32;
    fn rail_notification(
        const index, const bodies, const store, const journal,
        window_id: u32, notify_icon_id: u32, out: *mut u8, out_length: usize
    ) -> u32;
    fn rail_cell(
        const index, const bodies, const store, const journal,
        cache_id: u8, cache_entry: u16, out: *mut u8, out_length: usize
    ) -> u32;
    fn rail_desktop(
        const index, const bodies, const store, const journal,
        out: *mut u8, out_length: usize
    ) -> u32;
    fn rail_windows(
        const index, const bodies, const store, const journal,
        out: *mut u8, out_length: usize
    ) -> u32;
    fn rail_notifications(
        const index, const bodies, const store, const journal,
        out: *mut u8, out_length: usize
    ) -> u32;
    fn rail_shared(
        const index, const bodies, const store, const journal,
        kind: u8, first: u32, second: u32,
        other_kind: u8, other_first: u32, other_second: u32,
        out: *mut u8, out_length: usize
    ) -> u32;
    fn rail_record_write(
        const index, const bodies, const store, const journal,
        out: *mut u8, out_length: usize
    ) -> u32;
    fn rail_explain(
        const index, const bodies, const store, const journal,
        order: *const u8, order_length: usize
    ) -> u32;
    fn rail_figure(
        const index, const bodies, const store, const journal,
        out: *mut u8, out_length: usize
    ) -> u32;
    fn rail_run(
        mut index, mut bodies, mut store, mut journal,
        script: *const u8, script_length: usize, out: *mut u8, out_length: usize
    ) -> u64;
}

/// Calls with the parts, by `as_ptr` or `as_mut_ptr`, each with its own length.
macro_rules! call {
    ($name:ident, $parts:ident by $pointer:ident $(, $more:expr)*) => {
        $name(
            $parts.index.$pointer(),
            $parts.index.len(),
            $parts.bodies.$pointer(),
            $parts.bodies.len(),
            $parts.store[0].$pointer(),
            $parts.store[0].len(),
            $parts.store[1].$pointer(),
            $parts.store[1].len(),
            $parts.store[2].$pointer(),
            $parts.store[2].len(),
            $parts.store[3].$pointer(),
            $parts.store[3].len(),
            $parts.store[4].$pointer(),
            $parts.store[4].len(),
            $parts.journal.$pointer(),
            $parts.journal.len(),
            $($more),*
        )
    };
}

pub(crate) fn reset(lent: &mut LentSession<'_>) -> u32 {
    // SAFETY: all parts are borrowed mutably and so apart from each other.
    unsafe { call!(rail_reset, lent by as_mut_ptr) }
}

pub(crate) fn deliver(lent: &mut LentSession<'_>, order: &[u8]) -> u32 {
    // SAFETY: all parts are borrowed mutably and so apart from each other and from the
    // order, which has its own length.
    unsafe { call!(rail_deliver, lent by as_mut_ptr, order.as_ptr(), order.len()) }
}

pub(crate) fn update(lent: &mut LentSession<'_>, limit: u32, orders: &[u8]) -> u64 {
    // SAFETY: as `deliver`.
    unsafe { call!(rail_update, lent by as_mut_ptr, limit, orders.as_ptr(), orders.len()) }
}

pub(crate) fn checkpoint(lent: &mut LentSession<'_>) -> u32 {
    // SAFETY: as `reset`.
    unsafe { call!(rail_checkpoint, lent by as_mut_ptr) }
}

pub(crate) fn undo(lent: &mut LentSession<'_>, steps: u64) -> u32 {
    // SAFETY: as `reset`.
    unsafe { call!(rail_undo, lent by as_mut_ptr, steps) }
}

pub(crate) fn window(view: View<'_>, window_id: u32, out: &mut [u8]) -> u32 {
    // SAFETY: only `out` is written, which is borrowed mutably and so apart from the
    // parts, and has its own length.
    unsafe { call!(rail_window, view by as_ptr, window_id, out.as_mut_ptr(), out.len()) }
}

pub(crate) fn notification(
    view: View<'_>,
    window_id: u32,
    notify_icon_id: u32,
    out: &mut [u8],
) -> u32 {
    let ids = (window_id, notify_icon_id);
    // SAFETY: as `window`.
    unsafe { call!(rail_notification, view by as_ptr, ids.0, ids.1, out.as_mut_ptr(), out.len()) }
}

pub(crate) fn cell(view: View<'_>, cache_id: u8, cache_entry: u16, out: &mut [u8]) -> u32 {
    let ids = (cache_id, cache_entry);
    // SAFETY: as `window`.
    unsafe { call!(rail_cell, view by as_ptr, ids.0, ids.1, out.as_mut_ptr(), out.len()) }
}

pub(crate) fn desktop(view: View<'_>, out: &mut [u8]) -> u32 {
    // SAFETY: as `window`.
    unsafe { call!(rail_desktop, view by as_ptr, out.as_mut_ptr(), out.len()) }
}

pub(crate) fn windows(view: View<'_>, out: &mut [u8]) -> u32 {
    // SAFETY: as `window`.
    unsafe { call!(rail_windows, view by as_ptr, out.as_mut_ptr(), out.len()) }
}

pub(crate) fn notifications(view: View<'_>, out: &mut [u8]) -> u32 {
    // SAFETY: as `window`.
    unsafe { call!(rail_notifications, view by as_ptr, out.as_mut_ptr(), out.len()) }
}

/// Two holders, each as its kind and two numbers.
pub(crate) fn shared(
    view: View<'_>,
    one: (u8, u32, u32),
    other: (u8, u32, u32),
    out: &mut [u8],
) -> u32 {
    // SAFETY: as `window`.
    unsafe {
        call!(
            rail_shared, view by as_ptr,
            one.0, one.1, one.2, other.0, other.1, other.2, out.as_mut_ptr(), out.len()
        )
    }
}

pub(crate) fn record_write(view: View<'_>, out: &mut [u8]) -> u32 {
    // SAFETY: as `window`.
    unsafe { call!(rail_record_write, view by as_ptr, out.as_mut_ptr(), out.len()) }
}

pub(crate) fn explain(view: View<'_>, order: &[u8]) -> u32 {
    // SAFETY: nothing is written, and each part has its own length.
    unsafe { call!(rail_explain, view by as_ptr, order.as_ptr(), order.len()) }
}

pub(crate) fn figure(view: View<'_>, out: &mut [u8]) -> u32 {
    // SAFETY: as `window`.
    unsafe { call!(rail_figure, view by as_ptr, out.as_mut_ptr(), out.len()) }
}

pub(crate) fn run(lent: &mut LentSession<'_>, script: &[u8], out: &mut [u8]) -> u64 {
    let (script, size) = (script.as_ptr(), script.len());
    // SAFETY: all parts and `out` are borrowed mutably and so apart from each other and
    // from the script, each with its own length.
    unsafe { call!(rail_run, lent by as_mut_ptr, script, size, out.as_mut_ptr(), out.len()) }
}
