//! The exported entries of the saved session, as this test reads their description, and those of a session beside them.

#[path = "../../native/src/ffi.rs"]
mod sessions;

pub use sessions::*;

#[rustfmt::skip]
extern "C" {
    pub fn sigvort_saved_counts(
        text: *const u8, text_len: usize, list: *mut u32, n: *mut u32, literals: *mut u64, clauses: *mut u64,
    ) -> u32;

    pub fn sigvort_heap_save(
        n: u32, literals: u32, clauses: u32,
        lits: *const u32, lits_len: usize, ends: *const u32, ends_len: usize,
        values: *const u8, values_len: usize, levels: *const u32, levels_len: usize, reasons: *const u32, reasons_len: usize,
        trail: *const u32, trail_len: usize, opened: *const u32, opened_len: usize,
        activity: *const f64, activity_len: usize, heap: *const u32, heap_len: usize, indices: *const u32, indices_len: usize,
        decision: *const u8, decision_len: usize,
        len: u32, level: u32, curr_i: u32, members: u32, inc: f64, decay: f64,
        text: *mut u8, text_len: usize, written: *mut u32,
    ) -> u32;

    pub fn sigvort_list_save(
        n: u32, literals: u32, clauses: u32,
        lits: *const u32, lits_len: usize, ends: *const u32, ends_len: usize,
        values: *const u8, values_len: usize, levels: *const u32, levels_len: usize, reasons: *const u32, reasons_len: usize,
        trail: *const u32, trail_len: usize, opened: *const u32, opened_len: usize,
        next: *const u32, next_len: usize, prev: *const u32, prev_len: usize, ts: *const u64, ts_len: usize,
        len: u32, level: u32, curr_i: u32, start: u32, search: u32, timestamp: u64,
        text: *mut u8, text_len: usize, written: *mut u32,
    ) -> u32;

    pub fn sigvort_heap_read(
        text: *const u8, text_len: usize,
        lits: *mut u32, lits_len: usize, ends: *mut u32, ends_len: usize,
        values: *mut u8, values_len: usize, levels: *mut u32, levels_len: usize, reasons: *mut u32, reasons_len: usize,
        trail: *mut u32, trail_len: usize, opened: *mut u32, opened_len: usize,
        activity: *mut f64, activity_len: usize, heap: *mut u32, heap_len: usize, indices: *mut u32, indices_len: usize,
        decision: *mut u8, decision_len: usize,
        len: *mut u32, level: *mut u32, curr_i: *mut u32, members: *mut u32, inc: *mut f64, decay: *mut f64,
    ) -> u32;

    pub fn sigvort_list_read(
        text: *const u8, text_len: usize,
        lits: *mut u32, lits_len: usize, ends: *mut u32, ends_len: usize,
        values: *mut u8, values_len: usize, levels: *mut u32, levels_len: usize, reasons: *mut u32, reasons_len: usize,
        trail: *mut u32, trail_len: usize, opened: *mut u32, opened_len: usize,
        next: *mut u32, next_len: usize, prev: *mut u32, prev_len: usize, ts: *mut u64, ts_len: usize,
        len: *mut u32, level: *mut u32, curr_i: *mut u32, start: *mut u32, search: *mut u32, timestamp: *mut u64,
    ) -> u32;

    pub fn sigvort_run_new(
        sheet: *const u8, sheet_len: usize, answers: *mut u8, answers_len: usize, text: *mut u8, text_len: usize, written: *mut u32,
    ) -> u32;

    pub fn sigvort_run_on(
        old: *const u8, old_len: usize, sheet: *const u8, sheet_len: usize,
        answers: *mut u8, answers_len: usize, text: *mut u8, text_len: usize, written: *mut u32,
    ) -> u32;
}
