//! The exported entries of a session, as this test reads their description.

#[rustfmt::skip]
extern "C" {
    pub fn sigvort_heap_fresh(
        n: u32, literals: u32, clauses: u32,
        lits: *const u32, lits_len: usize, ends: *const u32, ends_len: usize,
        values: *mut u8, values_len: usize, levels: *mut u32, levels_len: usize, reasons: *mut u32, reasons_len: usize,
        trail: *mut u32, trail_len: usize, opened: *mut u32, opened_len: usize,
        activity: *mut f64, activity_len: usize, heap: *mut u32, heap_len: usize, indices: *mut u32, indices_len: usize,
        decision: *mut u8, decision_len: usize,
        len: *mut u32, level: *mut u32, curr_i: *mut u32, members: *mut u32, inc: *mut f64, decay: *mut f64,
    ) -> u32;

    pub fn sigvort_heap_calls(
        n: u32, literals: u32, clauses: u32,
        lits: *const u32, lits_len: usize, ends: *const u32, ends_len: usize,
        values: *mut u8, values_len: usize, levels: *mut u32, levels_len: usize, reasons: *mut u32, reasons_len: usize,
        trail: *mut u32, trail_len: usize, opened: *mut u32, opened_len: usize,
        activity: *mut f64, activity_len: usize, heap: *mut u32, heap_len: usize, indices: *mut u32, indices_len: usize,
        decision: *mut u8, decision_len: usize,
        len: *mut u32, level: *mut u32, curr_i: *mut u32, members: *mut u32, inc: *mut f64, decay: *mut f64,
        vars: *const u32, vars_len: usize, calls: *const u32, calls_len: usize, answers: *mut u32, answers_len: usize,
    ) -> u32;

    pub fn sigvort_list_fresh(
        n: u32, literals: u32, clauses: u32,
        lits: *const u32, lits_len: usize, ends: *const u32, ends_len: usize,
        values: *mut u8, values_len: usize, levels: *mut u32, levels_len: usize, reasons: *mut u32, reasons_len: usize,
        trail: *mut u32, trail_len: usize, opened: *mut u32, opened_len: usize,
        next: *mut u32, next_len: usize, prev: *mut u32, prev_len: usize, ts: *mut u64, ts_len: usize,
        len: *mut u32, level: *mut u32, curr_i: *mut u32, start: *mut u32, search: *mut u32, timestamp: *mut u64,
    ) -> u32;

    pub fn sigvort_list_calls(
        n: u32, literals: u32, clauses: u32,
        lits: *const u32, lits_len: usize, ends: *const u32, ends_len: usize,
        values: *mut u8, values_len: usize, levels: *mut u32, levels_len: usize, reasons: *mut u32, reasons_len: usize,
        trail: *mut u32, trail_len: usize, opened: *mut u32, opened_len: usize,
        next: *mut u32, next_len: usize, prev: *mut u32, prev_len: usize, ts: *mut u64, ts_len: usize,
        len: *mut u32, level: *mut u32, curr_i: *mut u32, start: *mut u32, search: *mut u32, timestamp: *mut u64,
        vars: *const u32, vars_len: usize, calls: *const u32, calls_len: usize, answers: *mut u32, answers_len: usize,
    ) -> u32;
}
