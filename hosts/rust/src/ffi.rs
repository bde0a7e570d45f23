//! The chooser's entries as they are exported, parameter by parameter as in `hosts/c/sigvort.h`, which says what each is.
//!
//! Of every entry: nothing is kept between calls and nothing is allocated, so calls on different memory may run at the same time.
//!
//! # Safety
//!
//! Slices are readable for their lengths, those that go as `*mut` writable too, and so are single numbers that go as pointers. No pointer is null, even
//! for a length of 0, each is aligned for its type, and what is writable overlaps nothing else.

#[rustfmt::skip]
extern "C" {
    /// Runs the sheet, writes its answers to the front of the buffer and returns how many bytes it wrote, or 4294967295 less the number
    /// of the refusal.
    pub fn sigvort_run(sheet: *const u8, sheet_len: usize, answers: *mut u8, answers_len: usize) -> u32;

    /// The same, and writes the text of the session at the end; how many bytes that are goes to `written`, 0 where there is no session.
    pub fn sigvort_run_new(
        sheet: *const u8, sheet_len: usize, answers: *mut u8, answers_len: usize, text: *mut u8, text_len: usize, written: *mut u32,
    ) -> u32;

    /// The same for a sheet of calls on the session of a text.
    pub fn sigvort_run_on(
        old: *const u8, old_len: usize, sheet: *const u8, sheet_len: usize,
        answers: *mut u8, answers_len: usize, text: *mut u8, text_len: usize, written: *mut u32,
    ) -> u32;

    /// Opens a session in heap mode. Returns 0, or the first refusal of 4, 5 and 6 that fits; then nothing is changed.
    pub fn sigvort_heap_fresh(
        n: u32, literals: u32, clauses: u32,
        lits: *const u32, lits_len: usize, ends: *const u32, ends_len: usize,
        values: *mut u8, values_len: usize, levels: *mut u32, levels_len: usize, reasons: *mut u32, reasons_len: usize,
        trail: *mut u32, trail_len: usize, opened: *mut u32, opened_len: usize,
        activity: *mut f64, activity_len: usize, heap: *mut u32, heap_len: usize, indices: *mut u32, indices_len: usize,
        decision: *mut u8, decision_len: usize,
        len: *mut u32, level: *mut u32, curr_i: *mut u32, members: *mut u32, inc: *mut f64, decay: *mut f64,
    ) -> u32;

    /// Does a list of calls in heap mode. Returns 0, or the first refusal of 4, 5, 6 and 7 that fits; then nothing is changed.
    pub fn sigvort_heap_calls(
        n: u32, literals: u32, clauses: u32,
        lits: *const u32, lits_len: usize, ends: *const u32, ends_len: usize,
        values: *mut u8, values_len: usize, levels: *mut u32, levels_len: usize, reasons: *mut u32, reasons_len: usize,
        trail: *mut u32, trail_len: usize, opened: *mut u32, opened_len: usize,
        activity: *mut f64, activity_len: usize, heap: *mut u32, heap_len: usize, indices: *mut u32, indices_len: usize,
        decision: *mut u8, decision_len: usize,
        len: *mut u32, level: *mut u32, curr_i: *mut u32, members: *mut u32, inc: *mut f64, decay: *mut f64,
        vars: *const u32, vars_len: usize, calls: *const u32, calls_len: usize, answers: *mut u32, answers_len: usize,
    ) -> u32;

    /// Opens a session in list mode. Returns 0, or the first refusal of 4, 5 and 6 that fits; then nothing is changed.
    pub fn sigvort_list_fresh(
        n: u32, literals: u32, clauses: u32,
        lits: *const u32, lits_len: usize, ends: *const u32, ends_len: usize,
        values: *mut u8, values_len: usize, levels: *mut u32, levels_len: usize, reasons: *mut u32, reasons_len: usize,
        trail: *mut u32, trail_len: usize, opened: *mut u32, opened_len: usize,
        next: *mut u32, next_len: usize, prev: *mut u32, prev_len: usize, ts: *mut u64, ts_len: usize,
        len: *mut u32, level: *mut u32, curr_i: *mut u32, start: *mut u32, search: *mut u32, timestamp: *mut u64,
    ) -> u32;

    /// Does a list of calls in list mode. Returns 0, or the first refusal of 4, 5, 6 and 7 that fits; then nothing is changed.
    pub fn sigvort_list_calls(
        n: u32, literals: u32, clauses: u32,
        lits: *const u32, lits_len: usize, ends: *const u32, ends_len: usize,
        values: *mut u8, values_len: usize, levels: *mut u32, levels_len: usize, reasons: *mut u32, reasons_len: usize,
        trail: *mut u32, trail_len: usize, opened: *mut u32, opened_len: usize,
        next: *mut u32, next_len: usize, prev: *mut u32, prev_len: usize, ts: *mut u64, ts_len: usize,
        len: *mut u32, level: *mut u32, curr_i: *mut u32, start: *mut u32, search: *mut u32, timestamp: *mut u64,
        vars: *const u32, vars_len: usize, calls: *const u32, calls_len: usize, answers: *mut u32, answers_len: usize,
    ) -> u32;

    /// Tells the counts of a text that has its lines; `list` is 0 in heap mode and 1 in list mode. Returns 0, or 15; then nothing is changed.
    pub fn sigvort_saved_counts(
        text: *const u8, text_len: usize, list: *mut u32, n: *mut u32, literals: *mut u64, clauses: *mut u64,
    ) -> u32;

    /// Writes the text of a session in heap mode to the front of the buffer, and its length. Returns 0, or the first refusal of 4, 5, 6, 7 and 2 that
    /// fits; then nothing is changed.
    pub fn sigvort_heap_save(
        n: u32, literals: u32, clauses: u32,
        lits: *const u32, lits_len: usize, ends: *const u32, ends_len: usize,
        values: *const u8, values_len: usize, levels: *const u32, levels_len: usize, reasons: *const u32, reasons_len: usize,
        trail: *const u32, trail_len: usize, opened: *const u32, opened_len: usize,
        activity: *const f64, activity_len: usize, heap: *const u32, heap_len: usize, indices: *const u32, indices_len: usize,
        decision: *const u8, decision_len: usize,
        len: u32, level: u32, curr_i: u32, members: u32, inc: f64, decay: f64,
        text: *mut u8, text_len: usize, written: *mut u32,
    ) -> u32;

    /// Reads a session in heap mode from a text. Returns 0, or the first refusal of 15, 4, 5, 6 and 7 that fits; then nothing is changed.
    pub fn sigvort_heap_read(
        text: *const u8, text_len: usize,
        lits: *mut u32, lits_len: usize, ends: *mut u32, ends_len: usize,
        values: *mut u8, values_len: usize, levels: *mut u32, levels_len: usize, reasons: *mut u32, reasons_len: usize,
        trail: *mut u32, trail_len: usize, opened: *mut u32, opened_len: usize,
        activity: *mut f64, activity_len: usize, heap: *mut u32, heap_len: usize, indices: *mut u32, indices_len: usize,
        decision: *mut u8, decision_len: usize,
        len: *mut u32, level: *mut u32, curr_i: *mut u32, members: *mut u32, inc: *mut f64, decay: *mut f64,
    ) -> u32;

    /// Writes the text of a session in list mode, as [`sigvort_heap_save`] does in heap mode.
    pub fn sigvort_list_save(
        n: u32, literals: u32, clauses: u32,
        lits: *const u32, lits_len: usize, ends: *const u32, ends_len: usize,
        values: *const u8, values_len: usize, levels: *const u32, levels_len: usize, reasons: *const u32, reasons_len: usize,
        trail: *const u32, trail_len: usize, opened: *const u32, opened_len: usize,
        next: *const u32, next_len: usize, prev: *const u32, prev_len: usize, ts: *const u64, ts_len: usize,
        len: u32, level: u32, curr_i: u32, start: u32, search: u32, timestamp: u64,
        text: *mut u8, text_len: usize, written: *mut u32,
    ) -> u32;

    /// Reads a session in list mode from a text, as [`sigvort_heap_read`] does in heap mode.
    pub fn sigvort_list_read(
        text: *const u8, text_len: usize,
        lits: *mut u32, lits_len: usize, ends: *mut u32, ends_len: usize,
        values: *mut u8, values_len: usize, levels: *mut u32, levels_len: usize, reasons: *mut u32, reasons_len: usize,
        trail: *mut u32, trail_len: usize, opened: *mut u32, opened_len: usize,
        next: *mut u32, next_len: usize, prev: *mut u32, prev_len: usize, ts: *mut u64, ts_len: usize,
        len: *mut u32, level: *mut u32, curr_i: *mut u32, start: *mut u32, search: *mut u32, timestamp: *mut u64,
    ) -> u32;
}

/// Calls an entry. Behind its name stand the numbers that come first. Slices behind `as_ptr` are read and those behind `as_mut_ptr` written; they go as
/// pointer and length, and the numbers behind them as they are.
macro_rules! entry {
    ($entry:ident($($first:expr),*) $(, $pointer:ident [$($slice:expr),*] $(($($number:expr),*))?)*) => {
        // SAFETY: pointers and lengths are those of slices, pointers to numbers come from references; so none is null and all are aligned. Those
        // that are written come from different slices or places behind unique references, so they overlap nothing.
        unsafe { $crate::ffi::$entry($($first,)* $($($slice.$pointer(), $slice.len(),)* $($($number,)*)?)*) }
    };
}

pub(crate) use entry;
