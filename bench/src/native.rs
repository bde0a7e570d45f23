//! The exported lists of calls, timed against the reference's session.

use crate::{
    clock::thread_time,
    lists::{Calls, Mode},
    median, SAMPLE, SAMPLES,
};
use reference::{
    native::{HeapMemory, ListMemory, ANSWER_WORDS, CALL_WORDS},
    session::Call,
};
use std::{hint::black_box, time::Duration};

#[rustfmt::skip]
extern "C" {
    fn sigvort_heap_calls(
        n: u32, literals: u32, clauses: u32, lits: *const u32, lits_len: usize, ends: *const u32, ends_len: usize,
        values: *mut u8, values_len: usize, levels: *mut u32, levels_len: usize, reasons: *mut u32, reasons_len: usize,
        trail: *mut u32, trail_len: usize, opened: *mut u32, opened_len: usize,
        activity: *mut f64, activity_len: usize, heap: *mut u32, heap_len: usize, indices: *mut u32, indices_len: usize,
        decision: *mut u8, decision_len: usize,
        len: *mut u32, level: *mut u32, curr_i: *mut u32, members: *mut u32, inc: *mut f64, decay: *mut f64,
        vars: *const u32, vars_len: usize, calls: *const u32, calls_len: usize, answers: *mut u32, answers_len: usize,
    ) -> u32;

    fn sigvort_list_calls(
        n: u32, literals: u32, clauses: u32, lits: *const u32, lits_len: usize, ends: *const u32, ends_len: usize,
        values: *mut u8, values_len: usize, levels: *mut u32, levels_len: usize, reasons: *mut u32, reasons_len: usize,
        trail: *mut u32, trail_len: usize, opened: *mut u32, opened_len: usize,
        next: *mut u32, next_len: usize, prev: *mut u32, prev_len: usize, ts: *mut u64, ts_len: usize,
        len: *mut u32, level: *mut u32, curr_i: *mut u32, start: *mut u32, search: *mut u32, timestamp: *mut u64,
        vars: *const u32, vars_len: usize, calls: *const u32, calls_len: usize, answers: *mut u32, answers_len: usize,
    ) -> u32;
}

/// The proved entry of a mode.
pub trait Proved: Mode {
    fn calls(&mut self, calls: &Calls<Self>, words: &[u32], answers: &mut [u32]) -> u32;
}

/// Calls an entry with clauses and trail, the chooser's slices and numbers, and a list.
macro_rules! call {
    ($entry:ident, $m:ident, $c:ident, ($($slice:ident),*), ($($number:ident),*), $words:ident, $answers:ident) => {{
        let (lits, ends, t, n) = (&$c.clauses.lits, &$c.clauses.ends, &mut $m.trail, $c.n);
        // SAFETY: each pointer is followed by the length of what it points to, or points to a number; what is written overlaps nothing else.
        unsafe {
            $entry(
                n as u32, lits.len() as u32, ends.len() as u32, lits.as_ptr(), lits.len(), ends.as_ptr(), ends.len(),
                t.values.as_mut_ptr(), n, t.levels.as_mut_ptr(), n, t.reasons.as_mut_ptr(), n, t.trail.as_mut_ptr(), n, t.opened.as_mut_ptr(), n,
                $($m.$slice.as_mut_ptr(), n,)*
                &mut t.len, &mut t.level, &mut t.curr_i, $(&mut $m.$number,)*
                $c.vars.as_ptr(), $c.vars.len(), $words.as_ptr(), $words.len(), $answers.as_mut_ptr(), $answers.len(),
            )
        }
    }};
}

impl Proved for HeapMemory {
    fn calls(&mut self, calls: &Calls<Self>, words: &[u32], answers: &mut [u32]) -> u32 {
        call!(sigvort_heap_calls, self, calls, (activity, heap, indices, decision), (members, inc, decay), words, answers)
    }
}

impl Proved for ListMemory {
    fn calls(&mut self, calls: &Calls<Self>, words: &[u32], answers: &mut [u32]) -> u32 {
        call!(sigvort_list_calls, self, calls, (next, prev, ts), (start, search, timestamp), words, answers)
    }
}

/// The time of all calls on the reference's session.
fn reference_time<'a, M: Proved>(calls: &'a Calls<M>, decoded: &'a [Call<'a>]) -> impl Fn() -> Duration + 'a {
    move || {
        let mut session = calls.session();
        let start = thread_time();
        for &call in black_box(decoded) {
            let _ = black_box(session.call(call));
        }
        thread_time() - start
    }
}

/// The time of all calls in lists of a length on memory that is kept between the lists.
fn proved_time<M: Proved>(calls: &Calls<M>, length: usize) -> impl Fn() -> Duration + '_ {
    let due = calls.answers();
    move || {
        let mut memory = calls.memory.clone();
        let mut answers = vec![0; due.len()];
        let lists = calls.words.chunks(length * CALL_WORDS).zip(answers.chunks_mut(length * ANSWER_WORDS));
        let start = thread_time();
        for (words, answers) in lists {
            black_box(memory.calls(calls, black_box(words), answers));
        }
        let time = thread_time() - start;
        assert!(answers == due, "the answers are not the reference's");
        time
    }
}

/// The mean time over as many turns as fill a sample.
fn sample(turn: &dyn Fn() -> Duration, turns: u32) -> Duration {
    (0..turns).map(|_| turn()).sum::<Duration>() / turns
}

/// The median times of the reference and of the proved chooser for all calls.
fn measure<M: Proved>(calls: &Calls<M>, length: usize) -> [Duration; 2] {
    let mut groups = Vec::new();
    let decoded = calls.decoded(&mut groups);
    let both: [&dyn Fn() -> Duration; 2] = [&reference_time(calls, &decoded), &proved_time(calls, length)];
    let turns = both.map(|turn| (SAMPLE.as_nanos() / sample(turn, 2).as_nanos().max(1)).clamp(1, 1000) as u32);
    // lists of a call each take long where there is much to check
    let samples_wanted = if turns[1] > 1 { SAMPLES } else { SAMPLES / 4 };
    let mut samples = [Vec::new(), Vec::new()];
    for _ in 0..samples_wanted {
        for i in 0..2 {
            samples[i].push(sample(both[i], turns[i]));
        }
    }
    samples.map(median)
}

fn rows<M: Proved>(calls: Calls<M>, lengths: &[usize]) {
    for &length in lengths {
        let nanoseconds = |time: Duration| time.as_secs_f64() * 1e9 / crate::lists::CALLS as f64;
        let [reference, proved] = measure(&calls, length).map(nanoseconds);
        let name = format!("{}, lists of {length}", calls.name);
        println!("{name:<52} {:>7} {reference:>14.1} {proved:>12.1} {:>7.2}", crate::lists::CALLS, proved / reference);
    }
}

/// Prints the times of a call by mode, number of variables, literals that are lent, and length of the lists.
pub fn table() {
    let lengths = [1, 16, 256, 4096];
    println!("{:<52} {:>7} {:>14} {:>12} {:>7}", "calls in lists", "calls", "reference, ns", "proved, ns", "ratio");
    for (n, literals) in [(64, 300), (256, 0), (256, 1000), (2048, 0), (2048, 8192)] {
        rows(Calls::<HeapMemory>::new(n, literals), &lengths);
    }
    for (n, literals) in [(64, 300), (256, 1000), (2048, 8192)] {
        rows(Calls::<ListMemory>::new(n, literals), &lengths);
    }
}
