//! Times the proved chooser against the reference on the same sheets, on the same calls in lists, on the same sessions written and read and in
//! the same solver, in one process, turn by turn, and prints the medians of the processor's time, which other work on the machine disturbs least.
//! The reference reads heap, list and values without bounds checks, as JigSAT does.
//!
//! Usage: bench, or bench with `sheets`, `lists`, `saved` or `solver` for one of the four alone.

mod clock;
mod lists;
mod native;
mod saved;
mod solver;
mod workloads;

use std::{env, hint::black_box, time::Duration};
use workloads::{growth, uses, Workload};

/// How many times each of the two is timed on a sheet, and for how long each time.
const SAMPLES: usize = 41;
const SAMPLE: Duration = Duration::from_millis(4);

type Run = fn(&[u8], &mut [u8]) -> u32;

extern "C" {
    /// The proved chooser's entry for sheets, as `hosts/c/sigvort.h` has it.
    fn sigvort_run(sheet: *const u8, sheet_len: usize, answers: *mut u8, answers_len: usize) -> u32;
}

fn proved(sheet: &[u8], answers: &mut [u8]) -> u32 {
    // SAFETY: sheet and buffer are slices of these lengths, and the buffer is no part of the sheet.
    unsafe { sigvort_run(sheet.as_ptr(), sheet.len(), answers.as_mut_ptr(), answers.len()) }
}

/// The mean time of so many runs.
fn time(run: Run, sheet: &[u8], answers: &mut [u8], times: u32) -> Duration {
    let start = clock::thread_time();
    for _ in 0..times {
        black_box(run(black_box(sheet), black_box(answers)));
    }
    (clock::thread_time() - start) / times
}

/// How many runs fill a sample.
fn runs_for(run: Run, sheet: &[u8], answers: &mut [u8]) -> u32 {
    let once = time(run, sheet, answers, 3).max(Duration::from_nanos(100));
    (SAMPLE.as_nanos() / once.as_nanos()).clamp(1, 100_000) as u32
}

fn median(mut times: Vec<Duration>) -> Duration {
    times.sort_unstable();
    times[times.len() / 2]
}

/// The median times of the reference and of the proved chooser.
fn measure(workload: &Workload) -> [Duration; 2] {
    let sheet = &workload.sheet;
    let mut answers = vec![0; reference::ANSWER_ROOM * sheet.len()];
    let both: [Run; 2] = [reference::run, proved];
    let times = both.map(|run| runs_for(run, sheet, &mut answers));
    let mut samples = [Vec::new(), Vec::new()];
    for _ in 0..SAMPLES {
        for i in 0..2 {
            samples[i].push(time(both[i], sheet, &mut answers, times[i]));
        }
    }
    samples.map(median)
}

fn table(title: &str, workloads: &[Workload]) {
    println!("{title:<34} {:>7} {:>14} {:>12} {:>7}", "bytes", "reference, µs", "proved, µs", "ratio");
    for workload in workloads {
        let [reference, proved] = measure(workload).map(|time| time.as_secs_f64() * 1e6);
        println!("{:<34} {:>7} {reference:>14.2} {proved:>12.2} {:>7.2}", workload.name, workload.sheet.len(), proved / reference);
    }
}

fn main() {
    let only = env::args().nth(1);
    let asked = |part| only.as_deref().is_none_or(|only| only == part);
    if asked("sheets") {
        table("uses", &uses());
        println!();
        table("growth with N", &growth());
        println!();
    }
    if asked("lists") {
        native::table();
        println!();
    }
    if asked("saved") {
        saved::table();
        println!();
    }
    if asked("solver") {
        solver::table();
    }
}
