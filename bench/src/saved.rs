//! Sessions written as text and read back, and sheets that begin and go on with them, timed against the reference. In writing both check the
//! memory that is lent; then the reference writes its own session, which is the same, into a vector that is kept. It reads into vectors that it
//! makes anew.

use crate::{clock::thread_time, median, SAMPLE, SAMPLES};
use reference::{
    generator::Rng,
    native::{Clauses, HeapMemory, Lent, ListMemory, Memory},
    saved::{self, Saved},
    session::{Call, Lit, Session},
    ANSWER_ROOM,
};
use std::{hint::black_box, time::Duration};

#[allow(dead_code, unused_imports)]
#[path = "../../tests/saved/src/ffi.rs"]
mod ffi;

/// A mode with its proved entries.
trait Proved: Memory<Chooser: Saved> + PartialEq {
    const NAME: &'static str;

    /// Writes the session into the buffer; gives how many bytes, if it is not refused.
    fn save(&self, n: usize, clauses: &Clauses, text: &mut [u8]) -> Option<usize>;

    /// Reads a text into clauses and memory of its lengths; says whether it is not refused.
    fn read(&mut self, n: usize, clauses: &mut Clauses, text: &[u8]) -> bool;
}

/// The proved entries of a mode, with the chooser's slices and numbers in the order in which they are lent.
macro_rules! mode {
    ($memory:ident, $name:literal, $save:path, $read:path, ($($slice:ident),*), ($($number:ident),*)) => {
        impl Proved for $memory {
            const NAME: &'static str = $name;

            fn save(&self, n: usize, clauses: &Clauses, text: &mut [u8]) -> Option<usize> {
                let (lits, ends, t, mut written) = (&clauses.lits, &clauses.ends, &self.trail, 0);
                // SAFETY: each pointer is followed by the length of what it points to, or points to a number; what is written overlaps nothing else.
                let status = unsafe {
                    $save(
                        n as u32, lits.len() as u32, ends.len() as u32, lits.as_ptr(), lits.len(), ends.as_ptr(), ends.len(),
                        t.values.as_ptr(), n, t.levels.as_ptr(), n, t.reasons.as_ptr(), n, t.trail.as_ptr(), n, t.opened.as_ptr(), n,
                        $(self.$slice.as_ptr(), n,)*
                        t.len, t.level, t.curr_i, $(self.$number,)*
                        text.as_mut_ptr(), text.len(), &mut written,
                    )
                };
                Some(written as usize).filter(|_| status == 0)
            }

            fn read(&mut self, n: usize, clauses: &mut Clauses, text: &[u8]) -> bool {
                let (lits, ends, t) = (&mut clauses.lits, &mut clauses.ends, &mut self.trail);
                // SAFETY: as above.
                let status = unsafe {
                    $read(
                        text.as_ptr(), text.len(), lits.as_mut_ptr(), lits.len(), ends.as_mut_ptr(), ends.len(),
                        t.values.as_mut_ptr(), n, t.levels.as_mut_ptr(), n, t.reasons.as_mut_ptr(), n,
                        t.trail.as_mut_ptr(), n, t.opened.as_mut_ptr(), n,
                        $(self.$slice.as_mut_ptr(), n,)*
                        &mut t.len, &mut t.level, &mut t.curr_i, $(&mut self.$number,)*
                    )
                };
                status == 0
            }
        }
    };
}

mode!(HeapMemory, "heap", ffi::sigvort_heap_save, ffi::sigvort_heap_read, (activity, heap, indices, decision), (members, inc, decay));
mode!(ListMemory, "list", ffi::sigvort_list_save, ffi::sigvort_list_read, (next, prev, ts), (start, search, timestamp));

/// A session with as many clauses as variables, four literals in each, in which variables were bumped and moved, and half of them are assigned.
fn session<M: Proved>(n: usize) -> Session<M::Chooser> {
    let mut rng = Rng::new(10);
    let lits = (0..4 * n).map(|_| rng.below(2 * n) as u32).collect();
    let clauses = Clauses::new(lits, (1..=n).map(|clause| 4 * clause as u32).collect());
    let mut session = Session::new(clauses.formula(n).expect("the clauses are good"));
    let mut call = |call: Call<'_>| session.call(call).is_ok_and(|reply| reply.is_some() || !matches!(call, Call::Decide(_)));
    for _ in 0..2 * n {
        let var = rng.below(n);
        for bump in [Call::Bump(var), Call::Group(&[var]), Call::Decay] {
            call(bump);
        }
    }
    let mut assigned = 0;
    while assigned < n / 2 {
        let lit = Lit::from_code(rng.below(2 * n) as u32);
        let next = if rng.chance(1, 4) { Call::Decide(1) } else { Call::Enqueue(lit, Some(rng.below(n))) };
        assigned += usize::from(call(next));
    }
    session
}

/// The mean time over so many turns.
fn time(turn: &mut dyn FnMut(), turns: u32) -> Duration {
    let start = thread_time();
    (0..turns).for_each(|_| turn());
    (thread_time() - start) / turns
}

/// The median times of the reference and of the proved chooser.
fn measure(mut both: [&mut dyn FnMut(); 2]) -> [Duration; 2] {
    let turns = both.each_mut().map(|turn| (SAMPLE.as_nanos() / time(*turn, 3).as_nanos().max(1)).clamp(1, 100_000) as u32);
    let mut samples = [Vec::new(), Vec::new()];
    for _ in 0..SAMPLES {
        for i in 0..2 {
            samples[i].push(time(both[i], turns[i]));
        }
    }
    samples.map(median)
}

fn row(name: String, bytes: usize, both: [&mut dyn FnMut(); 2]) {
    let [reference, proved] = measure(both).map(|time| time.as_secs_f64() * 1e9);
    println!("{name:<34} {bytes:>7} {reference:>14.0} {proved:>12.0} {:>7.2}", proved / reference);
}

fn rows<M: Proved>(n: usize) {
    let session = session::<M>(n);
    let (clauses, memory) = (Clauses::of(session.formula()), M::of(&session));
    let (mut text, mut buffer) = (Vec::new(), vec![0; saved::bound_of(&session)]);
    saved::save(&session, &mut text);
    let written = memory.save(n, &clauses, &mut buffer).expect("the memory is good");
    assert!(buffer[..written] == text, "the texts differ");
    let read = saved::read::<M::Chooser>(&text).unwrap_or_else(|refusal| panic!("the text is refused: {refusal:?}"));
    let (mut lent_clauses, mut lent) = (clauses.clone(), memory.clone());
    assert!(lent.read(n, &mut lent_clauses, &text), "the text is refused");
    assert!(lent == M::of(&read) && lent_clauses == clauses, "what is read differs");

    let lent_well = || {
        let (clauses, memory) = (black_box(&clauses), black_box(&memory));
        memory.fits(n) && clauses.fits() && clauses.are_good(n) && memory.broken(Lent { n, clauses: clauses.ends.len() }).is_empty()
    };
    let mut kept = Vec::new();
    row(
        format!("{} written, N = {n}", M::NAME),
        text.len(),
        [
            &mut || {
                assert!(lent_well(), "the memory is good");
                saved::save(black_box(&session), black_box(&mut kept));
            },
            &mut || {
                black_box(black_box(&memory).save(n, &clauses, black_box(&mut buffer)));
            },
        ],
    );
    row(
        format!("{} read, N = {n}", M::NAME),
        text.len(),
        [&mut || drop(black_box(saved::read::<M::Chooser>(black_box(&text)))), &mut || {
            black_box(black_box(&mut lent).read(n, &mut lent_clauses, black_box(&text)));
        }],
    );
    carried::<M>(n, &text);
}

/// A decision, a way back and three bumps, in lines of a sheet, so many times.
fn calls(n: usize, times: usize) -> Vec<u8> {
    let mut rng = Rng::new(11);
    let turn = |_| format!("g\t1\nk\t0\nb\t{}\nb\t{}\nb\t{}\n", rng.below(n), rng.below(n), rng.below(n));
    (0..times).map(turn).collect::<String>().into_bytes()
}

/// A sheet that opens a session with n variables and does calls, its session saved at its end.
fn new<M: Proved>(n: usize) {
    let mode = if M::NAME == "heap" { "vsids" } else { "vmtf" };
    let sheet = [format!("n\t{n}\t{mode}\n").as_bytes(), &calls(n, 4)].concat();
    let (answers, text) = saved::run_new(&sheet).expect("the sheet is good");
    let mut buffers = Buffers::new(&sheet, saved::bound(n, 0, 0));
    assert!(buffers.run_new(&sheet) && buffers.hold(&answers, &text), "answers or texts differ");
    row(
        format!("{} sheet and its text, N = {n}", M::NAME),
        sheet.len() + text.len(),
        [&mut || drop(black_box(saved::run_new(black_box(&sheet)))), &mut || {
            black_box(buffers.run_new(black_box(&sheet)));
        }],
    );
}

/// A sheet of calls on a text.
fn carried<M: Proved>(n: usize, old: &[u8]) {
    let sheet = calls(n, 4);
    let (answers, text) = saved::carry_on(old, &sheet).expect("text and sheet are good");
    let counts = saved::counts(old).expect("the text has its lines");
    let mut buffers = Buffers::new(&sheet, saved::bound(n, counts.clauses, counts.literals));
    assert!(buffers.run_on(old, &sheet) && buffers.hold(&answers, &text), "answers or texts differ");
    row(
        format!("{} carried on, N = {n}", M::NAME),
        old.len() + sheet.len() + text.len(),
        [&mut || drop(black_box(saved::carry_on(black_box(old), black_box(&sheet)))), &mut || {
            black_box(buffers.run_on(black_box(old), black_box(&sheet)));
        }],
    );
}

/// What a run writes: answers, the text of its session, and how long they are.
struct Buffers {
    answers: Vec<u8>,
    text: Vec<u8>,
    lengths: [u32; 2],
}

impl Buffers {
    fn new(sheet: &[u8], bound: usize) -> Self {
        let newlines = sheet.iter().filter(|&&byte| byte == b'\n').count();
        Buffers { answers: vec![0; ANSWER_ROOM * newlines], text: vec![0; bound], lengths: [0; 2] }
    }

    /// Says whether the run is not refused.
    fn run_new(&mut self, sheet: &[u8]) -> bool {
        let Buffers { answers, text, lengths: [told, written] } = self;
        // SAFETY: each pointer is followed by the length of what it points to, or points to a number; what is written overlaps nothing else.
        *told = unsafe {
            ffi::sigvort_run_new(
                sheet.as_ptr(), sheet.len(), answers.as_mut_ptr(), answers.len(), text.as_mut_ptr(), text.len(), written,
            )
        };
        *told as usize <= answers.len()
    }

    fn run_on(&mut self, old: &[u8], sheet: &[u8]) -> bool {
        let Buffers { answers, text, lengths: [told, written] } = self;
        // SAFETY: as above.
        *told = unsafe {
            ffi::sigvort_run_on(
                old.as_ptr(), old.len(), sheet.as_ptr(), sheet.len(), answers.as_mut_ptr(), answers.len(), text.as_mut_ptr(), text.len(), written,
            )
        };
        *told as usize <= answers.len()
    }

    /// Whether these were written.
    fn hold(&self, answers: &[u8], text: &[u8]) -> bool {
        let [told, written] = self.lengths.map(|length| length as usize);
        self.answers[..told] == *answers && self.text[..written] == *text
    }
}

/// Prints the times of a session written, of its text read and of sheets with saved sessions, by mode and number of variables.
pub fn table() {
    println!("{:<34} {:>7} {:>14} {:>12} {:>7}", "saved sessions", "bytes", "reference, ns", "proved, ns", "ratio");
    for n in [3, 64, 480, 2048] {
        rows::<HeapMemory>(n);
        new::<HeapMemory>(n);
    }
    for n in [3, 64, 480, 2048] {
        rows::<ListMemory>(n);
        new::<ListMemory>(n);
    }
}
