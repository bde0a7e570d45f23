//! The proved entries of the saved session, on memory between guards. An error says which guard was touched.

use crate::{
    expected::Kind,
    ffi,
    guarded::{Guarded, Guards},
    lent::{Counts, Output, Run},
    memory::Request,
    proved::{Common, Proved},
};
use reference::native::{HeapMemory, ListMemory};

/// A mode with the entries that write and read it.
pub trait Entries: Proved + Kind {
    /// Writes a request's session. What is only read comes back too.
    fn save(request: &mut Request<Self>, output: &mut Output, guards: Guards) -> Result<u32, String>;

    /// Reads a text into a request's clauses and memory.
    fn read(text: &[u8], request: &mut Request<Self>, guards: Guards) -> Result<u32, String>;
}

/// A buffer for a text while it is lent.
struct LentOutput {
    text: Guarded<u8>,
    written: Guarded<u32>,
}

impl LentOutput {
    fn lend(output: &Output, guards: Guards) -> Self {
        LentOutput { text: guards.lend(&output.text), written: guards.lend_one(output.written) }
    }

    fn back(self, output: &mut Output) -> Result<(), String> {
        *output = Output { text: self.text.back("text")?, written: self.written.back_one("written")? };
        Ok(())
    }
}

/// Says where bytes that are only read were written.
fn must_stay(name: &str, lent: Guarded<u8>, before: &[u8]) -> Result<(), String> {
    if lent.back(name)? == before {
        Ok(())
    } else {
        Err(format!("{name} was written"))
    }
}

pub fn counts(text: &[u8], counts: &mut Counts, guards: Guards) -> Result<u32, String> {
    let mut lent = guards.lend(text);
    let (mut list, mut n) = (guards.lend_one(counts.list), guards.lend_one(counts.n));
    let (mut literals, mut clauses) = (guards.lend_one(counts.literals), guards.lend_one(counts.clauses));
    // SAFETY: the text has this length, the others are numbers, and what is written overlaps nothing else.
    let status = unsafe { ffi::sigvort_saved_counts(lent.at(), lent.len(), list.at(), n.at(), literals.at(), clauses.at()) };
    must_stay("text", lent, text)?;
    let (list, n) = (list.back_one("list")?, n.back_one("n")?);
    *counts = Counts { list, n, literals: literals.back_one("literals")?, clauses: clauses.back_one("clauses")? };
    Ok(status)
}

pub fn run_new(sheet: &[u8], run: &mut Run, guards: Guards) -> Result<u32, String> {
    let (mut lent, mut answers, mut out) = (guards.lend(sheet), guards.lend(&run.answers), LentOutput::lend(&run.output, guards));
    // SAFETY: each slice has its length, written is a number, and what is written overlaps nothing else.
    let returned = unsafe {
        ffi::sigvort_run_new(lent.at(), lent.len(), answers.at(), answers.len(), out.text.at(), out.text.len(), out.written.at())
    };
    must_stay("sheet", lent, sheet)?;
    run.answers = answers.back("answers")?;
    out.back(&mut run.output)?;
    Ok(returned)
}

#[rustfmt::skip]
pub fn run_on(old: &[u8], sheet: &[u8], run: &mut Run, guards: Guards) -> Result<u32, String> {
    let (mut text, mut lent) = (guards.lend(old), guards.lend(sheet));
    let (mut answers, mut out) = (guards.lend(&run.answers), LentOutput::lend(&run.output, guards));
    // SAFETY: each slice has its length, written is a number, and what is written overlaps nothing else.
    let returned = unsafe {
        ffi::sigvort_run_on(
            text.at(), text.len(), lent.at(), lent.len(), answers.at(), answers.len(), out.text.at(), out.text.len(), out.written.at(),
        )
    };
    must_stay("old text", text, old)?;
    must_stay("sheet", lent, sheet)?;
    run.answers = answers.back("answers")?;
    out.back(&mut run.output)?;
    Ok(returned)
}

/// The slices of clauses and trail, each with its length.
macro_rules! call {
    ($entry:path, ($($first:expr),*), $common:ident, ($($slice:ident),*), ($($last:expr),*)) => {
        // SAFETY: each pointer is followed by the length of what it points to, or points to a number; what is written overlaps nothing else.
        unsafe {
            $entry(
                $($first,)*
                $common.lits.at(), $common.lits.len(), $common.ends.at(), $common.ends.len(),
                $common.values.at(), $common.values.len(), $common.levels.at(), $common.levels.len(),
                $common.reasons.at(), $common.reasons.len(), $common.trail.at(), $common.trail.len(),
                $common.opened.at(), $common.opened.len(),
                $($slice.at(), $slice.len(),)*
                $($last,)*
            )
        }
    };
}

/// The entries of a mode, with the chooser's slices and numbers in the order in which they are lent.
macro_rules! mode {
    ($memory:ident, $save:path, $read:path, $slices:tt, ($($slice:ident),*), ($($number:ident),*)) => {
        impl Entries for $memory {
            fn save(request: &mut Request<Self>, output: &mut Output, guards: Guards) -> Result<u32, String> {
                let Request { n, clauses, memory, .. } = request;
                let mut common = Common::lend(clauses, &memory.trail, guards);
                $(let mut $slice = guards.lend(&memory.$slice);)*
                let mut out = LentOutput::lend(output, guards);
                let status = call!(
                    $save, (*n, clauses.literals, clauses.clauses), common, $slices,
                    (memory.trail.len, memory.trail.level, memory.trail.curr_i, $(memory.$number,)*
                     out.text.at(), out.text.len(), out.written.at())
                );
                common.back(clauses, &mut memory.trail)?;
                $(memory.$slice = $slice.back(stringify!($slice))?;)*
                out.back(output)?;
                Ok(status)
            }

            fn read(text: &[u8], request: &mut Request<Self>, guards: Guards) -> Result<u32, String> {
                let Request { clauses, memory, .. } = request;
                let mut lent = guards.lend(text);
                let mut common = Common::lend(clauses, &memory.trail, guards);
                $(let mut $slice = guards.lend(&memory.$slice);)*
                $(let mut $number = guards.lend_one(memory.$number);)*
                let status = call!(
                    $read, (lent.at(), lent.len()), common, $slices,
                    (common.len.at(), common.level.at(), common.curr_i.at(), $($number.at()),*)
                );
                must_stay("text", lent, text)?;
                common.back(clauses, &mut memory.trail)?;
                $(memory.$slice = $slice.back(stringify!($slice))?;)*
                $(memory.$number = $number.back_one(stringify!($number))?;)*
                Ok(status)
            }
        }
    };
    ($memory:ident, $save:path, $read:path, $slices:tt, $numbers:tt) => {
        mode!($memory, $save, $read, $slices, $slices, $numbers);
    };
}

mode!(HeapMemory, ffi::sigvort_heap_save, ffi::sigvort_heap_read, (activity, heap, indices, decision), (members, inc, decay));
mode!(ListMemory, ffi::sigvort_list_save, ffi::sigvort_list_read, (next, prev, ts), (start, search, timestamp));
