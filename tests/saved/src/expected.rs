//! What each entry has to do, by the reference.

use crate::{
    lent::{Counts, Output, Run},
    memory::{Parts, Request},
};
use reference::{
    native::{self, Clauses},
    saved::{self, Mode, Saved},
    session::Refusal,
    ANSWER_ROOM, MAX_SHEET,
};

const MAX_VARIABLES: u32 = 2048;

/// A mode whose sessions can be written and read.
pub trait Kind: Parts<Chooser: Saved> {}
impl<M: Parts<Chooser: Saved>> Kind for M {}

fn status<T>(outcome: Result<T, Refusal>) -> u32 {
    native::status(outcome.map(|_| ()))
}

/// What a run returns where it is refused.
pub fn refused(refusal: Refusal) -> u32 {
    u32::MAX - refusal as u32
}

pub fn counts(text: &[u8], counts: &mut Counts) -> u32 {
    let found = saved::counts(text);
    if let Ok(saved::Counts { mode, n, clauses, literals }) = found {
        *counts = Counts { list: (mode == Mode::Vmtf).into(), n, literals: literals as u64, clauses: clauses as u64 };
    }
    status(found)
}

/// The text of a request's session, or the refusal of its memory.
pub fn text<M: Kind>(request: &Request<M>) -> Result<Vec<u8>, Refusal> {
    let Request { n, clauses, memory, .. } = request;
    // a list without calls is refused as any other, and does nothing
    native::calls(*n, clauses, &mut memory.clone(), &[], &[], &mut [])?;
    let mut text = Vec::new();
    saved::save(&memory.session(clauses.formula(*n as usize)?), &mut text);
    Ok(text)
}

pub fn save<M: Kind>(request: &Request<M>, output: &mut Output) -> u32 {
    let fitting = text(request).and_then(|text| if text.len() <= output.text.len() { Ok(text) } else { Err(Refusal::BufferTooShort) });
    if let Ok(text) = &fitting {
        output.put(text);
    }
    status(fitting)
}

pub fn read<M: Kind>(text: &[u8], request: &mut Request<M>) -> u32 {
    status(read_session(text, request))
}

fn read_session<M: Kind>(text: &[u8], request: &mut Request<M>) -> Result<(), Refusal> {
    let counts = saved::counts(text)?;
    let Request { clauses, memory, .. } = request;
    if counts.mode != <M::Chooser as Saved>::MODE {
        return Err(Refusal::Saved);
    }
    if counts.n > MAX_VARIABLES {
        return Err(Refusal::TooManyVariables);
    }
    if !memory.fits(counts.n as usize) || clauses.lits.len() != counts.literals || clauses.ends.len() != counts.clauses {
        return Err(Refusal::Length);
    }
    let session = saved::read(text)?;
    (*clauses, *memory) = (Clauses::of(session.formula()), M::of(&session));
    Ok(())
}

/// Checks the sheet and the room for its answers.
fn check_sheet(sheet: &[u8], run: &Run) -> Result<(), Refusal> {
    let newlines = sheet.iter().filter(|&&byte| byte == b'\n').count();
    if sheet.len() > MAX_SHEET {
        Err(Refusal::SheetTooLong)
    } else if run.answers.len() < ANSWER_ROOM * newlines {
        Err(Refusal::BufferTooShort)
    } else {
        Ok(())
    }
}

/// The longest text that a session of a text's counts can have.
pub fn bound(text: &[u8]) -> usize {
    saved::counts(text).map_or(0, |counts| saved::bound(counts.n as usize, counts.clauses, counts.literals))
}

/// Writes answers and text, or refuses where the buffer is shorter than the bound for the session.
fn finish(run: &mut Run, (answers, text): (Vec<u8>, Vec<u8>)) -> Result<u32, Refusal> {
    if run.output.text.len() < bound(&text) {
        return Err(Refusal::BufferTooShort);
    }
    run.answers[..answers.len()].copy_from_slice(&answers);
    run.output.put(&text);
    Ok(answers.len() as u32)
}

pub fn run_new(sheet: &[u8], run: &mut Run) -> u32 {
    let done = check_sheet(sheet, run).and_then(|()| saved::run_new(sheet));
    done.and_then(|done| finish(run, done)).unwrap_or_else(refused)
}

pub fn run_on(old: &[u8], sheet: &[u8], run: &mut Run) -> u32 {
    let done = check_sheet(sheet, run).and_then(|()| saved::carry_on(old, sheet));
    done.and_then(|done| finish(run, done)).unwrap_or_else(refused)
}
