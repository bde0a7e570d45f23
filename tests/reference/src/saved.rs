//! The saved session: a session of either mode written as text and read back, and sheets that begin or go on with one. docs/SAVED.md has the
//! lines of the text and what is refused.

mod heap;
mod list;
mod reader;
#[cfg(test)]
mod tests;
mod writer;

pub use crate::sheet::Mode;

use crate::{
    decision::Decisions,
    formula::{Formula, MAX_CLAUSES, MAX_LITERALS},
    lit::Lit,
    refusal::Refusal,
    session::{Live, Session},
    sheet::{newlines, run_on, run_to_end, ANSWER_ROOM, MAX_SHEET, MAX_VARIABLES},
    trail::Trail,
    vmtf::VMTF,
    vsids::VSIDS,
    INVALID,
};
use reader::Reader;
use writer::Writer;

/// A chooser whose lines can be written and read.
pub trait Saved: Decisions + Sized {
    const MODE: Mode;
    /// The chooser's lines as they stand in a text.
    type Lines;

    fn write(&self, writer: &mut Writer);

    /// Reads the lines for n variables, or says 15.
    fn read(reader: &mut Reader, n: u32) -> Result<Self::Lines, Refusal>;

    /// The chooser that the lines hold beside a good trail, or 7.
    fn of(lines: Self::Lines, trail: &Trail) -> Result<Self, Refusal>;
}

/// What a text says of its size. Nothing is sure of the state that it holds.
#[derive(Clone, Copy, Debug, PartialEq, Eq)]
pub struct Counts {
    pub mode: Mode,
    pub n: u32,
    pub clauses: usize,
    pub literals: usize,
}

/// The most bytes that the text of a session over n variables has, with so many clauses and so many literals in all of them.
pub fn bound(n: usize, clauses: usize, literals: usize) -> usize {
    80 + 41 * n + 2 * clauses + 5 * literals
}

/// The bound for a session.
pub fn bound_of<D>(session: &Session<D>) -> usize {
    let formula = &session.formula;
    bound(formula.num_vars, formula.num_clauses(), formula.lits().len())
}

/// Writes a session's text into the vector, in place of what it held.
pub fn save<D: Saved>(session: &Session<D>, text: &mut Vec<u8>) {
    let Session { formula, trail, decisions } = session;
    text.resize(bound_of(session), 0);
    let mut writer = Writer::new(text);
    writer.heading(formula.num_vars, D::MODE);
    for cref in 0..formula.num_clauses() {
        write_codes(b'c', formula.clause(cref), &mut writer);
    }
    write_codes(b't', &trail.trail, &mut writer);
    writer.line(b'l', &trail.trail, |writer, lit| writer.number(trail.lit_to_level[lit.index()]));
    writer.line(b'r', &trail.trail, |writer, lit| writer.number_or_none(trail.lit_to_reason[lit.index()]));
    writer.line(b'q', [trail.curr_i as u32], Writer::number);
    decisions.write(&mut writer);
    let len = writer.len();
    text.truncate(len);
}

fn write_codes(letter: u8, lits: &[Lit], writer: &mut Writer) {
    writer.line(letter, lits, |writer, lit| writer.number(lit.code()));
}

/// The text of a session of either mode.
pub fn text_of(live: &Live) -> Vec<u8> {
    let mut text = Vec::new();
    match live {
        Live::Heap(session) => save(session, &mut text),
        Live::List(session) => save(session, &mut text),
    }
    text
}

/// Reads a session of one mode, or says the first refusal of 15, 4, 6 and 7.
pub fn read<D: Saved>(text: &[u8]) -> Result<Session<D>, Refusal> {
    Lines::<D>::read(text)?.session()
}

/// Reads a session of whichever mode the text is in.
pub fn read_either(text: &[u8]) -> Result<Live, Refusal> {
    match Reader::new(text).heading()? {
        (_, Mode::Vsids) => read(text).map(Live::Heap),
        (_, Mode::Vmtf) => read(text).map(Live::List),
    }
}

/// The counts of a text that has its lines, or 15.
pub fn counts(text: &[u8]) -> Result<Counts, Refusal> {
    match Reader::new(text).heading()? {
        (_, Mode::Vsids) => Lines::<VSIDS>::read(text).map(|lines| lines.counts()),
        (_, Mode::Vmtf) => Lines::<VMTF>::read(text).map(|lines| lines.counts()),
    }
}

/// Runs a sheet. Gives its answers and the text of its session at the end, which is empty where the first line is refused or missing.
pub fn run_new(sheet: &[u8]) -> Result<(Vec<u8>, Vec<u8>), Refusal> {
    let mut answers = vec![0; ANSWER_ROOM * newlines(sheet)];
    let mut text = Vec::new();
    let len = run_to_end(sheet, &mut answers, |live| text = text_of(&live))?;
    answers.truncate(len);
    Ok((answers, text))
}

/// Goes on with the session of a text, on a sheet that has nothing but calls. Gives its answers and the session's text at the end.
pub fn carry_on(text: &[u8], sheet: &[u8]) -> Result<(Vec<u8>, Vec<u8>), Refusal> {
    check(sheet.len() <= MAX_SHEET, Refusal::SheetTooLong)?;
    let mut live = read_either(text)?;
    let mut answers = vec![0; ANSWER_ROOM * newlines(sheet)];
    let len = run_on(&mut live, sheet, &mut answers)?;
    answers.truncate(len);
    Ok((answers, text_of(&live)))
}

/// The lines of a text as they stand, of any N and any counts.
struct Lines<D: Saved> {
    n: u32,
    lits: Vec<Lit>,
    ends: Vec<usize>,
    trail: Vec<Lit>,
    levels: Vec<u32>,
    reasons: Vec<usize>,
    curr_i: u32,
    chooser: D::Lines,
}

impl<D: Saved> Lines<D> {
    fn read(text: &[u8]) -> Result<Self, Refusal> {
        let mut reader = Reader::new(text);
        let (n, mode) = reader.heading()?;
        check(mode == D::MODE, Refusal::Saved)?;
        let (mut lits, mut ends) = (Vec::new(), Vec::new());
        while reader.has_line(b'c') {
            reader.append(b'c', &mut lits, lit)?;
            ends.push(lits.len());
        }
        let trail = reader.all(b't', room(n), lit)?;
        let levels = reader.all(b'l', trail.len(), Reader::number)?;
        let reasons = reader.all(b'r', trail.len(), Reader::number_or_none)?;
        check(levels.len() == trail.len() && reasons.len() == trail.len(), Refusal::Saved)?;
        let curr_i = reader.one(b'q', Reader::number)?;
        let chooser = D::read(&mut reader, n)?;
        reader.end()?;
        Ok(Lines { n, lits, ends, trail, levels, reasons, curr_i, chooser })
    }

    fn counts(&self) -> Counts {
        Counts { mode: D::MODE, n: self.n, clauses: self.ends.len(), literals: self.lits.len() }
    }

    /// The session, or the first refusal of 4, 6 and 7.
    fn session(self) -> Result<Session<D>, Refusal> {
        let num_vars = self.n as usize;
        check(num_vars <= MAX_VARIABLES, Refusal::TooManyVariables)?;
        check(self.ends.len() <= MAX_CLAUSES && self.lits.len() <= MAX_LITERALS, Refusal::ClauseList)?;
        check(self.lits.iter().all(|lit| lit.index() < num_vars), Refusal::ClauseList)?;
        let trail = self.trail(num_vars)?;
        let decisions = D::of(self.chooser, &trail)?;
        Ok(Session { formula: Formula { num_vars, lits: self.lits, ends: self.ends }, trail, decisions })
    }

    /// The trail, its literals taken one after the other, or 7.
    fn trail(&self, num_vars: usize) -> Result<Trail, Refusal> {
        let mut trail = Trail::new(num_vars);
        for ((&lit, &level), &reason) in self.trail.iter().zip(&self.levels).zip(&self.reasons) {
            check(lit.index() < num_vars && !trail.assignments.is_assigned(lit.index()), Refusal::State)?;
            check(reason == INVALID || reason < self.ends.len(), Refusal::State)?;
            if level == trail.decision_level() + 1 {
                trail.decisions.push(trail.trail.len());
            }
            check(level == trail.decision_level(), Refusal::State)?;
            trail.enq_assignment(lit, reason);
        }
        trail.curr_i = self.curr_i as usize;
        check(trail.curr_i <= trail.trail.len(), Refusal::State)?;
        Ok(trail)
    }
}

#[inline]
fn lit(reader: &mut Reader) -> Result<Lit, Refusal> {
    reader.number().map(Lit::from_code)
}

/// The room for a line of n fields; a text may say any n.
fn room(n: u32) -> usize {
    MAX_VARIABLES.min(n as usize)
}

fn check(holds: bool, refusal: Refusal) -> Result<(), Refusal> {
    if holds {
        Ok(())
    } else {
        Err(refusal)
    }
}
