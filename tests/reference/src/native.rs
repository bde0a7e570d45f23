//! Sessions on lent memory: the memory of a session as flat slices, what makes it good, fresh sessions in it and lists of calls on it. A list
//! is refused whole (4, 5, 6 or 7, the first that fits), or each of its calls has an answer of its own.

mod calls;
mod clauses;
mod heap;
mod list;
#[cfg(test)]
mod tests;
mod trail;

pub use calls::{read_call, ANSWER_WORDS, CALL_WORDS, MAX_GROUP};
pub use clauses::Clauses;
pub use heap::HeapMemory;
pub use list::ListMemory;
pub use trail::TrailMemory;

use crate::{
    refusal::Refusal,
    session::{Decisions, Formula, Session},
    sheet::MAX_VARIABLES,
    INVALID,
};

/// The mark for no place, no variable and no reason, in 32 bits.
pub const NONE: u32 = u32::MAX;

/// A fact of a good state by its name, with a test of it that asks nothing of the other facts: memory for n variables in, lent with so many
/// clauses.
pub type Fact<M> = (&'static str, fn(&M, Lent) -> bool);

/// What a state is good for.
#[derive(Clone, Copy, Debug)]
pub struct Lent {
    pub n: usize,
    pub clauses: usize,
}

/// The memory of a session in one mode.
pub trait Memory: Clone {
    type Chooser: Decisions;

    /// Whether each slice has n places.
    fn fits(&self, n: usize) -> bool;

    /// The facts of the trail and of the chooser that do not hold, by name.
    fn broken(&self, lent: Lent) -> Vec<&'static str>;

    /// The session that good memory holds, over these clauses.
    fn session(&self, formula: Formula) -> Session<Self::Chooser>;

    /// The memory that holds a session, every place.
    fn of(session: &Session<Self::Chooser>) -> Self;
}

/// The names of the facts that do not hold.
fn broken<M>(facts: &[Fact<M>], memory: &M, lent: Lent) -> impl Iterator<Item = &'static str> {
    let names: Vec<_> = facts.iter().filter(|(_, holds)| !holds(memory, lent)).map(|(name, _)| *name).collect();
    names.into_iter()
}

/// Makes a fresh session in the memory, whatever it held.
pub fn fresh<M: Memory>(n: u32, clauses: &Clauses, memory: &mut M) -> Result<(), Refusal> {
    let n = number_of_variables(n)?;
    check_lengths(n, clauses, memory)?;
    *memory = M::of(&Session::new(clauses.formula(n)?));
    Ok(())
}

/// Does a list of calls on the memory: three words each, two words of answer each. Where it is refused, nothing is changed.
pub fn calls<M: Memory>(
    n: u32,
    clauses: &Clauses,
    memory: &mut M,
    vars: &[u32],
    words: &[u32],
    answers: &mut [u32],
) -> Result<(), Refusal> {
    let n = number_of_variables(n)?;
    check_lengths(n, clauses, memory)?;
    if !words.len().is_multiple_of(CALL_WORDS) || answers.len() != words.len() / CALL_WORDS * ANSWER_WORDS {
        return Err(Refusal::Length);
    }
    let formula = clauses.formula(n)?;
    if !memory.broken(Lent { n, clauses: formula.num_clauses() }).is_empty() {
        return Err(Refusal::State);
    }
    let mut session = memory.session(formula);
    calls::answer_all(&mut session, vars, words, answers);
    *memory = M::of(&session);
    Ok(())
}

/// What a list or a creation returns.
pub fn status(outcome: Result<(), Refusal>) -> u32 {
    outcome.map_or_else(|refusal| refusal as u32, |()| 0)
}

fn number_of_variables(n: u32) -> Result<usize, Refusal> {
    if n as usize <= MAX_VARIABLES {
        Ok(n as usize)
    } else {
        Err(Refusal::TooManyVariables)
    }
}

fn check_lengths(n: usize, clauses: &Clauses, memory: &impl Memory) -> Result<(), Refusal> {
    if memory.fits(n) && clauses.fits() {
        Ok(())
    } else {
        Err(Refusal::Length)
    }
}

/// Whether the places behind those in use hold NONE.
fn unused_is_none(places: &[u32], used: u32) -> bool {
    places.iter().skip(used as usize).all(|&place| place == NONE)
}

/// The places in use.
fn in_use(places: &[u32], used: u32) -> &[u32] {
    &places[..places.len().min(used as usize)]
}

/// A number of 32 bits as the session has it.
fn wide(number: u32) -> usize {
    if number == NONE {
        INVALID
    } else {
        number as usize
    }
}

/// A number of the session in 32 bits.
fn narrow(number: usize) -> u32 {
    if number == INVALID {
        NONE
    } else {
        number as u32
    }
}

fn all_wide(numbers: &[u32]) -> Vec<usize> {
    numbers.iter().copied().map(wide).collect()
}

fn all_narrow(numbers: &[usize]) -> Vec<u32> {
    numbers.iter().copied().map(narrow).collect()
}

/// The numbers at the front of n places, NONE behind them.
fn padded(numbers: impl Iterator<Item = u32>, n: usize) -> Vec<u32> {
    numbers.chain(std::iter::repeat(NONE)).take(n).collect()
}
