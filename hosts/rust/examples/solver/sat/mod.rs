//! The solver without its command line: a formula and a chooser in, an outcome out.

mod cdcl;
mod choosers;
mod clauses;
mod restarts;

pub use choosers::{Chooser, ProvedHeap, ReferenceHeap};

use sigvort::Lit;

/// A conjunction of clauses, each a disjunction of literals. Variables are numbered from 0. The literals are the chooser's own, which go
/// over as they are.
pub struct Formula {
    pub num_vars: u32,
    pub clauses: Vec<Vec<Lit>>,
}

/// What a formula was found to be. A model has one literal for each variable, in their order.
#[derive(Debug, PartialEq, Eq)]
pub enum Outcome {
    Satisfiable(Vec<Lit>),
    Unsatisfiable,
}

/// What a run was made of.
#[derive(Clone, Copy, Debug, Default, PartialEq, Eq)]
pub struct Stats {
    pub decisions: u64,
    pub conflicts: u64,
    pub propagations: u64,
    /// The lists of calls that went over to the chooser.
    pub lists: u64,
}

/// Solves a formula with a chooser that is fresh and has as many variables.
pub fn solve(formula: &Formula, chooser: impl Chooser) -> (Outcome, Stats) {
    cdcl::Solver::new(formula, chooser).solve()
}
