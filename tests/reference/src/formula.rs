use crate::{lit::Lit, refusal::Refusal};

pub const MAX_CLAUSES: usize = 2048;
pub const MAX_LITERALS: usize = 8192;

/// The clauses of a session: all literals in one vector, and where each clause ends in it.
pub struct Formula {
    pub num_vars: usize,
    pub(crate) lits: Vec<Lit>,
    pub(crate) ends: Vec<usize>,
}

impl Formula {
    pub fn new(num_vars: usize) -> Self {
        Formula { num_vars, lits: Vec::new(), ends: Vec::new() }
    }

    /// The number of clauses.
    pub fn num_clauses(&self) -> usize {
        self.ends.len()
    }

    /// The literals of all clauses.
    pub fn lits(&self) -> &[Lit] {
        &self.lits
    }

    /// The literals of one clause.
    pub fn clause(&self, cref: usize) -> &[Lit] {
        let start = if cref == 0 { 0 } else { self.ends[cref - 1] };
        &self.lits[start..self.ends[cref]]
    }

    /// Adds a clause, read one literal at a time; where one cannot be read or the list would break a limit, the list stays as it was.
    pub fn add_clause(&mut self, lits: impl Iterator<Item = Result<Lit, Refusal>>) -> Result<(), Refusal> {
        let start = self.lits.len();
        let added = self.push_lits(lits).and_then(|()| self.check_clause_invariant(start));
        match added {
            Ok(()) => self.ends.push(self.lits.len()),
            Err(_) => self.lits.truncate(start),
        }
        added
    }

    fn push_lits(&mut self, lits: impl Iterator<Item = Result<Lit, Refusal>>) -> Result<(), Refusal> {
        for lit in lits {
            self.lits.push(lit?);
        }
        Ok(())
    }

    fn check_clause_invariant(&self, start: usize) -> Result<(), Refusal> {
        let fits = self.num_clauses() < MAX_CLAUSES && self.lits.len() <= MAX_LITERALS;
        if fits && self.lits[start..].iter().all(|lit| lit.index() < self.num_vars) {
            Ok(())
        } else {
            Err(Refusal::ClauseList)
        }
    }
}
