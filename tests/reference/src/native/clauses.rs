use crate::{
    formula::{Formula, MAX_CLAUSES, MAX_LITERALS},
    lit::Lit,
    refusal::Refusal,
};

/// A clause list as it is lent: the codes of all clauses, where each ends, and the stated counts of both.
#[derive(Clone, Debug, Default, PartialEq, Eq)]
pub struct Clauses {
    pub literals: u32,
    pub clauses: u32,
    pub lits: Vec<u32>,
    pub ends: Vec<u32>,
}

impl Clauses {
    /// The clauses with their counts as they are.
    pub fn new(lits: Vec<u32>, ends: Vec<u32>) -> Self {
        Clauses { literals: lits.len() as u32, clauses: ends.len() as u32, lits, ends }
    }

    /// The clauses that a session has.
    pub fn of(formula: &Formula) -> Self {
        let lits = formula.lits.iter().map(|lit| lit.code()).collect();
        Clauses::new(lits, formula.ends.iter().map(|&end| end as u32).collect())
    }

    /// Whether the stated counts are those of the slices.
    pub fn fits(&self) -> bool {
        self.lits.len() == self.literals as usize && self.ends.len() == self.clauses as usize
    }

    /// Whether the clauses are good over n variables.
    pub fn are_good(&self, n: usize) -> bool {
        let few = self.ends.len() <= MAX_CLAUSES && self.lits.len() <= MAX_LITERALS;
        let rising = self.ends.windows(2).all(|pair| pair[0] <= pair[1]);
        let last = self.ends.last().copied().unwrap_or(0);
        let below = self.lits.iter().all(|code| code / 2 < n as u32);
        few && rising && last as usize == self.lits.len() && below
    }

    /// The clauses as a session has them, over n variables.
    pub fn formula(&self, n: usize) -> Result<Formula, Refusal> {
        if !self.are_good(n) {
            return Err(Refusal::ClauseList);
        }
        let lits = self.lits.iter().copied().map(Lit::from_code).collect();
        let ends = self.ends.iter().map(|&end| end as usize).collect();
        Ok(Formula { num_vars: n, lits, ends })
    }
}
