//! A search that is too plain to be wrong, for small formulas.

use crate::formulas::Formula;

pub fn is_satisfiable(formula: &Formula) -> bool {
    search(&formula.clauses)
}

/// Makes a literal of a shortest clause true, then false.
fn search(clauses: &[Vec<i32>]) -> bool {
    match clauses.iter().min_by_key(|clause| clause.len()) {
        None => true,
        Some(clause) if clause.is_empty() => false,
        Some(clause) if clause.len() == 1 => search(&given(clauses, clause[0])),
        Some(clause) => search(&given(clauses, clause[0])) || search(&given(clauses, -clause[0])),
    }
}

/// What is left of clauses where a literal is true.
fn given(clauses: &[Vec<i32>], lit: i32) -> Vec<Vec<i32>> {
    let open = clauses.iter().filter(|clause| !clause.contains(&lit));
    open.map(|clause| clause.iter().copied().filter(|&other| other != -lit).collect()).collect()
}
