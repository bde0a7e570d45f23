//! Times the example solver with the proved chooser and with the reference on the same formulas, turn by turn. Both make the same
//! decisions; the proved one checks its memory for each of them, which the reference does not.

#[path = "../../hosts/rust/examples/solver/sat/mod.rs"]
mod sat;

use crate::{clock, median};
use reference::generator::Rng;
use sat::{solve, Formula, Outcome, ProvedHeap, ReferenceHeap, Stats};
use sigvort::Lit;
use std::{hint::black_box, time::Duration};

/// How many times each of the two is timed on the formulas of a row.
const SAMPLES: usize = 11;

/// Of each row: the variables, the clauses and the number of formulas, which differ in their seeds. Formulas with fewer than 4.26 clauses
/// for a variable are mostly satisfiable, those with more mostly not; the nearer to it, the harder. All formulas of a row take some 5 to
/// 200 ms.
const ROWS: [(u32, usize, u64); 10] = [
    (100, 426, 8),
    (100, 600, 8),
    (200, 800, 4),
    (200, 1300, 4),
    (300, 1140, 3),
    (300, 2400, 2),
    (400, 1480, 3),
    (400, 3600, 2),
    (480, 1728, 4),
    (480, 4800, 1),
];

type Solve = fn(&Formula) -> (Outcome, Stats);

const REFERENCE_AND_PROVED: [Solve; 2] = [
    |formula| solve(formula, ReferenceHeap::new(formula.num_vars)),
    |formula| solve(formula, ProvedHeap::new(formula.num_vars).expect("so many variables are taken")),
];

/// Clauses of three different variables with random signs.
fn random(num_vars: u32, clauses: usize, seed: u64) -> Formula {
    let mut rng = Rng::new(seed);
    let clause = |_| {
        let mut clause: Vec<Lit> = Vec::new();
        while clause.len() < 3 {
            let lit = Lit::new(rng.below(num_vars as usize) as u32, rng.chance(1, 2));
            if clause.iter().all(|other| other.var() != lit.var()) {
                clause.push(lit);
            }
        }
        clause
    };
    Formula { num_vars, clauses: (0..clauses).map(clause).collect() }
}

/// The lists of calls that the proved chooser gets for a formula. Outcome and decisions are those of the reference.
fn lists(formula: &Formula) -> u64 {
    let [(outcome, reference), (other, proved)] = REFERENCE_AND_PROVED.map(|solve| solve(formula));
    assert_eq!((outcome, reference.decisions, reference.conflicts), (other, proved.decisions, proved.conflicts), "both decide alike");
    proved.lists
}

fn time(solve: Solve, formulas: &[Formula]) -> Duration {
    let start = clock::thread_time();
    for formula in formulas {
        black_box(solve(black_box(formula)));
    }
    clock::thread_time() - start
}

/// The median times of the reference and of the proved chooser.
fn measure(formulas: &[Formula]) -> [Duration; 2] {
    let mut samples = [Vec::new(), Vec::new()];
    for _ in 0..SAMPLES {
        for (samples, solve) in samples.iter_mut().zip(REFERENCE_AND_PROVED) {
            samples.push(time(solve, formulas));
        }
    }
    samples.map(median)
}

pub fn table() {
    println!("{:<34} {:>7} {:>14} {:>12} {:>7}", "formulas solved", "lists", "reference, ms", "proved, ms", "ratio");
    for (num_vars, clauses, count) in ROWS {
        let formulas: Vec<Formula> = (1..=count).map(|seed| random(num_vars, clauses, seed)).collect();
        let lists: u64 = formulas.iter().map(lists).sum();
        let [reference, proved] = measure(&formulas).map(|time| time.as_secs_f64() * 1e3);
        let name = format!("N = {num_vars}, {count} of {clauses} clauses");
        println!("{name:<34} {lists:>7} {reference:>14.2} {proved:>12.2} {:>7.2}", proved / reference);
    }
}
