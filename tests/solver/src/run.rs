//! Runs of the solver, and what is to hold of each.

use crate::formulas::Formula;
use std::{
    io::Write,
    path::PathBuf,
    process::{Command, Output, Stdio},
};

/// What the solver says of a formula; where it is satisfiable, with a model.
#[derive(Debug, PartialEq, Eq)]
pub enum Answer {
    Satisfiable(Vec<i32>),
    Unsatisfiable,
}

/// The figures that a run tells.
#[derive(Debug, PartialEq, Eq)]
pub struct Stats {
    pub decisions: u64,
    pub conflicts: u64,
    pub propagations: u64,
    pub lists: u64,
}

pub struct Solver(pub PathBuf);

impl Solver {
    /// Runs the solver with a text on standard input.
    pub fn run(&self, arguments: &[&str], input: &[u8]) -> Output {
        let mut command = Command::new(&self.0);
        let mut child = command
            .args(arguments)
            .stdin(Stdio::piped())
            .stdout(Stdio::piped())
            .stderr(Stdio::piped())
            .spawn()
            .expect("the solver can be run");
        // a solver that has no use for its input may close it
        let _ = child.stdin.take().expect("the input is a pipe").write_all(input);
        child.wait_with_output().expect("the solver ends")
    }

    /// Solves a formula with a chooser. The answer has its form, and a model makes the formula true.
    pub fn solve(&self, chooser: &str, formula: &Formula, text: &[u8]) -> Result<(Answer, Stats), String> {
        let output = self.run(&["--chooser", chooser, "--stats", "-"], text);
        let (said, told) = (String::from_utf8_lossy(&output.stdout), String::from_utf8_lossy(&output.stderr));
        let status = output.status.code();
        let answer = read_answer(&said).filter(|answer| status == Some(if *answer == Answer::Unsatisfiable { 20 } else { 10 }));
        let (Some(answer), Some(stats)) = (answer, read_stats(&told)) else {
            return Err(format!("{chooser}: not an answer with its status: {status:?}\n{said}{told}"));
        };
        if let Answer::Satisfiable(model) = &answer {
            let vars: Vec<usize> = model.iter().map(|lit| lit.unsigned_abs() as usize).collect();
            if vars != (1..=formula.num_vars).collect::<Vec<usize>>() {
                return Err(format!("{chooser}: not a literal of each variable\n{said}"));
            }
            if !formula.holds(model) {
                return Err(format!("{chooser}: not a model\n{said}"));
            }
        }
        Ok((answer, stats))
    }

    /// Solves a formula with both choosers, which decide by the same rules: answers, models and figures are the same. The proved one has
    /// one list of calls for each decision and at most one more, which says that there is none.
    pub fn solve_with_both(&self, formula: &Formula, text: &[u8]) -> Result<bool, String> {
        let (answer, stats) = self.solve("vsids", formula, text)?;
        let (other, others) = self.solve("reference", formula, text)?;
        if (&answer, &Stats { lists: 0, ..stats }) != (&other, &others) {
            return Err(format!("vsids: {answer:?}\n{stats:?}\nreference: {other:?}\n{others:?}"));
        }
        let is_satisfiable = answer != Answer::Unsatisfiable;
        if stats.lists != stats.decisions + u64::from(is_satisfiable) {
            return Err(format!("lists of calls that no decision needs: {stats:?}"));
        }
        Ok(is_satisfiable)
    }
}

/// An answer in the form of SAT competitions.
fn read_answer(text: &str) -> Option<Answer> {
    let mut lines = text.strip_suffix('\n')?.split('\n');
    match lines.next()? {
        "s UNSATISFIABLE" => lines.next().is_none().then_some(Answer::Unsatisfiable),
        "s SATISFIABLE" => {
            let mut numbers: Vec<i32> = Vec::new();
            for line in lines {
                let fields = line.strip_prefix("v ").filter(|_| line.len() < 78)?;
                for field in fields.split(' ') {
                    numbers.push(field.parse().ok()?);
                }
            }
            (numbers.pop() == Some(0)).then_some(Answer::Satisfiable(numbers))
        }
        _ => None,
    }
}

fn read_stats(text: &str) -> Option<Stats> {
    let mut lines = text.lines();
    let mut figure = |name: &str| lines.next()?.strip_prefix(name)?.strip_prefix(' ');
    let stats = Stats {
        decisions: figure("decisions")?.parse().ok()?,
        conflicts: figure("conflicts")?.parse().ok()?,
        propagations: figure("propagations")?.parse().ok()?,
        lists: figure("lists")?.parse().ok()?,
    };
    figure("seconds")?.parse::<f64>().ok()?;
    lines.next().is_none().then_some(stats)
}
