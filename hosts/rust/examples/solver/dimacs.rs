//! How DIMACS CNF writes formulas, and SAT competitions answers.

use crate::sat::{Formula, Outcome};
use sigvort::Lit;
use std::{
    io::{self, Write},
    mem,
};

/// A line of a model has fewer columns.
const COLUMNS: usize = 78;

/// Reads a formula: comments, a header `p cnf VARIABLES CLAUSES`, then so many clauses, each ended by 0, on as many lines as they like. A
/// line that begins with `%` ends the file, as some collections have it. Says what is wrong, and where.
pub fn parse(text: &str) -> Result<Formula, String> {
    let mut header = None;
    let mut clauses = Vec::new();
    let mut clause = Vec::new();
    for (above, line) in text.lines().enumerate().take_while(|(_, line)| !line.starts_with('%')) {
        let fields: Vec<&str> = line.split_ascii_whitespace().collect();
        let in_line = |what| format!("line {}: {what}", above + 1);
        match (fields.first(), header) {
            (None, _) => {}
            (Some(first), _) if first.starts_with('c') => {}
            (Some(&"p"), None) => header = Some(read_header(&fields).map_err(in_line)?),
            (Some(&"p"), Some(_)) => return Err(in_line("there is a second header".into())),
            (Some(_), None) => return Err(in_line("there is no header before it".into())),
            (Some(_), Some((num_vars, _))) => {
                for field in fields {
                    match read_lit(field, num_vars).map_err(in_line)? {
                        Some(lit) => clause.push(lit),
                        None => clauses.push(mem::take(&mut clause)),
                    }
                }
            }
        }
    }
    let (num_vars, announced) = header.ok_or("there is no header")?;
    if !clause.is_empty() {
        return Err("the last clause is not ended by 0".into());
    }
    if clauses.len() != announced as usize {
        return Err(format!("the header announces {announced} clauses, and there are {}", clauses.len()));
    }
    Ok(Formula { num_vars, clauses })
}

/// The numbers of variables and clauses.
fn read_header(fields: &[&str]) -> Result<(u32, u32), String> {
    if let ["p", "cnf", vars, clauses] = fields {
        if let (Ok(vars), Ok(clauses)) = (vars.parse(), clauses.parse()) {
            return Ok((vars, clauses));
        }
    }
    Err("the header is not \"p cnf VARIABLES CLAUSES\"".into())
}

/// A literal, or none for the 0 that ends a clause.
fn read_lit(field: &str, num_vars: u32) -> Result<Option<Lit>, String> {
    if field == "0" {
        return Ok(None);
    }
    let (positive, digits) = field.strip_prefix('-').map_or((true, field), |digits| (false, digits));
    match digits.parse() {
        Ok(var) if (1..=num_vars).contains(&var) => Ok(Some(Lit::new(var - 1, positive))),
        Ok(1..) => Err(format!("{field} is a literal of a variable above {num_vars}")),
        _ => Err(format!("\"{field}\" is not a literal")),
    }
}

/// A literal's variable, counted from 1, with its sign.
fn number(lit: Lit) -> i64 {
    let var = i64::from(lit.var()) + 1;
    if lit.is_positive() {
        var
    } else {
        -var
    }
}

/// Writes the answer: a line that begins with `s`, and for a model lines that begin with `v`, ended by 0.
pub fn write(out: &mut impl Write, outcome: &Outcome) -> io::Result<()> {
    let Outcome::Satisfiable(model) = outcome else {
        return writeln!(out, "s UNSATISFIABLE");
    };
    writeln!(out, "s SATISFIABLE")?;
    let mut line = String::from("v");
    for number in model.iter().map(|&lit| number(lit)).chain([0]) {
        let field = format!(" {number}");
        if line.len() + field.len() >= COLUMNS {
            writeln!(out, "{line}")?;
            line.truncate(1);
        }
        line += &field;
    }
    writeln!(out, "{line}")
}
