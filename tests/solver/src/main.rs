//! Holds the example solver to formulas whose answers are known, with each chooser; to what it refuses, and to what README shows of it. The
//! first thing that is wrong ends the run.
//!
//! Usage, from the repository's root: solver SOLVER CHECKING, with two builds of the example; CHECKING, with debug assertions, looks after
//! each decision whether the chooser's trail is in step.

mod formulas;
mod plain;
mod run;

use formulas::{parity, pigeons, random, Formula};
use run::Solver;
use std::{
    env, fs,
    process::{Command, ExitCode, Stdio},
};

/// Clauses for each variable, where a random formula is as often satisfiable as not.
const THRESHOLD: f64 = 4.26;

/// What is wrong.
type Checked = Result<(), String>;

/// Solves a formula with both choosers, and holds the answer to the one that is known, if one is. What goes wrong comes with the formula.
fn check(solver: &Solver, name: &str, formula: &Formula, known: Option<bool>) -> Result<bool, String> {
    let text = formula.text();
    let failed = |what| format!("{name}: {what}\n{text}");
    let is_satisfiable = solver.solve_with_both(formula, text.as_bytes()).map_err(failed)?;
    match known {
        Some(known) if known != is_satisfiable => Err(failed(format!("satisfiable: {known}; it says {is_satisfiable}"))),
        _ => Ok(is_satisfiable),
    }
}

/// Random formulas that a plain search can answer.
fn small(solver: &Solver, checking: &Solver) -> Checked {
    let mut satisfiable = 0;
    for seed in 0..160 {
        let formula = random(20 + seed as usize % 41, THRESHOLD, seed);
        let known = plain::is_satisfiable(&formula);
        satisfiable += u32::from(known);
        for solver in [solver, checking] {
            check(solver, &format!("small formula {seed}"), &formula, Some(known))?;
        }
    }
    println!("160 random formulas of 20 to 60 variables, {satisfiable} of them satisfiable: as a plain search has it");
    Ok(())
}

/// Larger random formulas, on which the choosers have to agree. Away from the threshold they are easier, and the answer is all but certain.
fn large(solver: &Solver, checking: &Solver) -> Checked {
    let (mut satisfiable, mut all) = (0, 0);
    let sizes = [(100, THRESHOLD, 12), (150, THRESHOLD, 8), (200, THRESHOLD, 2), (200, 6.0, 3), (250, 3.7, 6), (250, 7.0, 2)];
    for (num_vars, clauses_per_var, count) in sizes {
        for seed in 1000..1000 + count {
            let formula = random(num_vars, clauses_per_var, seed);
            let known = if clauses_per_var == THRESHOLD { None } else { Some(clauses_per_var < THRESHOLD) };
            let name = format!("formula {seed} of {num_vars} variables");
            satisfiable += u32::from(check(solver, &name, &formula, known)?);
            all += 1;
        }
        check(checking, "formula of 100 variables", &random(100, THRESHOLD, num_vars as u64), None)?;
    }
    println!("{all} random formulas of 100 to 250 variables, {satisfiable} of them satisfiable: the choosers agree");
    Ok(())
}

fn structured(solver: &Solver, checking: &Solver) -> Checked {
    for holes in 4..=7 {
        check(solver, "pigeons, one too many", &pigeons(holes + 1, holes), Some(false))?;
        check(checking, "pigeons, as many as holes", &pigeons(holes, holes), Some(true))?;
    }
    for length in [2, 3, 5, 8, 11] {
        for seed in 0..3 {
            check(solver, "parities that differ", &parity(length, false, seed), Some(false))?;
            check(checking, "parities that are the same", &parity(length, true, seed), Some(true))?;
        }
    }
    println!("pigeons in 4 to 7 holes and chains of 2 to 11 parities: as known");
    Ok(())
}

/// The order form: each option can be had and can be done without, unless it is the only one; some wishes go together and some don't.
fn van(solver: &Solver) -> Checked {
    let form = Formula::read(&fs::read_to_string("examples/van.cnf").expect("examples/van.cnf is there"));
    check(solver, "van", &form, Some(true))?;
    for option in 1..=form.num_vars as i32 {
        for wish in [option, -option] {
            check(solver, &format!("van, {wish}"), &form.with(&[wish]), Some(true))?;
        }
    }
    let together: [&[i32]; 5] = [&[14, 26], &[14, -29], &[5, 8, 14, 26], &[34, 26, 14], &[4, 13, 20, 23]];
    let apart: [&[i32]; 7] = [&[4, 14], &[20, 21], &[34, 5], &[33, 10], &[6, 14, 26], &[5, 8, 12], &[1, 14, 18, 26]];
    for (wishes, known) in together.map(|wishes| (wishes, true)).into_iter().chain(apart.map(|wishes| (wishes, false))) {
        check(solver, &format!("van, {wishes:?}"), &form.with(wishes), Some(known))?;
        let known_by_search = plain::is_satisfiable(&form.with(wishes));
        assert_eq!(known_by_search, known, "van, {wishes:?}");
    }
    println!("examples/van.cnf: each option alone, and {} orders as known", together.len() + apart.len());
    Ok(())
}

/// Texts at the edges of what a formula may be: the same formula written plainly, and whether it is satisfiable.
fn edges(solver: &Solver, checking: &Solver) -> Checked {
    let formula = |num_vars, clauses: &[&[i32]]| Formula { num_vars, clauses: clauses.iter().map(|clause| clause.to_vec()).collect() };
    let many = |num_vars: usize| Formula { num_vars, clauses: (1..num_vars as i32).map(|var| vec![-var, var + 1]).collect() };
    let all_true = many(2048).with(&[1]);
    let cases: Vec<(Vec<u8>, Formula, bool)> = vec![
        ("p cnf 0 0\n".into(), formula(0, &[]), true),
        ("p cnf 5 0".into(), formula(5, &[]), true),
        ("p cnf 0 1\n0\n".into(), formula(0, &[&[]]), false),
        ("p cnf 2 2\n1 2 0\n0\n".into(), formula(2, &[&[1, 2], &[]]), false),
        ("p cnf 1 1\n1 1 1 0\n".into(), formula(1, &[&[1]]), true),
        ("p cnf 2 2\n1 1 2 0 -1 -1 0\n".into(), formula(2, &[&[1, 2], &[-1]]), true),
        ("p cnf 1 1\n1 -1 0\n".into(), formula(1, &[]), true),
        ("p cnf 2 3\n-2 1 2 0 1 0 2 -1 -2 0\n".into(), formula(2, &[&[1]]), true),
        ("p cnf 1 2\n1 0\n-1 0\n".into(), formula(1, &[&[1], &[-1]]), false),
        ("p cnf 2 3\n1 0\n-1 2 0\n-2 -1 0\n".into(), formula(2, &[&[1], &[-1, 2], &[-1, -2]]), false),
        ("p cnf 2 3\n1 0\n1 0\n-1 2 0\n".into(), formula(2, &[&[1], &[-1, 2]]), true),
        ("c one\n\n  p  cnf\t2 2 \r\n1\n2 0 -1\nc between\n\n -2\n0\n".into(), formula(2, &[&[1, 2], &[-1, -2]]), true),
        ("p cnf 2 1\n1 2 0\n%\n0\nanything\n".into(), formula(2, &[&[1, 2]]), true),
        (b"c \xfcber\np cnf 1 1\n-1 0\n".into(), formula(1, &[&[-1]]), true),
        (many(2048).text().into(), many(2048), true),
        (all_true.text().into(), all_true.clone(), true),
        (all_true.with(&[-2048]).text().into(), all_true.with(&[-2048]), false),
    ];
    for (text, formula, known) in &cases {
        for solver in [solver, checking] {
            let is_satisfiable = solver.solve_with_both(formula, text);
            if is_satisfiable != Ok(*known) {
                return Err(format!("{}\nsatisfiable: {known}; it says {is_satisfiable:?}", String::from_utf8_lossy(text)));
            }
        }
    }
    println!("{} formulas at the edges: as known", cases.len());
    Ok(())
}

/// What is told on standard error with status 1, and nothing on standard output; and arguments that get the usage with status 2.
fn refusals(solver: &Solver) -> Checked {
    let many = "p cnf 2049 1\n1 2049 0\n";
    let texts = [
        ("", "no header"),
        ("c nothing else\n", "no header"),
        ("1 2 0\n", "no header before"),
        ("p cnf 2\n", "line 1: the header is not"),
        ("p cnf 2 1 1\n1 0\n", "the header is not"),
        ("p dnf 2 1\n1 0\n", "the header is not"),
        ("p cnf -2 1\n1 0\n", "the header is not"),
        ("p cnf 2 x\n1 0\n", "the header is not"),
        ("p cnf 2 1\np cnf 2 1\n1 0\n", "line 2: there is a second header"),
        ("p cnf 2 1\n1 x 0\n", "line 2: \"x\" is not a literal"),
        ("p cnf 2 1\n1 - 0\n", "\"-\" is not a literal"),
        ("p cnf 2 1\n1 --2 0\n", "\"--2\" is not a literal"),
        ("p cnf 2 1\n1 -0\n", "\"-0\" is not a literal"),
        ("p cnf 2 1\n1 2.0 0\n", "\"2.0\" is not a literal"),
        ("p cnf 2 1\n\n1 -3 0\n", "line 3: -3 is a literal of a variable above 2"),
        ("p cnf 0 1\n1 0\n", "above 0"),
        ("p cnf 2 1\n1 99999999999999999999 0\n", "is not a literal"),
        ("p cnf 2 1\n1 2\n", "the last clause is not ended by 0"),
        ("p cnf 2 2\n1 2 0\n", "announces 2 clauses, and there are 1"),
        ("p cnf 2 1\n1 2 0\n-1 0\n", "announces 1 clauses, and there are 2"),
        (many, "the formula has 2049 variables, and the chooser takes 2048 at most"),
        ("p cnf 4294967295 0\n", "the formula has 4294967295 variables"),
    ];
    let with_input =
        texts.iter().flat_map(|&(text, told)| ["vsids", "reference"].map(|chooser| (vec!["--chooser", chooser, "-"], text, 1, told)));
    let usages: [&[&str]; 9] = [
        &[],
        &["--stats"],
        &["--chooser"],
        &["--chooser", "vsids"],
        &["--chooser", "heap", "-"],
        &["--fast", "-"],
        &["-", "examples/van.cnf"],
        &["--"],
        &["--", "--stats", "-"],
    ];
    let misused = usages.map(|arguments| (arguments.to_vec(), many, 2, "usage: solver"));
    let unreadable = ["nowhere/van.cnf", "examples", "--stats"].map(|file| (vec!["--", file], "", 1, file));
    let mut count = 0;
    for (arguments, text, status, told) in with_input.chain(misused).chain(unreadable) {
        let output = solver.run(&arguments, text.as_bytes());
        let said = String::from_utf8_lossy(&output.stderr);
        if output.status.code() != Some(status) || !output.stdout.is_empty() || !said.contains(told) || said.lines().count() != 1 {
            return Err(format!("{arguments:?} with {text:?} should end with {status} and tell {told:?}, and does: {output:?}"));
        }
        count += 1;
    }
    println!("{count} wrong formulas, files and arguments: told, with status 1 or 2");
    full_device(solver)
}

/// A device on which nothing can be written.
fn full() -> Stdio {
    fs::OpenOptions::new().write(true).open("/dev/full").expect("there is a full device").into()
}

/// What cannot be written: an answer is told, with status 1; without standard error, statuses and answers are as ever.
fn full_device(solver: &Solver) -> Checked {
    let run = |arguments: &[&str], out: Stdio, told: Stdio| {
        Command::new(&solver.0).args(arguments).stdout(out).stderr(told).output().expect("the solver can be run")
    };
    for arguments in [&["examples/van.cnf"], &["--help"]] {
        let output = run(arguments, full(), Stdio::piped());
        if output.status.code() != Some(1) || !output.stderr.starts_with(b"solver: ") {
            return Err(format!("{arguments:?} on a full device: {output:?}"));
        }
    }
    let answer = run(&["examples/van.cnf"], Stdio::piped(), Stdio::piped()).stdout;
    let cases: [(&[&str], i32, &[u8]); 3] =
        [(&["--stats", "examples/van.cnf"], 10, &answer), (&["nowhere/van.cnf"], 1, b""), (&[], 2, b"")];
    for (arguments, status, said) in cases {
        let output = run(arguments, Stdio::piped(), full());
        if output.status.code() != Some(status) || output.stdout != said {
            return Err(format!("{arguments:?} with standard error on a full device: {output:?}"));
        }
    }
    println!("a full device: told, with status 1; as standard error it changes nothing");
    Ok(())
}

/// The usage on request, and arguments behind the end of the options.
fn options(solver: &Solver) -> Checked {
    for arguments in [&["--help"][..], &["--stats", "--help", "-"]] {
        let help = solver.run(arguments, b"");
        if help.status.code() != Some(0) || !help.stdout.starts_with(b"usage: solver") || !help.stderr.is_empty() {
            return Err(format!("{arguments:?} should print the usage, and does: {help:?}"));
        }
    }
    for arguments in [&["-"][..], &["--", "-"], &["--chooser", "reference", "--", "-"]] {
        let output = solver.run(arguments, b"p cnf 1 1\n-1 0\n");
        if output.status.code() != Some(10) || output.stdout != b"s SATISFIABLE\nv -1 0\n" || !output.stderr.is_empty() {
            return Err(format!("{arguments:?} should answer, and does: {output:?}"));
        }
    }
    println!("the usage on request, and the end of the options: as they should be");
    Ok(())
}

/// What README shows: a command in a block of its own, then a block with what it prints.
fn shown(solver: &Solver) -> Checked {
    let page = fs::read_to_string("README.md").expect("README.md is there");
    let mut blocks = page.split("\n\n").skip_while(|block| !block.contains("--example solver") || !block.starts_with("    "));
    let mut block = || -> String { blocks.next().unwrap_or_default().lines().map(|line| format!("{}\n", line.trim_start())).collect() };
    let (command, answer) = (block(), block());
    let output = Command::new("bash").args(["-c", &command]).output().expect("bash can be run");
    if output.status.code() != Some(10) || answer.is_empty() || String::from_utf8_lossy(&output.stdout) != answer {
        return Err(format!("README.md shows {command}{answer}and it is {output:?}"));
    }
    // the same file by name, without cargo
    let direct = solver.run(&["examples/van.cnf"], b"");
    if direct.stdout != output.stdout || !direct.stderr.is_empty() {
        return Err(format!("README.md shows {command}{answer}and the solver says {direct:?}"));
    }
    println!("README's command answers as shown");
    Ok(())
}

fn check_all(solver: &Solver, checking: &Solver) -> Checked {
    small(solver, checking)?;
    large(solver, checking)?;
    structured(solver, checking)?;
    van(solver)?;
    edges(solver, checking)?;
    refusals(solver)?;
    options(solver)?;
    shown(solver)
}

fn main() -> ExitCode {
    let solvers: Vec<Solver> = env::args_os().skip(1).map(|path| Solver(path.into())).collect();
    let [solver, checking] = &solvers[..] else {
        eprintln!("usage: solver SOLVER CHECKING");
        return ExitCode::FAILURE;
    };
    match check_all(solver, checking) {
        Ok(()) => ExitCode::SUCCESS,
        Err(what) => {
            println!("{what}");
            ExitCode::FAILURE
        }
    }
}
