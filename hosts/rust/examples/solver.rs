//! A SAT solver that has its decisions from the proved chooser, or for comparison from the reference. It reads a formula in DIMACS CNF and
//! answers as in SAT competitions. It is an example of how to link a chooser: solver/sat/choosers.rs is all that it takes, and
//! solver/sat/cdcl.rs shows when to call it.

#[path = "solver/dimacs.rs"]
mod dimacs;
#[path = "solver/sat/mod.rs"]
mod sat;

use sat::{solve, Formula, Outcome, ProvedHeap, ReferenceHeap, Stats};
use sigvort::MAX_VARIABLES;
use std::{
    env,
    ffi::{OsStr, OsString},
    fs::File,
    io::{self, BufWriter, Read, Stdout, Write},
    process::ExitCode,
    time::Instant,
};

const HELPED: u8 = 0;
const WRONG: u8 = 1;
const MISUSED: u8 = 2;
const SATISFIABLE: u8 = 10;
const UNSATISFIABLE: u8 = 20;

type Solve = fn(&Formula) -> (Outcome, Stats);

/// The choosers by name. The first is taken where none is named.
const CHOOSERS: [(&str, Solve); 2] = [
    ("vsids", |formula| solve(formula, ProvedHeap::new(formula.num_vars).expect("the number of variables is within the limit"))),
    ("reference", |formula| solve(formula, ReferenceHeap::new(formula.num_vars))),
];

/// What the arguments ask for.
enum Asked {
    Help,
    Answer { solve: Solve, stats: bool, file: OsString },
}

fn asked() -> Option<Asked> {
    let (mut solve, mut stats, mut file) = (CHOOSERS[0].1, false, None);
    let mut options = true;
    let mut arguments = env::args_os().skip(1);
    while let Some(argument) = arguments.next() {
        match argument.to_str().filter(|_| options) {
            Some("--") => options = false,
            Some("--help") => return Some(Asked::Help),
            Some("--chooser") => {
                let name = arguments.next()?;
                solve = CHOOSERS.iter().find(|chooser| name == chooser.0)?.1;
            }
            Some("--stats") => stats = true,
            Some(option) if option.starts_with('-') && option != "-" => return None,
            _ if file.is_some() => return None,
            _ => file = Some(argument),
        }
    }
    Some(Asked::Answer { solve, stats, file: file? })
}

fn usage() -> String {
    let names = CHOOSERS.map(|(name, _)| name).join("|");
    format!("usage: solver [--help] [--chooser {names}] [--stats] [--] FILE, where - is standard input")
}

/// Tells a line on standard error. Where that can't be written, there is nobody to tell.
fn tell(line: &str) {
    let _ = writeln!(io::stderr(), "{line}");
}

/// Reads a formula that the choosers can take.
fn read(file: &OsStr) -> Result<Formula, String> {
    let mut bytes = Vec::new();
    let read =
        if file == "-" { io::stdin().read_to_end(&mut bytes) } else { File::open(file).and_then(|mut file| file.read_to_end(&mut bytes)) };
    read.map_err(|error| error.to_string())?;
    // comments may be in any encoding
    let formula = dimacs::parse(&String::from_utf8_lossy(&bytes))?;
    if formula.num_vars > MAX_VARIABLES {
        return Err(format!("the formula has {} variables, and the chooser takes {MAX_VARIABLES} at most", formula.num_vars));
    }
    Ok(formula)
}

/// Writes to standard output.
fn print(write: impl FnOnce(&mut BufWriter<Stdout>) -> io::Result<()>) -> Result<(), String> {
    let mut out = BufWriter::new(io::stdout());
    write(&mut out).and_then(|()| out.flush()).map_err(|error| format!("the answer can't be written: {error}"))
}

fn answer(solve: Solve, stats: bool, file: &OsStr) -> Result<u8, String> {
    let formula = read(file).map_err(|what| format!("{}: {what}", file.display()))?;
    let start = Instant::now();
    let (outcome, Stats { decisions, conflicts, propagations, lists }) = solve(&formula);
    let seconds = start.elapsed().as_secs_f64();
    print(|out| dimacs::write(out, &outcome))?;
    if stats {
        tell(&format!("decisions {decisions}\nconflicts {conflicts}\npropagations {propagations}\nlists {lists}\nseconds {seconds:.6}"));
    }
    Ok(if outcome == Outcome::Unsatisfiable { UNSATISFIABLE } else { SATISFIABLE })
}

fn main() -> ExitCode {
    let status = match asked() {
        Some(Asked::Help) => print(|out| writeln!(out, "{}", usage())).map(|()| HELPED),
        Some(Asked::Answer { solve, stats, file }) => answer(solve, stats, &file),
        None => {
            tell(&usage());
            Ok(MISUSED)
        }
    };
    let status = status.unwrap_or_else(|what| {
        tell(&format!("solver: {what}"));
        WRONG
    });
    status.into()
}
