//! Runs the sheet in the file named on the command line and prints its answers, or the number of the refusal alone on a line.

use std::{
    env, fs,
    io::{self, Write},
};

/// Room for the answers to 2,730 lines, as the chooser's own program has it.
const BUFFER: usize = 65_536;

fn main() -> io::Result<()> {
    let Some(path) = env::args_os().nth(1) else {
        return Err(io::Error::new(io::ErrorKind::InvalidInput, "usage: host SHEET"));
    };
    let sheet = fs::read(path)?;
    let mut answers = vec![0; BUFFER];
    let mut out = io::stdout();
    match sigvort::run(&sheet, &mut answers) {
        Ok(len) => out.write_all(&answers[..len]),
        Err(refusal) => writeln!(out, "{}", refusal.number()),
    }
}
