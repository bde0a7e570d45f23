//! Runs the sheet on standard input and prints its answers, or the number of the refusal.

use std::io::{self, Read, Write};

const BUFFER: usize = 65_536;

fn main() -> io::Result<()> {
    let mut sheet = Vec::new();
    io::stdin().read_to_end(&mut sheet)?;
    let mut answers = vec![0; BUFFER];
    match reference::run(&sheet, &mut answers) as usize {
        len if len <= BUFFER => io::stdout().write_all(&answers[..len]),
        refused => writeln!(io::stdout(), "{}", u32::MAX as usize - refused),
    }
}
