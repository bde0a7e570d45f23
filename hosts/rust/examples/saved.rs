//! A session in heap mode that is saved in the file named on the command line, read back from there and carried on.

use sigvort::{Clauses, Lit, Session};
use std::{env, error::Error, ffi::OsStr, fs};

/// Saves a session in a file. The text is written aside and renamed, so that the file holds a whole one at any time.
fn save(session: &Session, path: &OsStr) -> Result<(), Box<dyn Error>> {
    let mut aside = path.to_owned();
    aside.push(".new");
    fs::write(&aside, session.save()?)?;
    Ok(fs::rename(aside, path)?)
}

/// Prints where the session stands: the level and the codes on the trail.
fn print_trail(what: &str, session: &Session) {
    let trail: String = session.trail().iter().map(|lit| format!(" {}", lit.code())).collect();
    println!("{what}: level {}, trail{trail}", session.level());
}

fn main() -> Result<(), Box<dyn Error>> {
    let path = env::args_os().nth(1).ok_or("usage: saved FILE")?;
    let mut clauses = Clauses::new();
    clauses.push(&[Lit::new(0, true), Lit::new(1, true)]);
    let mut session = Session::heap_with(3, clauses)?;
    session.bump(2)?;
    session.decide(true)?;
    session.decide(false)?;
    save(&session, &path)?;
    print_trail("saved", &session);

    // later, perhaps on another machine
    let mut session = Session::read(&fs::read(&path)?)?;
    print_trail("read back", &session);
    session.go_back(1)?;
    session.decide(false)?;
    print_trail("carried on", &session);
    Ok(())
}
