//! A session in heap mode: three variables and the clause "0 or 1". A list of calls, then two calls by themselves.

use sigvort::{Batch, Clauses, Decision, Lit, Refusal, Session};

/// Prints the answer to each call of a list: its letter, the status, and the reply or a dash.
fn print_answers(letters: &str, batch: &Batch) {
    for (letter, answer) in letters.chars().zip(batch.answers()) {
        let status = answer.map_or_else(Refusal::number, |_| 0);
        let reply = answer.ok().flatten().map_or("-".into(), |reply| reply.to_string());
        println!("{letter}\t{status}\t{reply}");
    }
}

/// Prints the level and the codes on the trail.
fn print_trail(session: &Session) {
    print!("level {}, trail", session.level());
    for lit in session.trail() {
        print!(" {}", lit.code());
    }
    println!();
}

fn main() -> Result<(), Refusal> {
    let mut clauses = Clauses::new();
    let clause = clauses.push(&[Lit::new(0, true), Lit::new(1, true)]);
    let mut session = Session::heap_with(3, clauses)?;

    let mut batch = Batch::new();
    batch.bump(2); // variable 2 is to come first
    batch.decide(true);
    batch.decide(false);
    batch.enqueue(Lit::new(1, true), Some(clause));
    batch.bump(3); // there is no variable 3: refused with 8, and nothing changes
    session.batch(&mut batch)?;
    print_answers("bggeb", &batch);
    print_trail(&session);

    let undone = session.go_back(1)?;
    match session.decide(false)? {
        Decision::Variable(var) => println!("undone {undone}, decided {var}"),
        Decision::None => println!("undone {undone}, nothing is open"),
    }
    print_trail(&session);
    Ok(())
}
