//! Ways to make a request that is refused whole: too many variables, wrong lengths, a bad clause list.

use crate::{
    memory::{Parts, Request},
    random::{code, MAX_CLAUSES, MAX_LITERALS, MAX_VARIABLES},
};
use reference::{
    generator::Rng,
    native::{Clauses, NONE},
};

/// A fault by its name, and how it is made; it says no where the request has not what it needs.
pub type Fault<M> = (&'static str, fn(&mut Request<M>, &mut Rng) -> Option<()>);

/// Refusal 4.
pub fn too_many<M: Parts>() -> Vec<Fault<M>> {
    vec![
        ("2,049 variables, memory for them", |r, _| {
            r.n = MAX_VARIABLES as u32 + 1;
            for (_, words) in r.memory.parts() {
                words.resize(MAX_VARIABLES + 1);
            }
            Some(())
        }),
        ("more variables than 2,048", |r, rng| {
            let any = rng.below(1 << 20) as u32;
            r.n = rng.pick(&[MAX_VARIABLES as u32 + 1, MAX_VARIABLES as u32 + 2 + any, 1 << 16, 1 << 31, NONE]);
            Some(())
        }),
    ]
}

/// Refusal 5, apart from the lengths of the slices.
pub fn lengths<M: Parts>() -> Vec<Fault<M>> {
    vec![
        ("one variable more", |r, _| {
            r.n += 1;
            Some(()).filter(|()| r.n as usize <= MAX_VARIABLES)
        }),
        ("one variable less", |r, _| {
            r.n = r.n.checked_sub(1)?;
            Some(())
        }),
        ("another count of literals", |r, rng| {
            r.clauses.literals = other(r.clauses.lits.len(), rng);
            Some(())
        }),
        ("another count of clauses", |r, rng| {
            r.clauses.clauses = other(r.clauses.ends.len(), rng);
            Some(())
        }),
        ("a literal more than stated", |r, _| {
            r.clauses.lits.push(0);
            Some(())
        }),
        ("a clause more than stated", |r, _| {
            r.clauses.ends.push(r.clauses.lits.len() as u32);
            Some(())
        }),
        ("a word or two too many in the calls", |r, rng| {
            let calls = &mut r.list.as_mut()?.calls;
            calls.resize(calls.len() + 1 + rng.below(2), 0);
            Some(())
        }),
        ("a word missing in the calls", |r, _| r.list.as_mut()?.calls.pop().map(|_| ())),
        ("a call more than answers", |r, _| {
            r.list.as_mut()?.calls.extend([121, 0, 0]);
            Some(())
        }),
        ("a word missing in the answers", |r, _| r.list.as_mut()?.answers.pop().map(|_| ())),
        ("a word too many in the answers", |r, _| {
            r.list.as_mut()?.answers.push(0);
            Some(())
        }),
        ("an answer more than calls", |r, _| {
            r.list.as_mut()?.answers.extend([0, 0]);
            Some(())
        }),
        ("no answers at all", |r, _| {
            let answers = &mut r.list.as_mut()?.answers;
            let had_some = !answers.is_empty();
            answers.clear();
            Some(()).filter(|()| had_some)
        }),
    ]
}

fn other(count: usize, rng: &mut Rng) -> u32 {
    let count = count as u32;
    rng.pick(&[count + 1, count.wrapping_sub(1), count + 4, count + (1 << 31), !count])
}

/// Refusal 5: gives the slice of memory with this number another length. Says which it was, or no where there are no more slices.
pub fn wrong_slice<M: Parts>(request: &mut Request<M>, number: usize, rng: &mut Rng) -> Option<&'static str> {
    let n = request.n as usize;
    let mut parts = request.memory.parts();
    let (name, words) = parts.iter_mut().filter(|(_, words)| words.is_slice()).nth(number)?;
    let length = rng.pick(&[n + 1, n.saturating_sub(1), 0, 2 * n, n + 7]);
    words.resize(if length == n { n + 1 } else { length });
    Some(name)
}

/// Refusal 6.
pub fn clause_lists<M: Parts>() -> Vec<Fault<M>> {
    vec![
        ("a literal of no variable", |r, rng| {
            let (n, lits) = (r.n, &mut r.clauses.lits);
            let place = rng.below(Some(lits.len()).filter(|&literals| literals > 0)?);
            lits[place] = rng.pick(&[2 * n, 2 * n + 1, 2 * n + 7, NONE, 1 << 31]);
            Some(())
        }),
        ("a clause of a literal of no variable", |r, rng| {
            r.clauses.lits.push(2 * r.n + rng.below(2) as u32);
            r.clauses.ends.push(r.clauses.lits.len() as u32);
            restate(r)
        }),
        ("literals without clauses", |r, rng| {
            let n = r.n as usize;
            r.clauses = Clauses::new((0..=rng.below(3)).map(|_| code(n, rng)).collect(), vec![]);
            Some(()).filter(|()| n > 0)
        }),
        ("a literal behind the last clause", |r, rng| {
            r.clauses.lits.push(code(r.n as usize, rng));
            restate(r).filter(|()| r.n > 0)
        }),
        ("a last end behind the literals", |r, rng| {
            let end = r.clauses.ends.last_mut()?;
            *end = rng.pick(&[*end + 1, *end + 5, NONE, *end + (1 << 31)]);
            Some(())
        }),
        ("a last end before the last literal", |r, _| {
            let end = r.clauses.ends.last_mut()?;
            *end = end.checked_sub(1)?;
            Some(())
        }),
        ("an end below the one before", |r, rng| {
            let count = r.clauses.ends.len().checked_sub(1).filter(|&count| count > 0)?;
            let place = rng.below(count);
            let next = r.clauses.ends[place + 1];
            r.clauses.ends[place] = rng.pick(&[next + 1, next + 9, NONE]);
            Some(())
        }),
        ("2,049 clauses", |r, _| {
            let literals = r.clauses.lits.len() as u32;
            r.clauses.ends.resize(MAX_CLAUSES + 1, literals);
            restate(r)
        }),
        ("8,193 literals", |r, rng| {
            let n = r.n as usize;
            let lits: Vec<u32> = (0..=MAX_LITERALS).map(|_| code(n, rng)).collect();
            r.clauses = Clauses::new(lits, vec![3, MAX_LITERALS as u32 + 1]);
            Some(()).filter(|()| n > 0)
        }),
    ]
}

/// Makes the stated counts right.
fn restate<M>(request: &mut Request<M>) -> Option<()> {
    let Clauses { lits, ends, .. } = std::mem::take(&mut request.clauses);
    request.clauses = Clauses::new(lits, ends);
    Some(())
}
