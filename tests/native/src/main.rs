//! Runs the exported entries of a session and the reference on the same memory. Status, memory, numbers and answers are compared whole, and with
//! them what is only read and the guards around every slice. The first difference ends the run.
//!
//! Usage: native compare ROUNDS SEED, or native sample ROUNDS SEED, which has no guards and does not ask what the rounds met.

mod breakers;
mod faults;
mod ffi;
mod guarded;
mod lists;
mod memory;
mod proved;
mod random;
mod tally;

use breakers::{Breakable, TRAIL};
use guarded::Guards;
use lists::Maker;
use memory::{List, Request};
use proved::Proved;
use random::Good;
use reference::{
    generator::Rng,
    native::{Clauses, HeapMemory, Lent, ListMemory},
};
use std::{env, process::ExitCode};
use tally::Tally;

const GUARDS: usize = 5;
const STATE: u32 = 7;

/// All that a mode of the test needs.
trait Mode: Proved + Good + Breakable {}
impl Mode for HeapMemory {}
impl Mode for ListMemory {}

/// A session that is played, in one mode.
struct Round<'a, M> {
    n: usize,
    clauses: Clauses,
    memory: M,
    guards: Guards,
    rng: Rng,
    tally: &'a mut Tally,
}

impl<M: Mode> Round<'_, M> {
    fn lent(&self) -> Lent {
        Lent { n: self.n, clauses: self.clauses.ends.len() }
    }

    fn request(&self, list: Option<List>) -> Request<M> {
        Request { n: self.n as u32, clauses: self.clauses.clone(), memory: self.memory.clone(), list }
    }

    /// Runs both on a request, and holds them to each other; gives the status, and the request as both left it.
    fn run(&mut self, mut request: Request<M>) -> Result<(u32, Request<M>), String> {
        let before = request.clone();
        let mut expected = request.clone();
        let status = expected.reference();
        let proved = M::proved(&mut request, self.guards)?;
        if proved != status {
            return Err(format!("status: reference {status}, proved {proved}"));
        }
        if let Some(difference) = expected.difference(&mut request) {
            return Err(format!("status {status}, reference and proved differ in {difference}"));
        }
        // a refusal changes nothing, whatever the reference makes of it
        if let Some(difference) = request.difference(&mut before.clone()).filter(|_| status != 0) {
            return Err(format!("refused with {status}, and changed in {difference}"));
        }
        self.count(&before, &request, status);
        Ok((status, request))
    }

    fn count(&mut self, before: &Request<M>, after: &Request<M>, status: u32) {
        self.tally.words += after.clone().parts().iter().map(|(_, words)| words.count() as u64).sum::<u64>();
        match &after.list {
            None => self.tally.fresh[status as usize] += 1,
            Some(list) => {
                self.tally.lists[status as usize] += 1;
                if status == 0 {
                    self.tally.add_calls(list);
                    if before.memory.went_over_limit(&after.memory) {
                        *self.tally.over_limit.entry(M::NAME).or_default() += 1;
                    }
                }
            }
        }
    }

    /// Runs both on a request that must get a status.
    fn must_get(&mut self, status: u32, what: &str, request: Request<M>) -> Result<(), String> {
        let (got, _) = self.run(request).map_err(|error| format!("{what}: {error}"))?;
        if got == status {
            Ok(())
        } else {
            Err(format!("{what}: both gave {got}, and {status} is due"))
        }
    }

    /// A list for the state at hand.
    fn list(&mut self) -> List {
        let formula = self.clauses.formula(self.n).expect("the clauses are good");
        let session = self.memory.session(formula);
        Maker::new(session, self.n, self.clauses.ends.len(), &mut self.rng).list()
    }

    fn fresh(&mut self) -> Result<(), String> {
        let (_, request) = self.run(self.request(None)).map_err(|error| format!("creation: {error}"))?;
        self.memory = request.memory;
        Ok(())
    }

    /// Another clause list for the next list of calls, or the same; reasons may fall out of its range.
    fn other_clauses(&mut self) -> Clauses {
        let mut clauses = self.clauses.clone();
        match self.rng.below(20) {
            0..=3 => random::lengthen(&mut clauses, self.n, 1 + self.rng.below(5), &mut self.rng),
            4..=5 => clauses = random::clauses(self.n, &mut self.rng),
            6 => clauses = Clauses::default(),
            _ => {}
        }
        clauses
    }

    /// Plays lists of calls on the memory, one behind the other, each with the clauses that it is lent.
    fn play(&mut self) -> Result<(), String> {
        for number in 0..5 + self.rng.below(12) {
            match self.rng.below(8) {
                0 => self.memory = M::good(self.n, self.clauses.ends.len(), &mut self.rng),
                1 | 2 => self.memory.bring_near_limit(&mut self.rng),
                _ => {}
            }
            self.must_be_good(number)?;
            let list = self.list();
            let mut request = self.request(Some(list));
            request.clauses = self.other_clauses();
            let (status, request) = self.run(request).map_err(|error| format!("list {number}: {error}"))?;
            // where a reason is no clause any more, the session goes on with the clauses that it had
            match status {
                0 => (self.memory, self.clauses) = (request.memory, request.clauses),
                _ => self.tally.lost_reasons += 1,
            }
        }
        Ok(())
    }

    /// Calls leave a good state good, and this test makes no other than those that it means to.
    fn must_be_good(&self, number: usize) -> Result<(), String> {
        match self.memory.broken(self.lent()).first() {
            None => Ok(()),
            Some(fact) => Err(format!("before list {number} it does not hold that {fact}")),
        }
    }

    /// Breaks each fact in turn.
    fn break_facts(&mut self) -> Result<(), String> {
        let list = self.list();
        for (name, fact, apply) in TRAIL {
            let mut broken = self.request(Some(list.clone()));
            if apply(broken.memory.trail(), self.lent(), &mut self.rng).is_some() {
                self.must_break(name, fact, broken)?;
            }
        }
        for (name, fact, apply) in M::breakers() {
            let mut broken = self.request(Some(list.clone()));
            if apply(&mut broken.memory, self.lent(), &mut self.rng).is_some() {
                self.must_break(name, fact, broken)?;
            }
        }
        Ok(())
    }

    fn must_break(&mut self, name: &str, fact: &str, request: Request<M>) -> Result<(), String> {
        let broken = request.memory.broken(self.lent());
        if !broken.contains(&fact) {
            return Err(format!("{name}: the reference finds broken {broken:?}"));
        }
        self.tally.add_facts(M::NAME, &broken);
        Tally::count(&mut self.tally.breakers, format!("{}: {name}", M::NAME));
        self.must_get(STATE, name, request)
    }

    /// Makes each fault of a request in turn, on a list and on a creation.
    fn refuse(&mut self) -> Result<(), String> {
        let list = self.list();
        for list in [None, Some(list)] {
            for (status, faults) in [(4, faults::too_many()), (5, faults::lengths()), (6, faults::clause_lists())] {
                for (name, apply) in faults {
                    let mut request = self.request(list.clone());
                    if apply(&mut request, &mut self.rng).is_some() {
                        Tally::count(&mut self.tally.faults, format!("{}: {name}", M::NAME));
                        self.must_get(status, name, request)?;
                    }
                }
            }
            self.refuse_slices(list)?;
        }
        Ok(())
    }

    /// Gives each slice of the memory a wrong length in turn.
    fn refuse_slices(&mut self, list: Option<List>) -> Result<(), String> {
        for number in 0.. {
            let mut request = self.request(list.clone());
            let Some(name) = faults::wrong_slice(&mut request, number, &mut self.rng) else { break };
            Tally::count(&mut self.tally.faults, format!("{}: {name} of another length", M::NAME));
            self.must_get(5, name, request)?;
        }
        Ok(())
    }

    /// Makes some faults at once: the first refusal wins, and a creation does not look at the state.
    fn refuse_in_order(&mut self) -> Result<(), String> {
        for _ in 0..6 {
            let list = if self.rng.chance(1, 4) { None } else { Some(self.list()) };
            let kind = if list.is_some() { "list" } else { "creation" };
            let (request, faults) = self.faulty(self.request(list));
            let mut due: Vec<u32> = faults.iter().map(|&(status, _)| status).filter(|&status| status != STATE || kind == "list").collect();
            due.sort_unstable();
            Tally::count(&mut self.tally.at_once, format!("{kind} {due:?}"));
            self.must_get(due.first().copied().unwrap_or(0), &format!("{kind} with {faults:?}"), request)?;
        }
        Ok(())
    }

    /// A request with some faults, at most one for each refusal.
    fn faulty(&mut self, mut request: Request<M>) -> (Request<M>, Vec<(u32, &'static str)>) {
        let mut made = Vec::new();
        let (name, _, apply) = self.rng.pick(M::breakers());
        let mut broken = request.clone();
        if self.rng.chance(1, 2) && apply(&mut broken.memory, self.lent(), &mut self.rng).is_some() {
            request = broken;
            made.push((STATE, name));
        }
        for (status, faults) in [(6, faults::clause_lists()), (5, faults::lengths()), (4, faults::too_many())] {
            let (name, apply) = self.rng.pick(&faults);
            let mut faulty = request.clone();
            if self.rng.chance(1, 2) && apply(&mut faulty, &mut self.rng).is_some() {
                request = faulty;
                made.push((status, name));
            }
        }
        (request, made)
    }

    /// Puts random words into random places: both must agree on what is still good, and on what follows.
    fn poke(&mut self) -> Result<(), String> {
        for _ in 0..12 {
            let list = self.list();
            let mut request = self.request(Some(list));
            for _ in 0..1 + self.rng.below(2) {
                let mut parts = request.memory.parts();
                let part = self.rng.below(parts.len());
                let words = &mut parts[part].1;
                if words.count() > 0 {
                    let place = self.rng.below(words.count());
                    words.set(place, random::word(self.n, &mut self.rng));
                }
            }
            self.run(request).map_err(|error| format!("random words: {error}"))?;
        }
        Ok(())
    }
}

/// Plays the round that belongs to a seed.
fn play<M: Mode>(seed: u64, guards: Guards, tally: &mut Tally) -> Result<(), String> {
    let mut rng = Rng::new(seed);
    let n = random::variables(&mut rng);
    let (clauses, memory) = (random::clauses(n, &mut rng), random::dirty(n, &mut rng));
    let mut round = Round::<M> { n, clauses, memory, guards, rng, tally };
    round.fresh()?;
    round.play()?;
    round.break_facts()?;
    round.poke()?;
    round.refuse()?;
    round.refuse_in_order()?;
    tally.rounds += 1;
    Ok(())
}

/// The names of all faults and breakers of a mode.
fn due<M: Mode>() -> (Vec<String>, Vec<String>) {
    let faults = [faults::too_many::<M>(), faults::lengths(), faults::clause_lists()].concat();
    let mut memory = M::default();
    let slices = memory.parts().into_iter().filter(|(_, words)| words.is_slice()).map(|(name, _)| format!("{name} of another length"));
    let faults = faults.iter().map(|(name, _)| name.to_string()).chain(slices);
    let breakers = TRAIL.iter().map(|(name, ..)| name).chain(M::breakers().iter().map(|(name, ..)| name));
    let name = |what| format!("{}: {what}", M::NAME);
    (faults.map(&name).collect(), breakers.map(|breaker| name(breaker.to_string())).collect())
}

fn main() -> ExitCode {
    let arguments: Vec<String> = env::args().collect();
    let number = |i: usize| arguments.get(i).map_or(0, |text| text.parse().expect("a number"));
    let (rounds, seed): (u64, u64) = (number(2), number(3));
    let is_sample = arguments.get(1).is_some_and(|kind| kind == "sample");
    let guards = Guards(if is_sample { 0 } else { GUARDS });
    let mut tally = Tally::default();
    for seed in seed..seed + rounds {
        let outcomes = [play::<HeapMemory>(seed, guards, &mut tally), play::<ListMemory>(seed, guards, &mut tally)];
        for (mode, outcome) in [HeapMemory::NAME, ListMemory::NAME].iter().zip(outcomes) {
            if let Err(error) = outcome {
                println!("{tally}\ndifferent in {mode} mode, seed {seed}: {error}");
                return ExitCode::FAILURE;
            }
        }
    }
    println!("{tally}");
    let ((heap_faults, heap_breakers), (list_faults, list_breakers)) = (due::<HeapMemory>(), due::<ListMemory>());
    let missing = tally.missing(
        &[heap_faults, list_faults].concat(),
        &[heap_breakers, list_breakers].concat(),
        &[HeapMemory::NAME, ListMemory::NAME],
    );
    if is_sample || missing.is_empty() {
        return ExitCode::SUCCESS;
    }
    println!("the rounds did not meet: {}", missing.join("; "));
    ExitCode::FAILURE
}
