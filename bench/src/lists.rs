//! The calls of a solver in lists on lent memory, and the same calls on the reference's session, which keeps its memory and checks none.

use reference::{
    generator::Rng,
    native::{read_call, Clauses, HeapMemory, ListMemory, Memory, ANSWER_WORDS, CALL_WORDS, NONE},
    session::{Call, Formula, Session},
};

/// How many calls are timed, and how many come before them, so that activities and stamps are those of a session under way.
pub const CALLS: usize = 4096;
const CALLS_BEFORE: usize = 4096;

/// A solver's calls, in the memory as it is before them.
pub struct Calls<M> {
    pub name: String,
    pub n: usize,
    pub clauses: Clauses,
    pub memory: M,
    pub vars: Vec<u32>,
    pub words: Vec<u32>,
}

/// A mode as a solver uses it.
pub trait Mode: Memory {
    const NAME: &'static str;

    /// What a solver does with the variables of a conflict.
    fn bump(solver: &mut Solver<Self>, vars: &[u32]);

    /// What has to be done so that the next decision finds a variable.
    fn before_decision(_solver: &mut Solver<Self>) {}
}

/// Makes the calls of a solver on clauses that it need not understand: the session goes along, so that nearly all are accepted.
pub struct Solver<M: Memory> {
    n: usize,
    clauses: usize,
    session: Session<M::Chooser>,
    vars: Vec<u32>,
    words: Vec<u32>,
    rng: Rng,
}

/// Clauses of four literals.
fn clauses(n: usize, literals: usize, rng: &mut Rng) -> Clauses {
    let lits = (0..literals).map(|_| rng.below(2 * n) as u32).collect();
    Clauses::new(lits, (1..=literals / 4).map(|clause| 4 * clause as u32).collect())
}

fn formula(n: usize, clauses: &Clauses) -> Formula {
    clauses.formula(n).expect("the clauses are good")
}

impl<M: Mode> Calls<M> {
    pub fn new(n: usize, literals: usize) -> Self {
        let mut rng = Rng::new(9);
        let clauses = clauses(n, literals, &mut rng);
        let session = Session::new(formula(n, &clauses));
        let mut solver = Solver::<M> { n, clauses: clauses.ends.len(), session, vars: Vec::new(), words: Vec::new(), rng };
        while solver.words.len() < CALLS_BEFORE * CALL_WORDS {
            solver.decide_and_propagate();
        }
        let memory = M::of(&solver.session);
        (solver.words, solver.vars) = (Vec::new(), Vec::new());
        while solver.words.len() < CALLS * CALL_WORDS {
            solver.decide_and_propagate();
        }
        solver.words.truncate(CALLS * CALL_WORDS);
        let name = format!("{} mode, N = {n}, {literals} literals", M::NAME);
        Calls { name, n, clauses, memory, vars: solver.vars, words: solver.words }
    }

    /// The session before the calls, over vectors.
    pub fn session(&self) -> Session<M::Chooser> {
        self.memory.session(formula(self.n, &self.clauses))
    }

    /// The calls as the reference takes them; the variables of their groups go to the vectors.
    pub fn decoded<'a>(&self, groups: &'a mut Vec<Vec<usize>>) -> Vec<Call<'a>> {
        let words = || self.words.chunks_exact(CALL_WORDS).map(|call| [call[0], call[1], call[2]]);
        groups.resize_with(words().count(), Vec::new);
        words().zip(groups).map(|(call, group)| read_call(call, &self.vars, group).expect("a call has its form")).collect()
    }

    /// The answers that the reference gives.
    pub fn answers(&self) -> Vec<u32> {
        let mut answers = vec![0; self.words.len() / CALL_WORDS * ANSWER_WORDS];
        let done = reference::native::calls(self.n as u32, &self.clauses, &mut self.memory.clone(), &self.vars, &self.words, &mut answers);
        done.expect("the memory is good");
        answers
    }
}

impl<M: Mode> Solver<M> {
    fn call(&mut self, letter: u8, first: u32, second: u32) {
        let words = [letter.into(), first, second];
        let mut group = Vec::new();
        let call = read_call(words, &self.vars, &mut group).expect("a call has its form");
        // a refusal is one of the calls that are timed, too
        let _ = self.session.call(call);
        self.words.extend(words);
    }

    fn is_assigned(&self, var: usize) -> bool {
        self.session.trail().assignments.is_assigned(var)
    }

    /// So many variables, at random, that are assigned or are not.
    fn some(&mut self, count: usize, assigned: bool) -> Vec<u32> {
        let all: Vec<usize> = (0..self.n).filter(|&var| self.is_assigned(var) == assigned).collect();
        (0..if all.is_empty() { 0 } else { count }).map(|_| self.rng.pick(&all) as u32).collect()
    }

    /// A decision, what follows from it, and now and then a conflict; always one where hardly anything is open.
    fn decide_and_propagate(&mut self) {
        M::before_decision(self);
        let polarity = self.rng.below(2) as u32;
        self.call(b'g', polarity, 0);
        for _ in 0..6 + self.rng.below(9) {
            self.enqueue();
        }
        let open = (0..self.n).filter(|&var| !self.is_assigned(var)).count();
        if open < 16 || self.rng.chance(1, 3) {
            self.conflict();
        }
    }

    fn enqueue(&mut self) {
        if let Some(&var) = self.some(1, false).first() {
            let reason = if self.clauses > 0 { self.rng.below(self.clauses) as u32 } else { NONE };
            let code = 2 * var + self.rng.below(2) as u32;
            self.call(b'e', code, reason);
        }
    }

    /// The variables of a conflict are bumped, a few reasons too; then back by some levels, where the learnt clause has its literal.
    fn conflict(&mut self) {
        let count = 15 + self.rng.below(11);
        let (bumped, reasons) = (self.some(count, true), self.some(2, true));
        M::bump(self, &bumped);
        for var in reasons {
            self.call(b'r', var, 0);
        }
        self.call(b'y', 0, 0);
        let level = self.session.trail().decision_level();
        let back = if self.rng.chance(1, 30) { level } else { 1 + self.rng.below(3) as u32 };
        self.call(b'k', level.saturating_sub(back), 0);
        // at level 0 it would stay for good, and hardly anything would be left to decide
        if level > back {
            self.enqueue();
        }
    }

    fn group(&mut self, vars: &[u32]) {
        let place = self.vars.len() as u32;
        self.vars.extend(vars);
        self.call(b'f', place, vars.len() as u32);
    }
}

impl Mode for HeapMemory {
    const NAME: &'static str = "heap";

    fn bump(solver: &mut Solver<Self>, vars: &[u32]) {
        for &var in vars {
            solver.call(b'b', var, 0);
        }
    }
}

impl Mode for ListMemory {
    const NAME: &'static str = "list";

    fn bump(solver: &mut Solver<Self>, vars: &[u32]) {
        solver.group(vars);
    }

    /// Brings the search to the front, since it would soon have passed what is open.
    fn before_decision(solver: &mut Solver<Self>) {
        let search = ListMemory::of(&solver.session).search;
        if search != NONE {
            solver.group(&[search]);
        }
    }
}
