//! The choosers that a solver may have, behind one trait. A further one takes an implementation here and a line in the table of names in
//! solver.rs.

use reference::session::{self as plain, Call, VSIDS};
use sigvort::{Batch, Lit, Refusal, Session};

/// What a solver tells its chooser, and asks of it. A chooser has a trail of its own, and the two calls keep it in step with the solver's:
/// the same variables in the same order, at the same levels. The sign of a decided variable may differ, since the solver picks it once it
/// knows the variable; to a chooser it only matters that the variable is assigned.
pub trait Chooser {
    /// A conflict: the variables met in its analysis, and the level that the solver goes back to, which is below the present one. What was
    /// enqueued since the last decision or conflict is told no more: none of it stays.
    fn conflict(&mut self, met: &[u32], level: u32);

    /// A decision: the literals enqueued since the last decision or conflict, all of them at the present level. The chooser opens a level
    /// with a variable that is not assigned, or says that there is none.
    fn decide(&mut self, enqueued: &[Lit]) -> Option<u32>;

    /// Whether the chooser's trail is in step with the solver's, which has these levels by variable and this present level. For tests.
    fn in_step(&self, trail: &[Lit], levels: &[u32], level: u32) -> bool;

    /// How many lists of calls went over.
    fn lists(&self) -> u64;
}

/// The proved heap chooser. It checks all of its memory once for each list of calls, in time linear in the number of variables. The solver
/// waits for the answer to a decision alone; so the calls of a conflict stay in the list until the next decision, and one list goes over
/// for each decision. Reasons stay in the solver and no clauses are lent: what is checked are the variables alone.
pub struct ProvedHeap {
    session: Session<'static>,
    calls: Batch,
    lists: u64,
}

impl ProvedHeap {
    /// Refused where there are too many variables.
    pub fn new(num_vars: u32) -> Result<Self, Refusal> {
        Ok(ProvedHeap { session: Session::heap(num_vars)?, calls: Batch::new(), lists: 0 })
    }
}

impl Chooser for ProvedHeap {
    fn conflict(&mut self, met: &[u32], level: u32) {
        for &var in met {
            self.calls.bump(var);
        }
        self.calls.decay();
        self.calls.go_back(level);
    }

    fn decide(&mut self, enqueued: &[Lit]) -> Option<u32> {
        for &lit in enqueued {
            self.calls.enqueue(lit, None);
        }
        let place = self.calls.decide(false);
        self.lists += 1;
        self.session.batch(&mut self.calls).expect("nobody else writes the session's memory");
        debug_assert!(self.calls.answers().all(|answer| answer.is_ok()), "a call is refused");
        let decision = self.calls.answer(place).expect("a decision by activity is not refused");
        self.calls.clear();
        decision
    }

    fn in_step(&self, trail: &[Lit], levels: &[u32], level: u32) -> bool {
        let vars = |trail: &[Lit]| -> Vec<u32> { trail.iter().map(|lit| lit.var()).collect() };
        self.session.level() == level
            && vars(self.session.trail()) == vars(trail)
            && trail.iter().all(|lit| self.session.level_of(lit.var()) == Some(levels[lit.var() as usize]))
    }

    fn lists(&self) -> u64 {
        self.lists
    }
}

/// The reference's heap chooser, plain Rust to compare with. It does the same calls one by one, and checks nothing but their arguments.
pub struct ReferenceHeap(plain::Session<VSIDS>);

impl ReferenceHeap {
    pub fn new(num_vars: u32) -> Self {
        ReferenceHeap(plain::Session::new(plain::Formula::new(num_vars as usize)))
    }

    fn call(&mut self, call: Call<'_>) -> plain::Reply {
        self.0.call(call).expect("the solver makes no call that is refused")
    }
}

impl Chooser for ReferenceHeap {
    fn conflict(&mut self, met: &[u32], level: u32) {
        for &var in met {
            self.call(Call::Bump(var as usize));
        }
        self.call(Call::Decay);
        self.call(Call::GoBack(level));
    }

    fn decide(&mut self, enqueued: &[Lit]) -> Option<u32> {
        for lit in enqueued {
            self.call(Call::Enqueue(plain::Lit::from_code(lit.code()), None));
        }
        self.call(Call::Decide(0)).map(|var| var as u32)
    }

    fn in_step(&self, trail: &[Lit], _levels: &[u32], level: u32) -> bool {
        let own = self.0.trail();
        own.decision_level() == level && trail.iter().all(|lit| own.assignments.is_assigned(lit.var() as usize))
    }

    fn lists(&self) -> u64 {
        0
    }
}
