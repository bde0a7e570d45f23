//! A session over vectors: clauses, a trail and a chooser, `VSIDS` or `VMTF`, and the eleven calls on them. A call checks its arguments (8 to 14) and
//! nothing else, since what it works on is its own.

use crate::INVALID;

pub use crate::{decision::Decisions, formula::Formula, lit::Lit, refusal::Refusal, trail::Trail, vmtf::VMTF, vsids::VSIDS};

/// A call on a session, with arguments still unchecked.
#[derive(Clone, Copy, Debug)]
pub enum Call<'a> {
    Bump(usize),
    Decay,
    SetDecay(f64),
    Insert(usize),
    SwitchOff(usize),
    Decide(u32),
    Enqueue(Lit, Option<usize>),
    LearnUnit(Lit),
    GoBack(u32),
    BumpReason(usize),
    Group(&'a [usize]),
}

/// The reply of a call that is done: a number, where the call has one.
pub type Reply = Option<usize>;

/// Clauses, trail and chooser.
pub struct Session<D> {
    pub(crate) formula: Formula,
    pub(crate) trail: Trail,
    pub(crate) decisions: D,
}

/// A session of either mode.
pub enum Live {
    Heap(Session<VSIDS>),
    List(Session<VMTF>),
}

impl Live {
    pub fn trail(&self) -> &Trail {
        match self {
            Live::Heap(session) => session.trail(),
            Live::List(session) => session.trail(),
        }
    }
}

impl<D: Decisions> Session<D> {
    /// A fresh session: nothing assigned, no level opened.
    pub fn new(formula: Formula) -> Self {
        Session { trail: Trail::new(formula.num_vars), decisions: D::new(&formula), formula }
    }

    pub fn trail(&self) -> &Trail {
        &self.trail
    }

    pub fn formula(&self) -> &Formula {
        &self.formula
    }

    /// Adds a clause behind the others; a reason may name it from now on.
    pub fn add_clause(&mut self, lits: impl IntoIterator<Item = Lit>) -> Result<(), Refusal> {
        self.formula.add_clause(lits.into_iter().map(Ok))
    }

    /// Does a call, or says why not; then nothing is changed.
    pub fn call(&mut self, call: Call<'_>) -> Result<Reply, Refusal> {
        match call {
            Call::Bump(var) => self.on_variable(var, |s| s.decisions.bump_variable(var)),
            Call::Insert(var) => self.on_variable(var, |s| s.decisions.insert(var)),
            Call::SwitchOff(var) => self.on_variable(var, |s| s.decisions.turn_off_decision_for_idx(var)),
            Call::BumpReason(var) => self.on_variable(var, |s| s.decisions.bump_reason_literals(var, &s.trail, &s.formula)),
            Call::Decay => self.decisions.decay_var_inc().map(|()| None),
            Call::SetDecay(decay) => self.set_decay(decay),
            Call::Decide(polarity) => self.decide(polarity),
            Call::Enqueue(lit, reason) => self.enqueue(lit, reason),
            Call::LearnUnit(lit) => self.learn_unit(lit),
            Call::GoBack(level) => Ok(Some(self.trail.backtrack_safe(level, &mut self.decisions))),
            Call::Group(vars) => self.group(vars),
        }
    }

    fn check_variable(&self, var: usize) -> Result<(), Refusal> {
        if var < self.formula.num_vars {
            Ok(())
        } else {
            Err(Refusal::Variable)
        }
    }

    fn on_variable(&mut self, var: usize, act: impl FnOnce(&mut Self)) -> Result<Reply, Refusal> {
        self.check_variable(var)?;
        act(self);
        Ok(None)
    }

    fn set_decay(&mut self, decay: f64) -> Result<Reply, Refusal> {
        // a NaN lies in no range
        if !(0.5..=1.0).contains(&decay) {
            return Err(Refusal::Decay);
        }
        self.decisions.set_var_decay(decay);
        Ok(None)
    }

    fn decide(&mut self, polarity: u32) -> Result<Reply, Refusal> {
        if polarity > 1 {
            return Err(Refusal::Polarity);
        }
        let next = self.decisions.get_next(&self.trail.assignments)?;
        if let Some(var) = next {
            self.trail.enq_decision(var, polarity == 1);
        }
        Ok(next)
    }

    fn enqueue(&mut self, lit: Lit, reason: Option<usize>) -> Result<Reply, Refusal> {
        self.check_variable(lit.index())?;
        if reason.is_some_and(|cref| cref >= self.formula.num_clauses()) {
            return Err(Refusal::Reason);
        }
        if self.trail.assignments.is_assigned(lit.index()) {
            return Err(Refusal::Assigned);
        }
        self.trail.enq_assignment(lit, reason.unwrap_or(INVALID));
        Ok(None)
    }

    fn learn_unit(&mut self, lit: Lit) -> Result<Reply, Refusal> {
        self.check_variable(lit.index())?;
        if self.trail.is_assigned_for_good(lit.index()) {
            return Err(Refusal::Assigned);
        }
        self.trail.learn_unit(lit, &mut self.decisions);
        Ok(None)
    }

    fn group(&mut self, vars: &[usize]) -> Result<Reply, Refusal> {
        vars.iter().try_for_each(|&var| self.check_variable(var))?;
        self.decisions.bump_vec_of_vars(vars);
        Ok(None)
    }
}
