use crate::{assignments::Assignments, decision::Decisions, lit::Lit, INVALID};

const UNSET_LEVEL: u32 = u32::MAX;
const UNSET_REASON: usize = INVALID;
const UNIT: usize = INVALID;

/// The assigned literals in the order they came, with the level and the reason of each variable.
pub struct Trail {
    pub assignments: Assignments,
    pub(crate) lit_to_level: Vec<u32>,
    pub lit_to_reason: Vec<usize>,
    pub(crate) trail: Vec<Lit>,
    /// The trail's length before each decision.
    pub(crate) decisions: Vec<usize>,
    /// How far the trail has been propagated; going back sets it, and nothing here reads it.
    pub(crate) curr_i: usize,
}

impl Trail {
    pub fn new(num_vars: usize) -> Trail {
        Trail {
            assignments: Assignments::new(num_vars),
            lit_to_level: vec![UNSET_LEVEL; num_vars],
            lit_to_reason: vec![UNSET_REASON; num_vars],
            trail: Vec::with_capacity(num_vars),
            decisions: Vec::with_capacity(num_vars),
            curr_i: 0,
        }
    }

    pub fn decision_level(&self) -> u32 {
        self.decisions.len() as u32
    }

    /// Whether a variable is assigned and stays so when all levels are undone.
    pub fn is_assigned_for_good(&self, idx: usize) -> bool {
        self.assignments.is_assigned(idx) && self.lit_to_level[idx] == 0
    }

    /// Takes the last literal off the trail.
    fn backstep(&mut self) -> usize {
        let idx = self.trail.pop().expect("an opened level has a literal").index();
        self.assignments.unassign(idx);
        self.lit_to_reason[idx] = UNSET_REASON;
        idx
    }

    /// Goes back to a level below the present one; says how many literals came off.
    pub fn backtrack_safe(&mut self, level: u32, chooser: &mut impl Decisions) -> usize {
        if level < self.decision_level() {
            self.backtrack_to(level as usize, chooser)
        } else {
            0
        }
    }

    fn backtrack_to(&mut self, level: usize, chooser: &mut impl Decisions) -> usize {
        let how_many = self.trail.len() - self.decisions[level];
        for _ in 0..how_many {
            let idx = self.backstep();
            chooser.insert(idx);
        }
        self.decisions.truncate(level);
        self.curr_i = self.trail.len();
        how_many
    }

    pub fn enq_assignment(&mut self, lit: Lit, reason: usize) {
        let idx = lit.index();
        self.lit_to_reason[idx] = reason;
        self.lit_to_level[idx] = self.decision_level();
        self.assignments.assign(idx, lit.is_positive());
        self.trail.push(lit);
    }

    pub fn enq_decision(&mut self, idx: usize, polarity: bool) {
        self.decisions.push(self.trail.len());
        self.lit_to_level[idx] = self.decision_level();
        self.assignments.assign(idx, polarity);
        self.trail.push(Lit::new(idx, polarity));
    }

    /// Undoes all levels, then takes the literal as one that holds for good.
    pub fn learn_unit(&mut self, lit: Lit, chooser: &mut impl Decisions) {
        self.backtrack_safe(0, chooser);
        self.enq_assignment(lit, UNIT);
    }
}
