use crate::{assignments::Assignments, decision::Decisions, formula::Formula, heap::Heap, refusal::Refusal, trail::Trail, INVALID};

const FRESH_INC: f64 = 1.0;
const FRESH_DECAY: f64 = 0.95;
/// Above this activity everything is scaled.
const RESCALE_ABOVE: f64 = 1e100;
const RESCALE_BY: f64 = 1e-100;
const MAX_INC: f64 = 1e200;

/// The chooser by activity: a bump adds a step that grows as it is decayed.
#[allow(clippy::upper_case_acronyms)]
pub struct VSIDS {
    pub(crate) order_heap: Heap,
    pub(crate) var_inc: f64,
    pub(crate) var_decay: f64,
    pub(crate) decision: Vec<bool>,
}

impl VSIDS {
    fn rescale(&mut self) {
        for activity in &mut self.order_heap.activity {
            *activity *= RESCALE_BY;
        }
        self.var_inc *= RESCALE_BY;
    }
}

impl Decisions for VSIDS {
    fn new(f: &Formula) -> Self {
        VSIDS { order_heap: Heap::new(f.num_vars), var_inc: FRESH_INC, var_decay: FRESH_DECAY, decision: vec![true; f.num_vars] }
    }

    fn get_next(&mut self, a: &Assignments) -> Result<Option<usize>, Refusal> {
        while let Some(next) = self.order_heap.remove_min() {
            if self.decision[next] && !a.is_assigned(next) {
                return Ok(Some(next));
            }
        }
        Ok(None)
    }

    fn bump_variable(&mut self, var: usize) {
        self.order_heap.activity[var] += self.var_inc;
        if self.order_heap.activity[var] > RESCALE_ABOVE {
            self.rescale();
        }
        if self.order_heap.in_heap(var) {
            self.order_heap.decrease(var);
        }
    }

    fn bump_reason_literals(&mut self, var: usize, trail: &Trail, f: &Formula) {
        let reason = trail.lit_to_reason[var];
        if reason == INVALID {
            return;
        }
        for lit in f.clause(reason).iter().skip(1) {
            self.bump_variable(lit.index());
        }
    }

    fn decay_var_inc(&mut self) -> Result<(), Refusal> {
        let decayed = self.var_inc * (1.0 / self.var_decay);
        if decayed > MAX_INC {
            return Err(Refusal::Step);
        }
        self.var_inc = decayed;
        Ok(())
    }

    fn set_var_decay(&mut self, decay: f64) {
        self.var_decay = decay;
    }

    fn insert(&mut self, var: usize) {
        if !self.order_heap.in_heap(var) && self.decision[var] {
            self.order_heap.insert(var);
        }
    }

    fn turn_off_decision_for_idx(&mut self, var: usize) {
        self.decision[var] = false;
    }
}

#[cfg(test)]
mod tests {
    use super::*;

    fn fresh(num_vars: usize) -> VSIDS {
        VSIDS::new(&Formula::new(num_vars))
    }

    #[test]
    fn no_variable_says_none() {
        assert_eq!(fresh(0).get_next(&Assignments::new(0)), Ok(None));
    }

    #[test]
    fn an_activity_at_the_limit_is_not_scaled() {
        let mut vsids = fresh(1);
        vsids.order_heap.activity[0] = 1e100;
        vsids.bump_variable(0);
        assert_eq!((vsids.order_heap.activity[0], vsids.var_inc), (1e100, 1.0));
    }

    #[test]
    fn above_the_limit_all_activities_and_the_step_are_scaled() {
        let mut vsids = fresh(2);
        vsids.order_heap.activity[1] = 1e100;
        vsids.var_inc = 1e200;
        vsids.bump_variable(0);
        assert_eq!(vsids.order_heap.activity, [1e200 * 1e-100, 1e100 * 1e-100]);
        assert_eq!(vsids.var_inc, 1e200 * 1e-100);
    }

    #[test]
    fn decaying_divides_the_step() {
        let mut vsids = fresh(0);
        vsids.set_var_decay(0.5);
        assert_eq!((vsids.decay_var_inc(), vsids.var_inc), (Ok(()), 2.0));
        vsids.set_var_decay(1.0);
        assert_eq!((vsids.decay_var_inc(), vsids.var_inc), (Ok(()), 2.0));
    }

    #[test]
    fn the_greatest_step_decays_by_one_alone() {
        let mut vsids = fresh(0);
        vsids.var_inc = 1e200;
        vsids.set_var_decay(1.0);
        assert_eq!(vsids.decay_var_inc(), Ok(()));
        vsids.set_var_decay(0.5);
        assert_eq!((vsids.decay_var_inc(), vsids.var_inc), (Err(Refusal::Step), 1e200));
    }

    #[test]
    fn a_variable_that_is_off_is_dropped_and_not_taken_back() {
        let mut vsids = fresh(1);
        vsids.turn_off_decision_for_idx(0);
        assert_eq!(vsids.get_next(&Assignments::new(1)), Ok(None));
        assert!(vsids.order_heap.empty());
        vsids.insert(0);
        assert!(vsids.order_heap.empty());
    }
}
