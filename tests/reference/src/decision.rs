use crate::{assignments::Assignments, formula::Formula, refusal::Refusal, trail::Trail};

/// What a session asks of a chooser. The calls that a chooser has no use for do nothing.
pub trait Decisions {
    fn new(f: &Formula) -> Self;

    /// Moves a group of variables to the front.
    fn bump_vec_of_vars(&mut self, _vars: &[usize]) {}

    /// Bumps what made a variable's value follow: its reason's literals but the first.
    fn bump_reason_literals(&mut self, _var: usize, _trail: &Trail, _f: &Formula) {}

    /// The variable to decide next, or none where nothing is left to decide.
    fn get_next(&mut self, a: &Assignments) -> Result<Option<usize>, Refusal>;

    fn bump_variable(&mut self, _var: usize) {}

    fn decay_var_inc(&mut self) -> Result<(), Refusal> {
        Ok(())
    }

    fn set_var_decay(&mut self, _decay: f64) {}

    /// Takes a variable back among those to choose from.
    fn insert(&mut self, _var: usize) {}

    fn turn_off_decision_for_idx(&mut self, _var: usize) {}
}
