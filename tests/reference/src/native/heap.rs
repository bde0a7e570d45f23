use super::{all_narrow, all_wide, broken, in_use, narrow, padded, trail, unused_is_none, Fact, Lent, Memory, TrailMemory, NONE};
use crate::{
    heap::Heap,
    session::{Formula, Session, VSIDS},
};

const OFF: u8 = 0;
const ON: u8 = 1;
const MAX_ACTIVITY: f64 = 1e101;
const MAX_STEP: f64 = 1e200;

/// The memory of a session in heap mode: beside the trail an activity, a position among the members and a switch for each variable; the
/// members, with how many there are; the step and its decay.
#[derive(Clone, Debug, Default, PartialEq)]
pub struct HeapMemory {
    pub trail: TrailMemory,
    pub activity: Vec<f64>,
    pub heap: Vec<u32>,
    pub indices: Vec<u32>,
    pub decision: Vec<u8>,
    pub members: u32,
    pub inc: f64,
    pub decay: f64,
}

/// What holds of a good heap.
const FACTS: &[Fact<HeapMemory>] = &[
    ("the members fit their places", |m, lent| m.members as usize <= lent.n),
    ("members are variables", |m, lent| m.in_heap().iter().all(|&var| (var as usize) < lent.n)),
    ("a member's position is its place", |m, _| {
        m.in_heap().iter().enumerate().all(|(place, &var)| m.indices.get(var as usize) == Some(&(place as u32)))
    }),
    ("a position that is not NONE is the variable's place", |m, _| {
        m.indices.iter().enumerate().all(|(var, &place)| place == NONE || m.in_heap().get(place as usize) == Some(&(var as u32)))
    }),
    ("unused places of the heap are NONE", |m, _| unused_is_none(&m.heap, m.members)),
    ("a parent's activity is no lower", |m, _| {
        m.in_heap().iter().enumerate().skip(1).all(|(place, &var)| !m.is_higher(var, m.heap[(place - 1) / 2]))
    }),
    ("activities have no sign and are at most 1e101", |m, _| m.activity.iter().all(|&activity| is_upright(activity, MAX_ACTIVITY))),
    ("the step has no sign and is at most 1e200", |m, _| is_upright(m.inc, MAX_STEP)),
    ("the decay is from 0.5 to 1", |m, _| (0.5..=1.0).contains(&m.decay)),
    ("switches are 0 or 1", |m, _| m.decision.iter().all(|&switch| switch == OFF || switch == ON)),
    ("each switched-on, unassigned variable is a member", |m, lent| {
        let is_member = m.is_member(lent.n);
        (0..lent.n).all(|var| m.decision[var] == OFF || m.trail.is_assigned(var) || is_member[var])
    }),
];

/// Whether a double is without sign bit, not NaN and at most a limit.
fn is_upright(double: f64, limit: f64) -> bool {
    double.is_sign_positive() && double <= limit
}

impl HeapMemory {
    pub fn in_heap(&self) -> &[u32] {
        in_use(&self.heap, self.members)
    }

    /// Of each variable whether it is a member.
    fn is_member(&self, n: usize) -> Vec<bool> {
        let mut is_member = vec![false; n];
        for &var in self.in_heap() {
            if let Some(member) = is_member.get_mut(var as usize) {
                *member = true;
            }
        }
        is_member
    }

    /// Whether a variable's activity is above another's, if they are variables.
    fn is_higher(&self, var: u32, than: u32) -> bool {
        let activity = |var: u32| self.activity.get(var as usize).copied().unwrap_or(f64::NAN);
        activity(var) > activity(than)
    }
}

impl Memory for HeapMemory {
    type Chooser = VSIDS;

    fn fits(&self, n: usize) -> bool {
        let lengths = [self.activity.len(), self.heap.len(), self.indices.len(), self.decision.len()];
        self.trail.fits(n) && lengths.iter().all(|&length| length == n)
    }

    fn broken(&self, lent: Lent) -> Vec<&'static str> {
        broken(trail::FACTS, &self.trail, lent).chain(broken(FACTS, self, lent)).collect()
    }

    fn session(&self, formula: Formula) -> Session<VSIDS> {
        let order_heap = Heap { activity: self.activity.clone(), heap: all_wide(self.in_heap()), indices: all_wide(&self.indices) };
        let decision = self.decision.iter().map(|&switch| switch == ON).collect();
        Session {
            formula,
            trail: self.trail.session(),
            decisions: VSIDS { order_heap, var_inc: self.inc, var_decay: self.decay, decision },
        }
    }

    fn of(session: &Session<VSIDS>) -> Self {
        let VSIDS { order_heap, var_inc, var_decay, decision } = &session.decisions;
        HeapMemory {
            trail: TrailMemory::of(&session.trail),
            activity: order_heap.activity.clone(),
            heap: padded(order_heap.heap.iter().copied().map(narrow), order_heap.activity.len()),
            indices: all_narrow(&order_heap.indices),
            decision: decision.iter().map(|&on| if on { ON } else { OFF }).collect(),
            members: order_heap.len() as u32,
            inc: *var_inc,
            decay: *var_decay,
        }
    }
}
