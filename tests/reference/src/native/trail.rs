use super::{all_narrow, all_wide, in_use, narrow, padded, unused_is_none, Fact, NONE};
use crate::{assignments::Assignments, lit::Lit, trail::Trail};

const UNASSIGNED: u8 = 2;

/// The trail's memory: for each variable a value, a level and a reason; the trail of codes and the opened levels, with how many of each are
/// in use; and how far the trail has been propagated.
#[derive(Clone, Debug, Default, PartialEq, Eq)]
pub struct TrailMemory {
    pub values: Vec<u8>,
    pub levels: Vec<u32>,
    pub reasons: Vec<u32>,
    pub trail: Vec<u32>,
    pub opened: Vec<u32>,
    pub len: u32,
    pub level: u32,
    pub curr_i: u32,
}

/// What holds of a good trail.
pub const FACTS: &[Fact<TrailMemory>] = &[
    ("values are 0, 1 or 2", |m, _| m.values.iter().all(|&value| value <= UNASSIGNED)),
    ("the trail fits its places", |m, lent| m.len as usize <= lent.n),
    ("the opened levels fit their places", |m, lent| m.level as usize <= lent.n),
    ("curr_i is at most the trail's length", |m, _| m.curr_i <= m.len),
    ("trail codes are literals", |m, lent| m.on_trail().iter().all(|&code| variable(code) < lent.n)),
    ("trail codes agree with the values", |m, _| m.on_trail().iter().all(|&code| m.values.get(variable(code)) == Some(&sign(code)))),
    ("no variable is on the trail twice", |m, lent| m.times_on_trail(lent.n).iter().all(|&times| times <= 1)),
    ("each assigned variable is on the trail", |m, lent| {
        m.times_on_trail(lent.n).iter().zip(&m.values).all(|(&times, &value)| times > 0 || value >= UNASSIGNED)
    }),
    ("opened levels rise strictly", |m, _| m.levels_opened().windows(2).all(|pair| pair[0] < pair[1])),
    ("opened levels lie below the trail's length", |m, _| m.levels_opened().iter().all(|&place| place < m.len)),
    ("the level of a trail variable is the number of levels opened up to its place", |m, _| m.levels_agree()),
    ("an unassigned variable has no reason", |m, _| {
        m.values.iter().zip(&m.reasons).all(|(&value, &reason)| value < UNASSIGNED || reason == NONE)
    }),
    ("reasons are clauses or NONE", |m, lent| m.reasons.iter().all(|&reason| reason == NONE || (reason as usize) < lent.clauses)),
    ("unused places of the trail are NONE", |m, _| unused_is_none(&m.trail, m.len)),
    ("unused places of the opened levels are NONE", |m, _| unused_is_none(&m.opened, m.level)),
];

fn variable(code: u32) -> usize {
    (code / 2) as usize
}

fn sign(code: u32) -> u8 {
    (code % 2) as u8
}

impl TrailMemory {
    pub fn on_trail(&self) -> &[u32] {
        in_use(&self.trail, self.len)
    }

    pub fn levels_opened(&self) -> &[u32] {
        in_use(&self.opened, self.level)
    }

    pub fn is_assigned(&self, var: usize) -> bool {
        self.values[var] < UNASSIGNED
    }

    pub fn fits(&self, n: usize) -> bool {
        [&self.levels, &self.reasons, &self.trail, &self.opened].iter().all(|slice| slice.len() == n) && self.values.len() == n
    }

    fn times_on_trail(&self, n: usize) -> Vec<u32> {
        let mut times = vec![0; n];
        for var in self.on_trail().iter().copied().map(variable).filter(|&var| var < n) {
            times[var] += 1;
        }
        times
    }

    /// Whether each variable on the trail has the level of its place: how many opened levels are not above it.
    fn levels_agree(&self) -> bool {
        // how many levels are opened at each place; one that is opened behind the trail is no place's
        let mut opened_at = vec![0; self.on_trail().len()];
        for &place in self.levels_opened() {
            if let Some(times) = opened_at.get_mut(place as usize) {
                *times += 1;
            }
        }
        let mut level = 0;
        self.on_trail().iter().zip(opened_at).all(|(&code, opened)| {
            level += opened;
            self.levels.get(variable(code)) == Some(&level)
        })
    }

    /// The trail that good memory holds.
    pub fn session(&self) -> Trail {
        Trail {
            assignments: Assignments(self.values.clone()),
            lit_to_level: self.levels.clone(),
            lit_to_reason: all_wide(&self.reasons),
            trail: self.on_trail().iter().copied().map(Lit::from_code).collect(),
            decisions: self.levels_opened().iter().map(|&place| place as usize).collect(),
            curr_i: self.curr_i as usize,
        }
    }

    /// The memory that holds a trail.
    pub fn of(trail: &Trail) -> Self {
        let n = trail.assignments.len();
        TrailMemory {
            values: trail.assignments.0.clone(),
            levels: trail.lit_to_level.clone(),
            reasons: all_narrow(&trail.lit_to_reason),
            trail: padded(trail.trail.iter().map(|lit| lit.code()), n),
            opened: padded(trail.decisions.iter().copied().map(narrow), n),
            len: trail.trail.len() as u32,
            level: trail.decision_level(),
            curr_i: trail.curr_i as u32,
        }
    }
}
