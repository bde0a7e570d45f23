use super::rng::Rng;

/// One thing a session does next: a call, or a run of calls that leads somewhere.
#[derive(Clone, Copy, Debug, PartialEq, Eq)]
pub enum Act {
    Bump,
    Decay,
    SetDecay,
    Insert,
    SwitchOff,
    Decide,
    Enqueue,
    LearnUnit,
    GoBack,
    BumpReason,
    Group,
    /// Decays by halves until the step is large, so that the next bumps scale.
    Swell,
    /// Decides until nothing is left: the whole order of the chooser shows.
    Drain,
    /// Opens many levels, with assignments between them.
    Dive,
    /// A line that has no form.
    Nonsense,
}

use Act::*;

type Weights = [(Act, usize)];

const BALANCED: &Weights = &[
    (Bump, 12),
    (Decay, 6),
    (SetDecay, 2),
    (Insert, 4),
    (SwitchOff, 2),
    (Decide, 20),
    (Enqueue, 14),
    (LearnUnit, 4),
    (GoBack, 10),
    (BumpReason, 6),
    (Group, 8),
    (Drain, 1),
    (Dive, 1),
    (Nonsense, 2),
];
const DEEP: &Weights = &[(Dive, 2), (Decide, 20), (Enqueue, 20), (GoBack, 3), (Bump, 10), (Group, 4), (BumpReason, 4)];
const BOUNCING: &Weights = &[(Decide, 20), (GoBack, 20), (Enqueue, 5), (LearnUnit, 2), (Bump, 5), (Group, 3), (Drain, 1)];
const PRESSING: &Weights = &[(Bump, 40), (Decay, 20), (SetDecay, 2), (Decide, 10), (GoBack, 6), (Drain, 1)];
const SCALING: &Weights = &[(Swell, 2), (Bump, 40), (Decay, 10), (SetDecay, 4), (Decide, 10), (GoBack, 5), (Drain, 1)];
const GROUPS: &Weights = &[(Group, 30), (Decide, 15), (GoBack, 5), (LearnUnit, 1), (Drain, 1), (Enqueue, 4)];
const SWITCHING: &Weights = &[(SwitchOff, 10), (Insert, 10), (Decide, 20), (GoBack, 10), (Bump, 10), (Drain, 1)];
const REASONS: &Weights = &[(Enqueue, 30), (BumpReason, 30), (Decide, 10), (GoBack, 8), (Decay, 6), (Drain, 1), (Swell, 1)];
const UNITS: &Weights = &[(LearnUnit, 10), (Decide, 15), (Enqueue, 10), (Bump, 8), (Group, 4), (Drain, 1)];
const PROFILES: [&Weights; 9] = [BALANCED, DEEP, BOUNCING, PRESSING, SCALING, GROUPS, SWITCHING, REASONS, UNITS];

/// What kind of session a sheet holds.
pub struct Profile {
    weights: &'static Weights,
    total: usize,
    /// How many arguments of a thousand are wild: out of range, or whatever comes.
    pub wild: usize,
}

impl Profile {
    pub fn random(rng: &mut Rng) -> Self {
        let weights = rng.pick(&PROFILES);
        let wild = rng.pick(&[0, 5, 30, 200]);
        Profile { weights, total: weights.iter().map(|&(_, weight)| weight).sum(), wild }
    }

    pub fn act(&self, rng: &mut Rng) -> Act {
        let mut left = rng.below(self.total);
        for &(act, weight) in self.weights {
            if left < weight {
                return act;
            }
            left -= weight;
        }
        unreachable!("the weights add up to the total")
    }
}
