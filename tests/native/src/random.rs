//! Random clause lists and random memory: words of any kind, and good states that calls need not reach.

use crate::memory::Parts;
use reference::{
    generator::Rng,
    native::{Clauses, HeapMemory, ListMemory, TrailMemory, NONE},
};

pub const MAX_VARIABLES: usize = 2048;
pub const MAX_CLAUSES: usize = 2048;
pub const MAX_LITERALS: usize = 8192;

const UNASSIGNED: u8 = 2;

/// A number of variables: mostly small, so that ties, full trails and empty heaps are common.
pub fn variables(rng: &mut Rng) -> usize {
    match rng.below(100) {
        0..=3 => 0,
        4..=9 => 1,
        10..=49 => 2 + rng.below(7),
        50..=84 => 9 + rng.below(40),
        85..=95 => 49 + rng.below(250),
        96..=98 => 300 + rng.below(1700),
        _ => MAX_VARIABLES,
    }
}

/// A code of a variable below n.
pub fn code(n: usize, rng: &mut Rng) -> u32 {
    rng.below(2 * n) as u32
}

/// A good clause list over n variables; some are as long as they may be.
pub fn clauses(n: usize, rng: &mut Rng) -> Clauses {
    let mut clauses = Clauses::default();
    match rng.below(100) {
        0..=19 => {}
        20..=89 => lengthen(&mut clauses, n, rng.below(4) * rng.below(n.min(30) + 2), rng),
        90..=97 => lengthen(&mut clauses, n, rng.below(600), rng),
        98 => lengthen(&mut clauses, n, MAX_CLAUSES, rng),
        _ if n > 0 => {
            let lits = (0..MAX_LITERALS).map(|_| code(n, rng)).collect();
            clauses = Clauses::new(lits, vec![4, 4, MAX_LITERALS as u32 / 2, MAX_LITERALS as u32]);
        }
        _ => {}
    }
    clauses
}

/// Adds so many clauses, as far as they fit.
pub fn lengthen(clauses: &mut Clauses, n: usize, count: usize, rng: &mut Rng) {
    for _ in 0..count.min(MAX_CLAUSES - clauses.ends.len()) {
        let room = MAX_LITERALS - clauses.lits.len();
        let length = if n == 0 { 0 } else { rng.below(7).min(room) };
        clauses.lits.extend((0..length).map(|_| code(n, rng)));
        clauses.ends.push(clauses.lits.len() as u32);
    }
    *clauses = Clauses::new(std::mem::take(&mut clauses.lits), std::mem::take(&mut clauses.ends));
}

/// A word that a state may hold in some place, or just does not.
pub fn word(n: usize, rng: &mut Rng) -> u64 {
    let n = n as u64;
    let doubles = [0.0, -0.0, 0.5, 0.95, 1.0, 1e100, 1e101, 1e200, f64::NAN, f64::INFINITY, -1.0];
    match rng.below(8) {
        0 => rng.word(),
        1 => rng.pick(&doubles).to_bits(),
        2 => rng.pick(&[n, n + 1, 2 * n, 2 * n + 1, NONE.into(), u64::from(NONE) - 1, u64::MAX]),
        _ => rng.below(2 * n as usize + 4) as u64,
    }
}

/// Memory for n variables with any words in it.
pub fn dirty<M: Parts>(n: usize, rng: &mut Rng) -> M {
    let mut memory = M::default();
    for (_, words) in memory.parts() {
        words.resize(n);
        for place in 0..words.count() {
            words.set(place, word(n, rng));
        }
    }
    memory
}

/// The numbers below n in any order.
fn shuffled(n: usize, rng: &mut Rng) -> Vec<usize> {
    let mut numbers: Vec<usize> = (0..n).collect();
    for i in (1..n).rev() {
        numbers.swap(i, rng.below(i + 1));
    }
    numbers
}

/// A good trail over n variables and so many clauses, which fresh sessions and calls need not lead to.
fn good_trail(n: usize, clauses: usize, rng: &mut Rng) -> TrailMemory {
    let mut trail = TrailMemory {
        values: vec![UNASSIGNED; n],
        levels: (0..n).map(|_| word(n, rng) as u32).collect(),
        reasons: vec![NONE; n],
        trail: vec![NONE; n],
        opened: vec![NONE; n],
        ..TrailMemory::default()
    };
    let len = if rng.chance(1, 4) { n } else { rng.below(n + 1) };
    for var in shuffled(n, rng).into_iter().take(len) {
        if rng.chance(1, 2) {
            trail.opened[trail.level as usize] = trail.len;
            trail.level += 1;
        }
        let sign = rng.below(2);
        trail.values[var] = sign as u8;
        trail.levels[var] = trail.level;
        if clauses > 0 && rng.chance(1, 2) {
            trail.reasons[var] = rng.below(clauses) as u32;
        }
        trail.trail[trail.len as usize] = (2 * var + sign) as u32;
        trail.len += 1;
    }
    trail.curr_i = rng.below(len + 1) as u32;
    trail
}

/// Memory that can be made good in any way.
pub trait Good: Parts {
    /// A good state, which fresh sessions and calls need not lead to.
    fn good(n: usize, clauses: usize, rng: &mut Rng) -> Self;

    /// Brings a good state to where something is about to happen: the end of the stamps, a scaling, the greatest step.
    fn bring_near_limit(&mut self, rng: &mut Rng);

    /// Whether the way from one state to another went over such a limit.
    fn went_over_limit(&self, after: &Self) -> bool;
}

fn double(rng: &mut Rng) -> f64 {
    match rng.below(4) {
        0 => 0.0,
        1 => rng.below(3) as f64,
        2 => rng.below(1000) as f64 / 7.0,
        _ => rng.pick(&[5e-324, 1e-310, 1e99, 1e100, 1e100_f64.next_down(), 1e101]),
    }
}

impl Good for HeapMemory {
    fn good(n: usize, clauses: usize, rng: &mut Rng) -> Self {
        let mut memory = HeapMemory {
            trail: good_trail(n, clauses, rng),
            activity: (0..n).map(|_| double(rng)).collect(),
            heap: vec![NONE; n],
            indices: vec![NONE; n],
            decision: (0..n).map(|_| u8::from(rng.chance(3, 4))).collect(),
            members: 0,
            inc: 1.0,
            decay: 0.95,
        };
        for var in shuffled(n, rng) {
            let is_open = memory.decision[var] == 1 && !memory.trail.is_assigned(var);
            if is_open || rng.chance(1, 2) {
                push(&mut memory, var);
            }
        }
        for place in 0..memory.members {
            let var = memory.heap[place as usize];
            memory.indices[var as usize] = place;
        }
        memory
    }

    fn bring_near_limit(&mut self, rng: &mut Rng) {
        let greatest = self.activity.iter().copied().fold(0.0, f64::max);
        match rng.below(4) {
            0 if greatest > 1e-100 => self.activity.iter_mut().for_each(|activity| *activity *= 1e100 / greatest),
            1 => self.activity.fill(rng.pick(&[1e100, 1e101, 1e100_f64.next_down(), 1e100_f64.next_up(), 5e-324])),
            _ => {}
        }
        self.inc = rng.pick(&[1e200, 1e200_f64.next_down(), 0.9e200, 1e100, 1e99, 1e84, 1.0, 0.0, 5e-324, 1e-310]);
        self.decay = rng.pick(&[0.5, 0.5_f64.next_up(), 0.75, 0.95, 1.0_f64.next_down(), 1.0]);
    }

    fn went_over_limit(&self, after: &Self) -> bool {
        after.inc < self.inc
    }
}

/// Adds a member below the others and lets it rise; positions are set later.
fn push(memory: &mut HeapMemory, var: usize) {
    let HeapMemory { activity, heap, members, .. } = memory;
    let mut place = *members as usize;
    heap[place] = var as u32;
    *members += 1;
    while place > 0 && activity[heap[place] as usize] > activity[heap[(place - 1) / 2] as usize] {
        heap.swap(place, (place - 1) / 2);
        place = (place - 1) / 2;
    }
}

impl Good for ListMemory {
    fn good(n: usize, clauses: usize, rng: &mut Rng) -> Self {
        let mut memory = ListMemory { trail: good_trail(n, clauses, rng), ..ListMemory::default() };
        link(&mut memory, &shuffled(n, rng));
        memory.ts = vec![0; n];
        let mut stamp = rng.below(3) as u64;
        for var in memory.order().into_iter().rev() {
            memory.ts[var] = stamp;
            stamp += 1 + rng.below(3) as u64 * rng.below(1000) as u64;
        }
        memory.timestamp = stamp;
        memory.search = if n == 0 || rng.chance(1, 6) { NONE } else { rng.below(n) as u32 };
        memory
    }

    fn bring_near_limit(&mut self, rng: &mut Rng) {
        let greatest = self.ts.iter().copied().max().unwrap_or(0);
        let room = u64::MAX - 1 - greatest;
        if rng.chance(1, 2) {
            let rise = room - (rng.below(3) as u64).min(room);
            self.ts.iter_mut().for_each(|stamp| *stamp += rise);
        }
        self.timestamp = u64::MAX - (rng.below(5) as u64).min(u64::MAX - 1 - self.ts.iter().copied().max().unwrap_or(0));
    }

    fn went_over_limit(&self, after: &Self) -> bool {
        after.timestamp < self.timestamp
    }
}

/// Sets front and links to an order of all variables.
pub fn link(memory: &mut ListMemory, order: &[usize]) {
    (memory.next, memory.prev) = (vec![NONE; order.len()], vec![NONE; order.len()]);
    for pair in order.windows(2) {
        memory.next[pair[0]] = pair[1] as u32;
        memory.prev[pair[1]] = pair[0] as u32;
    }
    memory.start = order.first().map_or(NONE, |&first| first as u32);
}
