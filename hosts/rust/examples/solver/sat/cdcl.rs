//! Search by conflict-driven clause learning: two watched literals, clauses of the first unique implication point, saved phases, Luby
//! restarts. Values, trail, reasons and clauses are the solver's own. Which variable to decide next is all that it asks of its chooser.

use super::{
    choosers::Chooser,
    clauses::{Clause, Clauses},
    restarts::Restarts,
    Formula, Outcome, Stats,
};
use sigvort::Lit;
use std::mem;

/// How many learnt clauses there may be before half of them is forgotten, and by how much that grows each time.
const LEARNT_AT_FIRST: u32 = 2_000;
const LEARNT_MORE: u32 = 500;

#[derive(Clone, Copy, PartialEq, Eq)]
enum Value {
    False,
    True,
    Open,
}

/// The reason of a literal that was decided or holds for good.
const NO_REASON: Clause = Clause::MAX;

/// A clause that watches a literal, with another of its literals: while that one is true, the clause need not be looked at.
#[derive(Clone, Copy)]
struct Watch {
    clause: Clause,
    other: Lit,
}

pub struct Solver<C> {
    chooser: C,
    /// First the formula's clauses, then those learnt.
    clauses: Clauses,
    given: u32,
    learnt_room: u32,
    /// By literal: its value, and the clauses that watch it. A clause watches its first two literals.
    values: Vec<Value>,
    watches: Vec<Vec<Watch>>,
    /// By variable: the level and the reason of its value, and the sign that it had last.
    levels: Vec<u32>,
    reasons: Vec<Clause>,
    phases: Vec<bool>,
    /// The true literals in the order in which they became so; the trail's length before each decision; how far it is propagated, and how
    /// far the chooser has been told of it. What it has not been told of is at the present level.
    trail: Vec<Lit>,
    opened: Vec<usize>,
    propagated: usize,
    told: usize,
    /// Of the last conflict: the variables met in its analysis, the same by variable while it lasts, and the clause learnt.
    met: Vec<u32>,
    is_met: Vec<bool>,
    learnt: Vec<Lit>,
    restarts: Restarts,
    /// The formula has an empty clause, or two units that contradict each other.
    refuted: bool,
    stats: Stats,
}

impl<C: Chooser> Solver<C> {
    pub fn new(formula: &Formula, chooser: C) -> Self {
        let num_vars = formula.num_vars as usize;
        let mut solver = Solver {
            chooser,
            clauses: Clauses::default(),
            given: 0,
            learnt_room: LEARNT_AT_FIRST,
            values: vec![Value::Open; 2 * num_vars],
            watches: vec![Vec::new(); 2 * num_vars],
            levels: vec![0; num_vars],
            reasons: vec![NO_REASON; num_vars],
            phases: vec![false; num_vars],
            trail: Vec::with_capacity(num_vars),
            opened: Vec::with_capacity(num_vars),
            propagated: 0,
            told: 0,
            met: Vec::new(),
            is_met: vec![false; num_vars],
            learnt: Vec::new(),
            restarts: Restarts::new(),
            refuted: false,
            stats: Stats::default(),
        };
        for clause in &formula.clauses {
            solver.give(clause.clone());
        }
        solver.given = solver.clauses.len();
        solver
    }

    /// Adds a clause of the formula without its repetitions, unless it has a variable with both signs and is true anyway.
    fn give(&mut self, mut clause: Vec<Lit>) {
        clause.sort_unstable();
        clause.dedup();
        if clause.windows(2).any(|pair| pair[0] == !pair[1]) {
            return;
        }
        match clause[..] {
            [] => self.refuted = true,
            [unit] => match self.value(unit) {
                Value::False => self.refuted = true,
                Value::True => {}
                Value::Open => self.assign(unit, NO_REASON),
            },
            _ => {
                self.attach(&clause, 0);
            }
        }
    }

    pub fn solve(mut self) -> (Outcome, Stats) {
        let outcome = if self.refuted { Outcome::Unsatisfiable } else { self.search() };
        (outcome, Stats { lists: self.chooser.lists(), ..self.stats })
    }

    fn search(&mut self) -> Outcome {
        loop {
            if let Some(conflict) = self.propagate() {
                if self.level() == 0 {
                    return Outcome::Unsatisfiable;
                }
                self.learn_from(conflict);
                continue;
            }
            if self.level() == 0 && self.clauses.len() - self.given > self.learnt_room {
                self.forget();
            }
            // the chooser hears of what has become true since it was last told, and decides
            match self.chooser.decide(&self.trail[self.told..]) {
                Some(var) => self.open(var),
                None => return Outcome::Satisfiable(self.model()),
            }
        }
    }

    fn level(&self) -> u32 {
        self.opened.len() as u32
    }

    fn value(&self, lit: Lit) -> Value {
        self.values[lit.code() as usize]
    }

    /// The trail by variable. The chooser has said that none is open.
    fn model(&self) -> Vec<Lit> {
        let mut model = self.trail.clone();
        model.sort_unstable();
        model
    }

    /// Makes an open literal true at the present level.
    fn assign(&mut self, lit: Lit, reason: Clause) {
        self.values[lit.code() as usize] = Value::True;
        self.values[(!lit).code() as usize] = Value::False;
        self.levels[lit.var() as usize] = self.level();
        self.reasons[lit.var() as usize] = reason;
        self.trail.push(lit);
    }

    /// Opens a level with a variable that the chooser has decided, with the sign that it had last.
    fn open(&mut self, var: u32) {
        self.stats.decisions += 1;
        self.opened.push(self.trail.len());
        self.assign(Lit::new(var, self.phases[var as usize]), NO_REASON);
        self.told = self.trail.len();
        debug_assert!(self.chooser.in_step(&self.trail, &self.levels, self.level()));
    }

    /// Goes back to a level below the present one, as the chooser has been told.
    fn go_back(&mut self, level: u32) {
        let len = self.opened[level as usize];
        for lit in self.trail.drain(len..) {
            self.values[lit.code() as usize] = Value::Open;
            self.values[(!lit).code() as usize] = Value::Open;
            self.phases[lit.var() as usize] = lit.is_positive();
        }
        self.opened.truncate(level as usize);
        self.propagated = len;
        self.told = len;
    }

    /// Adds a clause of two literals or more.
    fn attach(&mut self, lits: &[Lit], spread: u32) -> Clause {
        let clause = self.clauses.push(lits, spread);
        for (watched, other) in [(lits[0], lits[1]), (lits[1], lits[0])] {
            self.watches[watched.code() as usize].push(Watch { clause, other });
        }
        clause
    }

    /// Makes true what follows by single clauses, until nothing more does or a clause is false: this clause.
    fn propagate(&mut self) -> Option<Clause> {
        while self.propagated < self.trail.len() {
            let lit = !self.trail[self.propagated];
            self.propagated += 1;
            self.stats.propagations += 1;
            let mut watches = mem::take(&mut self.watches[lit.code() as usize]);
            let conflict = self.visit(lit, &mut watches);
            self.watches[lit.code() as usize] = watches;
            if conflict.is_some() {
                return conflict;
            }
        }
        None
    }

    /// Visits the clauses that watch a literal, which has become false. Each finds another literal to watch, has a true one, makes its last
    /// one true, or is false.
    fn visit(&mut self, lit: Lit, watches: &mut Vec<Watch>) -> Option<Clause> {
        let (mut next, mut kept) = (0, 0);
        let mut conflict = None;
        'watches: while next < watches.len() && conflict.is_none() {
            let Watch { clause, mut other } = watches[next];
            next += 1;
            if self.value(other) != Value::True {
                let lits = self.clauses.lits_mut(clause);
                if lits[0] == lit {
                    lits.swap(0, 1);
                }
                other = lits[0];
                if self.values[other.code() as usize] != Value::True {
                    for place in 2..lits.len() {
                        if self.values[lits[place].code() as usize] != Value::False {
                            lits.swap(1, place);
                            self.watches[lits[1].code() as usize].push(Watch { clause, other });
                            continue 'watches;
                        }
                    }
                    match self.value(other) {
                        Value::Open => self.assign(other, clause),
                        _ => conflict = Some(clause),
                    }
                }
            }
            watches[kept] = Watch { clause, other };
            kept += 1;
        }
        watches.drain(kept..next);
        conflict
    }

    /// Learns from a clause that is false, and goes back to the level at which the learnt clause makes a literal true; or to level 0, where
    /// a restart is due.
    fn learn_from(&mut self, conflict: Clause) {
        self.stats.conflicts += 1;
        let asserting = self.analyse(conflict);
        let level = if self.restarts.due() { 0 } else { asserting };
        // the chooser hears of the conflict now, and of the literal that was learnt when it decides next
        self.chooser.conflict(&self.met, level);
        self.go_back(level);
        let learnt = mem::take(&mut self.learnt);
        let reason = if learnt.len() > 1 { self.attach(&learnt, self.spread(&learnt)) } else { NO_REASON };
        if level == asserting {
            self.assign(learnt[0], reason);
        }
        self.learnt = learnt;
    }

    /// Learns the clause of the first unique implication point: a false clause resolved with the reasons of its literals, the latest first,
    /// until only one of the present level is left. This one comes first, and behind it one of the next highest level, which is the answer.
    fn analyse(&mut self, conflict: Clause) -> u32 {
        self.met.clear();
        self.learnt.clear();
        let mut lits = self.clauses.lits(conflict);
        let mut place = self.trail.len();
        let mut at_level = 0;
        loop {
            for &lit in lits {
                let level = self.levels[lit.var() as usize];
                if level == 0 || mem::replace(&mut self.is_met[lit.var() as usize], true) {
                    continue;
                }
                self.met.push(lit.var());
                if level < self.opened.len() as u32 {
                    self.learnt.push(lit);
                } else {
                    at_level += 1;
                }
            }
            place = self.trail[..place].iter().rposition(|lit| self.is_met[lit.var() as usize]).expect("a literal of the level is met");
            at_level -= 1;
            if at_level == 0 {
                break;
            }
            // what a reason makes true is its first literal
            lits = &self.clauses.lits(self.reasons[self.trail[place].var() as usize])[1..];
        }
        self.minimise();
        for &var in &self.met {
            self.is_met[var as usize] = false;
        }
        let highest = (0..self.learnt.len()).max_by_key(|&i| self.levels[self.learnt[i].var() as usize]);
        self.learnt.insert(0, !self.trail[place]);
        highest.map_or(0, |i| {
            self.learnt.swap(1, i + 1);
            self.levels[self.learnt[1].var() as usize]
        })
    }

    /// Drops the learnt literals that follow from others: those of whose reasons every variable was met.
    fn minimise(&mut self) {
        let Solver { learnt, clauses, reasons, levels, is_met, .. } = self;
        let is_implied = |lit: &Lit| is_met[lit.var() as usize] || levels[lit.var() as usize] == 0;
        learnt.retain(|lit| {
            let reason = reasons[lit.var() as usize];
            reason == NO_REASON || !clauses.lits(reason)[1..].iter().all(is_implied)
        });
    }

    /// Over how many levels literals are spread.
    fn spread(&self, lits: &[Lit]) -> u32 {
        let mut levels: Vec<u32> = lits.iter().map(|lit| self.levels[lit.var() as usize]).collect();
        levels.sort_unstable();
        levels.dedup();
        levels.len() as u32
    }

    /// Forgets the worse half of the learnt clauses. This is at level 0, with everything propagated: reasons are not read any more, and a
    /// clause that is not true already watches two open literals.
    fn forget(&mut self) {
        let mut kept: Vec<Clause> = (self.given..self.clauses.len()).collect();
        kept.sort_by_key(|&clause| (self.clauses.spread(clause), self.clauses.lits(clause).len()));
        kept.truncate(kept.len() / 2);
        self.learnt_room += LEARNT_MORE;
        self.watches.iter_mut().for_each(Vec::clear);
        let old = mem::take(&mut self.clauses);
        for clause in (0..self.given).chain(kept) {
            self.attach(old.lits(clause), old.spread(clause));
        }
    }
}
