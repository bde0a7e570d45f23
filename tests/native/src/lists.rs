//! Random lists of calls: most of them are accepted, some refused, some have no form.

use crate::memory::List;
use reference::{
    generator::Rng,
    native::{read_call, ANSWER_WORDS, CALL_WORDS, MAX_GROUP, NONE},
    session::{Decisions, Session},
};

const LETTERS: [u8; 11] = *b"bywiogeukrf";

/// Makes a list for a session, which goes along so that most calls fit its state.
pub struct Maker<'a, D> {
    session: Session<D>,
    n: usize,
    clauses: usize,
    /// How often each letter comes.
    weights: [usize; LETTERS.len()],
    list: List,
    rng: &'a mut Rng,
}

impl<'a, D: Decisions> Maker<'a, D> {
    pub fn new(session: Session<D>, n: usize, clauses: usize, rng: &'a mut Rng) -> Self {
        let weights = LETTERS.map(|_| rng.pick(&[0, 1, 1, 4, 12]));
        Maker { session, n, clauses, weights, list: List::default(), rng }
    }

    pub fn list(mut self) -> List {
        self.lend_vars();
        let count = match self.rng.below(20) {
            0 => 0,
            1..=3 => 1,
            4..=13 => 2 + self.rng.below(20),
            14..=18 => 20 + self.rng.below(100),
            _ => 100 + self.rng.below(400),
        };
        let mut group = Vec::new();
        for _ in 0..count {
            let mut words = self.call();
            if self.rng.chance(1, 25) {
                self.spoil(&mut words);
            }
            // the session goes along; what it answers does not matter here
            let _ = read_call(words, &self.list.vars, &mut group).and_then(|call| self.session.call(call));
            self.list.calls.extend(words);
        }
        let answers = count * ANSWER_WORDS;
        self.list.answers = (0..answers).map(|_| self.rng.word() as u32).collect();
        self.list
    }

    /// The variables of which groups are made; now and then there is one too many for a group, or one that is no variable.
    fn lend_vars(&mut self) {
        let count = match self.rng.below(50) {
            0 | 1 => MAX_GROUP + self.rng.below(4),
            2..=5 => 0,
            6..=10 => self.n.min(MAX_GROUP),
            _ => self.rng.below(40),
        };
        let wrong = self.rng.chance(1, 6);
        self.list.vars = (0..count).map(|_| if wrong { self.variable() } else { self.rng.below(self.n) as u32 }).collect();
    }

    fn call(&mut self) -> [u32; CALL_WORDS] {
        let letter = self.letter();
        let [first, second] = match letter {
            b'y' => [0, 0],
            b'w' => self.decay(),
            b'g' => [if self.rng.chance(1, 20) { self.number() } else { self.rng.below(2) as u32 }, 0],
            b'e' => [self.literal(), self.reason()],
            b'u' => [self.literal(), 0],
            b'k' => [self.level(), 0],
            b'f' => self.group(),
            _ => [self.variable(), 0],
        };
        [letter.into(), first, second]
    }

    fn letter(&mut self) -> u8 {
        let mut at = self.rng.below(self.weights.iter().sum::<usize>().max(1));
        for (letter, &weight) in LETTERS.into_iter().zip(&self.weights) {
            if at < weight {
                return letter;
            }
            at -= weight;
        }
        b'g'
    }

    /// A number that is hardly ever in range.
    fn number(&mut self) -> u32 {
        let n = self.n as u32;
        let any = self.rng.word() as u32;
        self.rng.pick(&[2, n, n + 1, 2 * n, 2 * n + 1, NONE, NONE - 1, 1 << 31, any])
    }

    fn variable(&mut self) -> u32 {
        if self.n == 0 || self.rng.chance(1, 25) {
            self.number()
        } else {
            self.rng.below(self.n) as u32
        }
    }

    /// A literal, most often of a variable that is not assigned.
    fn literal(&mut self) -> u32 {
        if self.n == 0 || self.rng.chance(1, 25) {
            return self.number();
        }
        let mut var = self.rng.below(self.n);
        for _ in 0..6 {
            if !self.session.trail().assignments.is_assigned(var) || self.rng.chance(1, 10) {
                break;
            }
            var = self.rng.below(self.n);
        }
        (2 * var + self.rng.below(2)) as u32
    }

    fn reason(&mut self) -> u32 {
        match self.rng.below(20) {
            0 => self.clauses as u32 + self.rng.below(2) as u32,
            1 => self.number(),
            2..=7 => NONE,
            _ => self.rng.below(self.clauses) as u32,
        }
    }

    fn level(&mut self) -> u32 {
        let present = self.session.trail().decision_level();
        match self.rng.below(12) {
            0 => self.number(),
            1 => 0,
            2 => present + self.rng.below(3) as u32,
            3..=6 => self.rng.below(present as usize + 1) as u32,
            _ => present.saturating_sub(1 + self.rng.below(3) as u32),
        }
    }

    fn decay(&mut self) -> [u32; 2] {
        let low = 0.5_f64;
        let good = [low, low.next_up(), 0.75, 0.95, 1.0_f64.next_down(), 1.0];
        let bad = [low.next_down(), 1.0_f64.next_up(), f64::NAN, -f64::NAN, -0.75, 0.0, f64::INFINITY];
        let bits = match self.rng.below(8) {
            0 => self.rng.pick(&bad).to_bits(),
            1 => self.rng.word(),
            _ => self.rng.pick(&good).to_bits(),
        };
        [(bits >> 32) as u32, bits as u32]
    }

    /// A group that lies in the lent variables, now and then not.
    fn group(&mut self) -> [u32; 2] {
        let lent = self.list.vars.len();
        if lent >= MAX_GROUP && self.rng.chance(1, 2) {
            let count = (MAX_GROUP - 1 + self.rng.below(3)).min(lent);
            return [self.rng.below(lent - count + 1) as u32, count as u32];
        }
        let place = self.rng.below(lent + 1);
        let count = if self.rng.chance(1, 3) { lent - place } else { self.rng.below((lent - place).min(12) + 1) };
        let (place, count, lent) = (place as u32, count as u32, lent as u32);
        match self.rng.below(20) {
            0 => [place, lent - place + 1],
            1 => [lent + 1, 0],
            2 => [NONE - place, place + 1 + self.rng.below(3) as u32],
            3 => [self.number(), self.number()],
            4 => [0, lent],
            _ => [place, count],
        }
    }

    /// Makes words without form, or with another.
    fn spoil(&mut self, words: &mut [u32; CALL_WORDS]) {
        match self.rng.below(5) {
            0 => words[0] = self.rng.below(256) as u32,
            1 => words[0] += 256 << self.rng.below(24),
            2 => words[2] = self.number(),
            3 => words[1] = self.number(),
            _ => words[self.rng.below(CALL_WORDS)] ^= 1 << self.rng.below(32),
        }
    }
}
