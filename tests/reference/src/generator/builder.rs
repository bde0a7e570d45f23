use super::{
    profile::{Act, Profile},
    rng::Rng,
};
use crate::{
    formula::Formula,
    refusal::Refusal,
    session::{Live, Reply, Session},
    sheet::{parse_call, Mode, MAX_SHEET},
};

fn fresh(mode: Mode, formula: Formula) -> Live {
    match mode {
        Mode::Vsids => Live::Heap(Session::new(formula)),
        Mode::Vmtf => Live::List(Session::new(formula)),
    }
}

/// A sheet in the making.
pub struct Builder<'a> {
    rng: &'a mut Rng,
    mode: Mode,
    num_vars: usize,
    clauses: usize,
    length: usize,
    sheet: Vec<u8>,
    /// The session runs along, so that the next call can be chosen by its state.
    live: Live,
}

const HALF: &str = "3fe0000000000000";
/// Decays at the ends of their range, beyond them, and none at all.
const DECAYS: [&str; 12] = [
    HALF,
    "3fdfffffffffffff",
    "3fe0000000000001",
    "3ff0000000000000",
    "3ff0000000000001",
    "3fefffffffffffff",
    "3fee666666666666",
    "7ff8000000000000",
    "7ff0000000000000",
    "fff0000000000001",
    "8000000000000000",
    "bfe8000000000000",
];
const NONSENSE: [&str; 12] = ["", "x", "y\t", "y\t0", "b", "b\t01", "g\t-", "c\t1", "n\t1\tvsids", "e\t0", "k\t4294967296", "f\t0\t"];

impl<'a> Builder<'a> {
    pub fn new(mode: Mode, num_vars: usize, length: usize, rng: &'a mut Rng) -> Self {
        let name = if mode == Mode::Vsids { "vsids" } else { "vmtf" };
        let sheet = format!("n\t{num_vars}\t{name}\n").into_bytes();
        Builder { rng, mode, num_vars, clauses: 0, length, sheet, live: fresh(mode, Formula::new(0)) }
    }

    /// Adds random clauses and makes the session.
    pub fn clauses(&mut self) {
        let wanted = self.rng.pick(&[0, 1, 3, 10, 40, 200]);
        let mut formula = Formula::new(self.num_vars);
        while self.clauses < wanted && self.sheet.len() < self.length / 2 {
            let mut line = String::from("c");
            for _ in 0..self.rng.below(7) {
                let var = self.variable(2);
                line += &format!("\t{}", 2 * u64::from(var) % (1 << 32) + self.rng.below(2) as u64);
            }
            self.clauses += usize::from(crate::sheet::parse_clause(line.as_bytes(), &mut formula).is_ok());
            self.push(&line);
        }
        self.live = fresh(self.mode, formula);
    }

    /// Adds calls until the length is reached.
    pub fn session(&mut self, profile: &Profile) {
        while self.sheet.len() < self.length {
            let act = profile.act(self.rng);
            self.act(act, profile.wild);
        }
    }

    /// The sheet, mostly with a tail that shows where the chooser stands.
    pub fn finish(mut self) -> Vec<u8> {
        if self.rng.chance(3, 4) {
            let _ = self.call("k\t0".into());
            self.drain();
        }
        if self.rng.chance(1, 8) {
            self.sheet.extend(b"g\t1");
        }
        self.sheet.truncate(MAX_SHEET);
        self.sheet
    }

    fn push(&mut self, line: &str) {
        self.sheet.extend(line.as_bytes());
        self.sheet.push(b'\n');
    }

    fn call(&mut self, line: String) -> Result<Reply, Refusal> {
        self.push(&line);
        let mut group = Vec::new();
        let call = parse_call(line.as_bytes(), &mut group)?;
        match &mut self.live {
            Live::Heap(session) => session.call(call),
            Live::List(session) => session.call(call),
        }
    }

    fn act(&mut self, act: Act, wild: usize) {
        let line = match act {
            Act::Bump => format!("b\t{}", self.hot_variable(wild)),
            Act::Decay => "y".into(),
            Act::SetDecay => format!("w\t{}", self.decay(wild)),
            Act::Insert => format!("i\t{}", self.variable(wild)),
            Act::SwitchOff => format!("o\t{}", self.variable(wild)),
            Act::Decide => format!("g\t{}", self.polarity(wild)),
            Act::Enqueue => format!("e\t{}\t{}", self.open_literal(wild), self.reason(wild)),
            Act::LearnUnit => format!("u\t{}", self.open_literal(wild)),
            Act::GoBack => format!("k\t{}", self.level(wild)),
            Act::BumpReason => format!("r\t{}", self.variable(wild)),
            Act::Group => self.group(wild),
            Act::Swell => return self.swell(),
            Act::Drain => return self.drain(),
            Act::Dive => return self.dive(wild),
            Act::Nonsense => self.rng.pick(&NONSENSE).into(),
        };
        let _ = self.call(line);
    }

    fn swell(&mut self) {
        let _ = self.call(format!("w\t{HALF}"));
        for _ in 0..self.rng.pick(&[20, 330, 340, 700]) {
            if self.sheet.len() >= MAX_SHEET || self.call("y".into()).is_err() {
                break;
            }
        }
    }

    fn drain(&mut self) {
        while self.sheet.len() < MAX_SHEET {
            let line = format!("g\t{}", self.rng.below(2));
            if !matches!(self.call(line), Ok(Some(_))) {
                break;
            }
        }
    }

    fn dive(&mut self, wild: usize) {
        for _ in 0..self.rng.below(40) {
            let act = if self.rng.chance(2, 3) { Act::Decide } else { Act::Enqueue };
            self.act(act, wild);
        }
    }

    fn wild(&mut self, wild: usize) -> bool {
        self.rng.chance(wild, 1000)
    }

    /// Any number, the edges of the ranges first.
    fn wild_number(&mut self) -> u32 {
        let edges = [self.num_vars, self.num_vars + 1, 2 * self.num_vars, self.clauses, 2048, 4_294_967_294, 4_294_967_295];
        match self.rng.below(8) {
            7 => self.rng.word() as u32,
            edge => edges[edge] as u32,
        }
    }

    fn variable(&mut self, wild: usize) -> u32 {
        if self.num_vars == 0 || self.wild(wild) {
            self.wild_number()
        } else {
            self.rng.below(self.num_vars) as u32
        }
    }

    /// A variable, rather one of the first few: they pull ahead.
    fn hot_variable(&mut self, wild: usize) -> u32 {
        if self.num_vars > 0 && self.rng.chance(1, 2) {
            self.rng.below(self.num_vars.min(6)) as u32
        } else {
            self.variable(wild)
        }
    }

    /// A literal, rather of an unassigned variable.
    fn open_literal(&mut self, wild: usize) -> u32 {
        let mut var = self.variable(wild);
        for _ in 0..6 {
            if !self.assigned(var) {
                break;
            }
            var = self.variable(wild);
        }
        var.wrapping_mul(2) | self.rng.below(2) as u32
    }

    fn assigned(&self, var: u32) -> bool {
        let values = &self.live.trail().assignments;
        (var as usize) < values.len() && values.is_assigned(var as usize)
    }

    fn reason(&mut self, wild: usize) -> String {
        if self.wild(wild) {
            self.wild_number().to_string()
        } else if self.clauses == 0 || self.rng.chance(1, 4) {
            "-".into()
        } else {
            self.rng.below(self.clauses).to_string()
        }
    }

    fn polarity(&mut self, wild: usize) -> u32 {
        if self.wild(wild) {
            self.wild_number()
        } else {
            self.rng.below(2) as u32
        }
    }

    fn level(&mut self, wild: usize) -> u32 {
        let present = self.live.trail().decision_level();
        match self.rng.below(4) {
            0 if self.wild(wild) => self.wild_number(),
            0 | 1 => self.rng.below(present as usize + 2) as u32,
            _ => present.saturating_sub(1 + self.rng.below(3) as u32),
        }
    }

    fn decay(&mut self, wild: usize) -> String {
        if self.wild(2 * wild) || self.rng.chance(1, 8) {
            self.rng.pick(&DECAYS).into()
        } else {
            // any double from 0.5 up to 1
            format!("3fe{:013x}", self.rng.word() >> 12)
        }
    }

    fn group(&mut self, wild: usize) -> String {
        let most = self.rng.pick(&[0, 1, 2, 5, 12, 40, 400]);
        let mut line = String::from("f");
        for _ in 0..self.rng.below(most + 1) {
            line += &format!("\t{}", self.variable(wild.min(20)));
        }
        line
    }
}
