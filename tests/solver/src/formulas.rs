//! Formulas of known kinds, with literals as DIMACS has them.

use reference::generator::Rng;

#[derive(Clone)]
pub struct Formula {
    pub num_vars: usize,
    pub clauses: Vec<Vec<i32>>,
}

impl Formula {
    pub fn text(&self) -> String {
        let mut text = format!("p cnf {} {}\n", self.num_vars, self.clauses.len());
        for clause in &self.clauses {
            clause.iter().for_each(|lit| text += &format!("{lit} "));
            text += "0\n";
        }
        text
    }

    /// Reads a formula that is well formed.
    pub fn read(text: &str) -> Formula {
        let lines = text.lines().filter(|line| !line.starts_with('c'));
        let (header, body): (Vec<&str>, Vec<&str>) = lines.partition(|line| line.starts_with('p'));
        let num_vars = header[0].split(' ').nth(2).expect("a header has four fields").parse().expect("a number of variables");
        let mut clauses: Vec<Vec<i32>> = vec![Vec::new()];
        for number in body.iter().flat_map(|line| line.split_ascii_whitespace()).map(|field| field.parse().expect("a number")) {
            match number {
                0 => clauses.push(Vec::new()),
                lit => clauses.last_mut().expect("a clause is begun").push(lit),
            }
        }
        assert_eq!(clauses.pop(), Some(Vec::new()), "the last clause is ended by 0");
        Formula { num_vars, clauses }
    }

    /// With units for wishes.
    pub fn with(&self, wishes: &[i32]) -> Formula {
        let mut formula = self.clone();
        formula.clauses.extend(wishes.iter().map(|&wish| vec![wish]));
        formula
    }

    /// Whether a model, with the literals of variables 1, 2 and so on, makes each clause true.
    pub fn holds(&self, model: &[i32]) -> bool {
        self.clauses.iter().all(|clause| clause.iter().any(|&lit| model[lit.unsigned_abs() as usize - 1] == lit))
    }
}

/// Clauses of three different variables with random signs; 4.26 clauses for a variable are as often satisfiable as not.
pub fn random(num_vars: usize, clauses_per_var: f64, seed: u64) -> Formula {
    let mut rng = Rng::new(seed);
    let clause = |_| {
        let mut clause: Vec<i32> = Vec::new();
        while clause.len() < 3 {
            let var = rng.below(num_vars) as i32 + 1;
            if clause.iter().all(|lit| lit.abs() != var) {
                clause.push(if rng.chance(1, 2) { var } else { -var });
            }
        }
        clause
    };
    Formula { num_vars, clauses: (0..(num_vars as f64 * clauses_per_var) as usize).map(clause).collect() }
}

/// Each pigeon in a hole, no two in one.
pub fn pigeons(pigeons: usize, holes: usize) -> Formula {
    let sits = |pigeon: usize, hole: usize| (pigeon * holes + hole + 1) as i32;
    let mut clauses: Vec<Vec<i32>> = (0..pigeons).map(|pigeon| (0..holes).map(|hole| sits(pigeon, hole)).collect()).collect();
    for hole in 0..holes {
        for second in 0..pigeons {
            clauses.extend((0..second).map(|first| vec![-sits(first, hole), -sits(second, hole)]));
        }
    }
    Formula { num_vars: pigeons * holes, clauses }
}

/// The parity of some variables along two chains that take them in different orders, each with the sums so far as further variables. The
/// chains' ends are to be the same or to differ; they are always the same.
pub fn parity(length: usize, same: bool, seed: u64) -> Formula {
    let mut rng = Rng::new(seed);
    let mut formula = Formula { num_vars: length, clauses: Vec::new() };
    let mut order: Vec<i32> = (1..=length as i32).collect();
    let mut ends = Vec::new();
    for _ in 0..2 {
        let mut sum = order[0];
        for &var in &order[1..] {
            formula.num_vars += 1;
            let next = formula.num_vars as i32;
            // next = sum + var: an odd number of these three is never true
            formula.clauses.extend([vec![-next, sum, var], vec![next, -sum, var], vec![next, sum, -var], vec![-next, -sum, -var]]);
            sum = next;
        }
        ends.push(sum);
        (1..length).rev().for_each(|i| order.swap(i, rng.below(i + 1)));
    }
    let other = if same { ends[1] } else { -ends[1] };
    formula.clauses.extend([vec![ends[0], -other], vec![-ends[0], other]]);
    formula
}
