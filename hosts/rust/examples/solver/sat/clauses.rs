use sigvort::Lit;

/// A clause by its number.
pub type Clause = u32;

/// All clauses, their literals one behind the other.
#[derive(Default)]
pub struct Clauses {
    lits: Vec<Lit>,
    spans: Vec<Span>,
}

/// Where the literals of a clause lie, and their spread.
struct Span {
    begin: u32,
    end: u32,
    spread: u32,
}

impl Clauses {
    pub fn len(&self) -> u32 {
        self.spans.len() as u32
    }

    pub fn lits(&self, clause: Clause) -> &[Lit] {
        let Span { begin, end, .. } = self.spans[clause as usize];
        &self.lits[begin as usize..end as usize]
    }

    pub fn lits_mut(&mut self, clause: Clause) -> &mut [Lit] {
        let Span { begin, end, .. } = self.spans[clause as usize];
        &mut self.lits[begin as usize..end as usize]
    }

    /// Over how many levels the literals were spread when the clause was learnt: the fewer, the better is the clause.
    pub fn spread(&self, clause: Clause) -> u32 {
        self.spans[clause as usize].spread
    }

    pub fn push(&mut self, lits: &[Lit], spread: u32) -> Clause {
        let begin = self.lits.len() as u32;
        self.lits.extend_from_slice(lits);
        self.spans.push(Span { begin, end: self.lits.len() as u32, spread });
        self.len() - 1
    }
}
