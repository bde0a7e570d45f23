use super::{broken, narrow, trail, wide, Fact, Lent, Memory, TrailMemory, NONE};
use crate::{
    session::{Formula, Session, VMTF},
    vmtf::Node,
};

/// The memory of a session in list mode: beside the trail the neighbours and the stamp of each variable; the list's front, the place from
/// which it is searched, and the next stamp.
#[derive(Clone, Debug, Default, PartialEq, Eq)]
pub struct ListMemory {
    pub trail: TrailMemory,
    pub next: Vec<u32>,
    pub prev: Vec<u32>,
    pub ts: Vec<u64>,
    pub start: u32,
    pub search: u32,
    pub timestamp: u64,
}

/// What holds of a good list.
const FACTS: &[Fact<ListMemory>] = &[
    (
        "the front is a variable, or NONE where there is none",
        |m, lent| if lent.n == 0 { m.start == NONE } else { (m.start as usize) < lent.n },
    ),
    ("the list ends behind its last variable", |m, lent| {
        m.order().len() < lent.n || m.order().last().is_none_or(|&last| m.next[last] == NONE)
    }),
    ("each variable stands in the list once", |m, lent| {
        let mut order = m.order();
        order.sort_unstable();
        order.into_iter().eq(0..lent.n)
    }),
    ("nothing stands before the front", |m, _| m.order().first().is_none_or(|&first| m.prev[first] == NONE)),
    ("links agree both ways", |m, _| m.order().windows(2).all(|pair| m.prev[pair[1]] == pair[0] as u32)),
    ("stamps fall strictly from the front", |m, _| m.order().windows(2).all(|pair| m.ts[pair[0]] > m.ts[pair[1]])),
    ("the timestamp is above every stamp", |m, _| m.ts.iter().all(|&stamp| stamp < m.timestamp)),
    ("search is a variable or NONE", |m, lent| m.search == NONE || (m.search as usize) < lent.n),
];

impl ListMemory {
    /// The variables from the front on along the next links, as far as these lead, but no more than there are.
    pub fn order(&self) -> Vec<usize> {
        let n = self.next.len();
        let variable = |link: u32| Some(link as usize).filter(|&var| var < n);
        std::iter::successors(variable(self.start), |&var| variable(self.next[var])).take(n).collect()
    }
}

impl Memory for ListMemory {
    type Chooser = VMTF;

    fn fits(&self, n: usize) -> bool {
        self.trail.fits(n) && self.next.len() == n && self.prev.len() == n && self.ts.len() == n
    }

    fn broken(&self, lent: Lent) -> Vec<&'static str> {
        broken(trail::FACTS, &self.trail, lent).chain(broken(FACTS, self, lent)).collect()
    }

    fn session(&self, formula: Formula) -> Session<VMTF> {
        let node = |var: usize| Node { next: wide(self.next[var]), prev: wide(self.prev[var]), ts: self.ts[var] };
        let decisions = VMTF {
            linked_list: (0..self.next.len()).map(node).collect(),
            timestamp: self.timestamp,
            start: wide(self.start),
            search: wide(self.search),
            by_stamp: Vec::new(),
        };
        Session { formula, trail: self.trail.session(), decisions }
    }

    fn of(session: &Session<VMTF>) -> Self {
        let list = &session.decisions;
        ListMemory {
            trail: TrailMemory::of(&session.trail),
            next: list.linked_list.iter().map(|node| narrow(node.next)).collect(),
            prev: list.linked_list.iter().map(|node| narrow(node.prev)).collect(),
            ts: list.linked_list.iter().map(|node| node.ts).collect(),
            start: narrow(list.start),
            search: narrow(list.search),
            timestamp: list.timestamp,
        }
    }
}
