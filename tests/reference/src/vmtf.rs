use crate::{
    assignments::Assignments,
    decision::Decisions,
    formula::Formula,
    refusal::Refusal,
    util::{at, at_mut, sort_reverse},
    INVALID,
};
use std::ops::{Index, IndexMut};

/// A variable's place in the list: its neighbours, and the stamp of its last move.
#[derive(Clone, Copy, Debug, PartialEq, Eq)]
pub struct Node {
    pub(crate) next: usize,
    pub(crate) prev: usize,
    pub(crate) ts: u64,
}

impl Default for Node {
    fn default() -> Self {
        Node { next: INVALID, prev: INVALID, ts: 0 }
    }
}

/// The chooser by move to front: a doubly linked list of all variables, searched from `search` on.
#[allow(clippy::upper_case_acronyms)]
pub struct VMTF {
    pub(crate) linked_list: Vec<Node>,
    pub(crate) timestamp: u64,
    pub(crate) start: usize,
    pub(crate) search: usize,
    /// Stamp and variable of each of a group, kept from group to group for its memory alone.
    pub(crate) by_stamp: Vec<(u64, usize)>,
}

impl VMTF {
    fn make_linked_list(lit_order: &[usize]) -> VMTF {
        let len = lit_order.len();
        let mut linked_list = vec![Node::default(); len];
        for (i, &var) in lit_order.iter().enumerate() {
            linked_list[var].ts = (len - i) as u64;
        }
        for pair in lit_order.windows(2) {
            linked_list[pair[0]].next = pair[1];
            linked_list[pair[1]].prev = pair[0];
        }
        let start = lit_order.first().copied().unwrap_or(INVALID);
        VMTF { linked_list, timestamp: len as u64 + 1, start, search: start, by_stamp: Vec::new() }
    }

    /// Stamps the list anew, from its length at the front down to 1.
    fn rescore(&mut self) {
        let len = self.linked_list.len() as u64;
        let mut curr_score = len;
        let mut curr = self.start;
        while curr != INVALID {
            self[curr].ts = curr_score;
            curr_score -= 1;
            curr = self[curr].next;
        }
        self.timestamp = len + 1;
    }

    fn move_to_front(&mut self, tomove: usize) {
        if tomove == self.start {
            return;
        }
        let Node { next, prev, .. } = self[tomove];
        // only the front has none before it
        self[prev].next = next;
        if next != INVALID {
            self[next].prev = prev;
        }
        let start = self.start;
        self[start].prev = tomove;
        self[tomove] = Node { next: start, prev: INVALID, ts: self.timestamp };
        self.start = tomove;
        match self.timestamp.checked_add(1) {
            Some(timestamp) => self.timestamp = timestamp,
            None => self.rescore(),
        }
    }
}

impl Decisions for VMTF {
    /// A list in the order of the variables' counts over all clauses.
    fn new(f: &Formula) -> VMTF {
        let mut counts_with_index: Vec<(usize, usize)> = (0..f.num_vars).map(|var| (0, var)).collect();
        for lit in f.lits() {
            counts_with_index[lit.index()].0 += 1;
        }
        sort_reverse(&mut counts_with_index);
        let lit_order: Vec<usize> = counts_with_index.into_iter().map(|(_, var)| var).collect();
        Self::make_linked_list(&lit_order)
    }

    fn bump_vec_of_vars(&mut self, vars: &[usize]) {
        let mut by_stamp = std::mem::take(&mut self.by_stamp);
        by_stamp.clear();
        by_stamp.extend(vars.iter().map(|&var| (self[var].ts, var)));
        by_stamp.sort_unstable_by_key(|pair| pair.0);
        for &(_, var) in &by_stamp {
            self.move_to_front(var);
        }
        self.by_stamp = by_stamp;
    }

    fn get_next(&mut self, a: &Assignments) -> Result<Option<usize>, Refusal> {
        let mut curr = self.search;
        while curr != INVALID {
            let next = self[curr].next;
            if !a.is_assigned(curr) {
                self.search = next;
                return Ok(Some(curr));
            }
            curr = next;
        }
        if (0..a.len()).all(|var| a.is_assigned(var)) {
            Ok(None)
        } else {
            Err(Refusal::Stuck)
        }
    }
}

impl Index<usize> for VMTF {
    type Output = Node;

    #[inline]
    fn index(&self, i: usize) -> &Node {
        at(&self.linked_list, i)
    }
}

impl IndexMut<usize> for VMTF {
    #[inline]
    fn index_mut(&mut self, i: usize) -> &mut Node {
        at_mut(&mut self.linked_list, i)
    }
}

#[cfg(test)]
mod tests {
    use super::*;
    use crate::lit::Lit;

    /// The variables from the front on, with their stamps, once the links are seen to agree.
    fn list(vmtf: &VMTF) -> (Vec<usize>, Vec<u64>) {
        let (mut vars, mut stamps, mut prev, mut curr) = (Vec::new(), Vec::new(), INVALID, vmtf.start);
        while curr != INVALID {
            assert_eq!(vmtf[curr].prev, prev);
            vars.push(curr);
            stamps.push(vmtf[curr].ts);
            (prev, curr) = (curr, vmtf[curr].next);
        }
        assert_eq!(vars.len(), vmtf.linked_list.len());
        (vars, stamps)
    }

    #[test]
    fn no_variable_says_none() {
        let mut vmtf = VMTF::new(&Formula::new(0));
        assert_eq!((vmtf.start, vmtf.search), (INVALID, INVALID));
        assert_eq!(vmtf.get_next(&Assignments::new(0)), Ok(None));
    }

    #[test]
    fn a_fresh_list_is_ordered_by_counts() {
        let mut f = Formula::new(3);
        f.add_clause([1, 2, 4, 5].into_iter().map(|code| Ok(Lit::from_code(code)))).unwrap();
        assert_eq!(list(&VMTF::new(&f)), (vec![2, 1, 0], vec![3, 2, 1]));
    }

    #[test]
    fn a_group_moves_by_rising_stamps() {
        let mut vmtf = VMTF::make_linked_list(&[0, 1, 2]);
        vmtf.bump_vec_of_vars(&[2, 1]);
        assert_eq!(list(&vmtf), (vec![1, 2, 0], vec![5, 4, 3]));
        assert_eq!((vmtf.timestamp, vmtf.search), (6, 0));
    }

    #[test]
    fn the_greatest_stamp_numbers_the_list_anew() {
        let mut vmtf = VMTF::make_linked_list(&[0, 1]);
        vmtf.timestamp = u64::MAX;
        vmtf.bump_vec_of_vars(&[1]);
        assert_eq!(list(&vmtf), (vec![1, 0], vec![2, 1]));
        assert_eq!(vmtf.timestamp, 3);
    }

    #[test]
    fn the_front_gets_no_new_stamp() {
        let mut vmtf = VMTF::make_linked_list(&[0, 1]);
        vmtf.bump_vec_of_vars(&[0, 0]);
        assert_eq!((list(&vmtf), vmtf.timestamp), ((vec![0, 1], vec![2, 1]), 3));
    }
}
