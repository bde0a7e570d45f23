use std::ops::{Index, IndexMut};

const UNASSIGNED: u8 = 2;

/// The value of each variable: 0, 1, or 2 while it is unassigned.
pub struct Assignments(pub(crate) Vec<u8>);

impl Assignments {
    pub fn new(num_vars: usize) -> Self {
        Assignments(vec![UNASSIGNED; num_vars])
    }

    pub fn len(&self) -> usize {
        self.0.len()
    }

    #[inline]
    pub fn is_assigned(&self, idx: usize) -> bool {
        self[idx] < UNASSIGNED
    }

    #[inline]
    pub fn assign(&mut self, idx: usize, polarity: bool) {
        self[idx] = u8::from(polarity);
    }

    #[inline]
    pub fn unassign(&mut self, idx: usize) {
        self[idx] = UNASSIGNED;
    }
}

impl Index<usize> for Assignments {
    type Output = u8;

    #[inline]
    fn index(&self, i: usize) -> &u8 {
        crate::util::at(&self.0, i)
    }
}

impl IndexMut<usize> for Assignments {
    #[inline]
    fn index_mut(&mut self, i: usize) -> &mut u8 {
        crate::util::at_mut(&mut self.0, i)
    }
}
