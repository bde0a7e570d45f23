use std::borrow::Cow;

use crate::{call::count, Lit};

/// A clause list, owned or borrowed: the codes of all clauses, one clause behind the other, and the place behind the last code of each.
///
/// Clauses are numbered from 0. They serve as reasons, and in list mode the variables that occur most come first when the session is opened. A solver
/// that keeps its own reasons needs none.
///
/// Nothing is checked here. A list that is not good is refused with [`Refusal::Clauses`](crate::Refusal::Clauses) when it is used: one of more than 2,048
/// clauses or 8,192 literals, with ends that fall or do not end at the last code, or with a variable that the session does not have. A clause may be
/// empty, and may repeat a variable.
///
/// ```
/// use sigvort::{Clauses, Lit};
///
/// let mut owned = Clauses::new();
/// assert_eq!(owned.push(&[Lit::new(0, true), Lit::new(1, false)]), 0);
/// assert_eq!(owned.push(&[Lit::new(2, true)]), 1);
///
/// let (codes, ends) = ([1, 2, 5], [2, 3]);
/// assert_eq!(owned, Clauses::from_parts(&codes, &ends));
/// ```
#[derive(Clone, Debug, Default, PartialEq, Eq)]
pub struct Clauses<'a> {
    codes: Cow<'a, [u32]>,
    ends: Cow<'a, [u32]>,
}

impl<'a> Clauses<'a> {
    /// A list without clauses.
    pub const fn new() -> Self {
        Clauses { codes: Cow::Borrowed(&[]), ends: Cow::Borrowed(&[]) }
    }

    /// A list of these codes and ends. Slices are borrowed, vectors kept.
    pub fn from_parts(codes: impl Into<Cow<'a, [u32]>>, ends: impl Into<Cow<'a, [u32]>>) -> Self {
        Clauses { codes: codes.into(), ends: ends.into() }
    }

    /// Adds a clause and gives its number. A list that was borrowed is copied first.
    pub fn push(&mut self, clause: &[Lit]) -> u32 {
        let number = count(self.len());
        let codes = self.codes.to_mut();
        codes.extend(clause.iter().map(|lit| lit.code()));
        self.ends.to_mut().push(count(codes.len()));
        number
    }

    /// The codes of all clauses.
    pub fn codes(&self) -> &[u32] {
        &self.codes
    }

    /// For each clause the place behind its last code.
    pub fn ends(&self) -> &[u32] {
        &self.ends
    }

    /// The number of clauses.
    pub fn len(&self) -> usize {
        self.ends.len()
    }

    /// Whether there are no clauses.
    pub fn is_empty(&self) -> bool {
        self.ends.is_empty()
    }
}

#[cfg(test)]
mod tests {
    use super::*;

    #[test]
    fn pushing_copies_what_was_borrowed() {
        let (codes, ends) = (vec![1, 3], vec![2]);
        let mut clauses = Clauses::from_parts(&codes, &ends);
        assert!(matches!(clauses.codes, Cow::Borrowed(_)));
        assert_eq!(clauses.push(&[]), 1);
        assert_eq!(clauses.push(&[Lit::new(2, false)]), 2);
        assert_eq!(clauses.codes(), [1, 3, 4]);
        assert_eq!(clauses.ends(), [2, 2, 3]);
        assert_eq!(clauses.len(), 3);
        assert_eq!((codes, ends), (vec![1, 3], vec![2]));
    }

    #[test]
    fn no_clauses() {
        assert!(Clauses::new().is_empty());
        assert_eq!(Clauses::new(), Clauses::default());
        assert_eq!(Clauses::from_parts(vec![], vec![]).len(), 0);
    }
}
