use std::{error::Error, fmt};

/// Why a call, a list of calls, a saved text or a sheet was refused. What is refused changes nothing.
///
/// Checked are first 4 to 7, which refuse a whole list, then of each call 3 and 8 to 14; of a text first 15, then 4 to 7; in saving 4 to 7, then 2. The first
/// that fits is given.
#[derive(Clone, Copy, Debug, PartialEq, Eq, Hash)]
#[non_exhaustive]
#[repr(u32)]
pub enum Refusal {
    /// The sheet has more than 32,768 bytes.
    SheetTooLong = 1,
    /// The answer buffer has fewer than [`ANSWER_ROOM`](crate::ANSWER_ROOM) bytes for each newline of the sheet. In
    /// [`Session::save_to`](crate::Session::save_to): the text is longer than the buffer.
    BufferTooShort = 2,
    /// A group has more than [`MAX_GROUP`](crate::MAX_GROUP) variables. In the answers to a sheet: the line does not have its form.
    Form = 3,
    /// There are more than [`MAX_VARIABLES`](crate::MAX_VARIABLES) variables.
    TooManyVariables = 4,
    /// An array does not have exactly one place for each variable; or, in reading a text, those for its clauses have other lengths than it says.
    Length = 5,
    /// The clause list is not good: too long, ends that fall or do not fit, or a variable that does not exist.
    Clauses = 6,
    /// The memory or the text holds no good session, or a reason in it is no clause of the list that is lent.
    State = 7,
    /// A variable, or a literal's variable, does not exist.
    Variable = 8,
    /// The polarity is neither 0 nor 1. Calls of this crate are never refused so.
    Polarity = 9,
    /// The reason is not the number of a clause.
    Reason = 10,
    /// The variable is assigned already; for a unit, at level 0.
    Assigned = 11,
    /// The decay is not a number, below 0.5 or above 1.
    Decay = 12,
    /// The step would be above 1e200. In heap mode only.
    Step = 13,
    /// Nothing from the place of search on is open, yet something ahead of it is. In list mode only: going back does not move that place.
    ///
    /// Heap mode has no such refusal. In list mode, until a later release, a caller lends the memory ([`Session::list_in`](crate::Session::list_in)), sets
    /// `search` to `start` in what [`Session::list_state`](crate::Session::list_state) tells, and carries on by
    /// [`Session::list_from`](crate::Session::list_from).
    Stuck = 14,
    /// A line of a saved text is missing, out of its place or not of its form, or something stands behind the last one; or the text is of the other mode, where
    /// the memory is of one.
    Saved = 15,
}

impl Refusal {
    /// All refusals, in the order of their numbers, which begin at 1.
    const ALL: [Refusal; 15] = [
        Refusal::SheetTooLong,
        Refusal::BufferTooShort,
        Refusal::Form,
        Refusal::TooManyVariables,
        Refusal::Length,
        Refusal::Clauses,
        Refusal::State,
        Refusal::Variable,
        Refusal::Polarity,
        Refusal::Reason,
        Refusal::Assigned,
        Refusal::Decay,
        Refusal::Step,
        Refusal::Stuck,
        Refusal::Saved,
    ];

    /// The refusal's number, as the entries and the answers to a sheet have it.
    pub const fn number(self) -> u32 {
        self as u32
    }

    /// The refusal with this number.
    pub fn from_number(number: u32) -> Option<Refusal> {
        let place = number.checked_sub(1)?;
        Refusal::ALL.get(place as usize).copied()
    }

    /// What a status says: 0 is done, all else a refusal's number.
    #[inline]
    pub(crate) fn result(status: u32) -> Result<(), Refusal> {
        if status == 0 {
            return Ok(());
        }
        Err(Refusal::from_number(status).unwrap_or_else(|| panic!("status {status} is of a release that this crate does not know")))
    }
}

impl fmt::Display for Refusal {
    fn fmt(&self, f: &mut fmt::Formatter<'_>) -> fmt::Result {
        f.write_str(match self {
            Refusal::SheetTooLong => "the sheet has more than 32,768 bytes",
            Refusal::BufferTooShort => {
                "the answer buffer has fewer than 24 bytes for each newline of the sheet, or a text is longer than its buffer"
            }
            Refusal::Form => "a group has more than 2,048 variables",
            Refusal::TooManyVariables => "there are more than 2,048 variables",
            Refusal::Length => "an array does not have exactly one place for each variable, clause or literal",
            Refusal::Clauses => "the clause list is too long, names a variable that does not exist, or has ends that do not fit",
            Refusal::State => "the memory or the saved text holds no good session",
            Refusal::Variable => "a variable does not exist",
            Refusal::Polarity => "the polarity is neither 0 nor 1",
            Refusal::Reason => "the reason is not the number of a clause",
            Refusal::Assigned => "the variable is assigned already",
            Refusal::Decay => "the decay is not a number, below 0.5 or above 1",
            Refusal::Step => "the step would be above 1e200",
            Refusal::Stuck => "nothing from the place of search on is open, yet something ahead of it is",
            Refusal::Saved => "a line of the saved text is missing, out of its place or not of its form",
        })
    }
}

impl Error for Refusal {}

#[cfg(test)]
mod tests {
    use super::*;

    #[test]
    fn numbers_go_both_ways() {
        for (number, refusal) in (1..).zip(Refusal::ALL) {
            assert_eq!(refusal.number(), number);
            assert_eq!(Refusal::from_number(number), Some(refusal));
        }
        assert_eq!(Refusal::from_number(0), None);
        assert_eq!(Refusal::from_number(16), None);
        assert_eq!(Refusal::from_number(u32::MAX), None);
    }

    #[test]
    fn sentences_differ() {
        let mut sentences: Vec<String> = Refusal::ALL.iter().map(Refusal::to_string).collect();
        sentences.sort();
        sentences.dedup();
        assert_eq!(sentences.len(), Refusal::ALL.len());
    }
}
