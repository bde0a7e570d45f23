//! Calls and answers as words.

use crate::{Lit, Refusal, NONE};

/// A call: its letter on a sheet and two arguments, 0 where it takes none.
pub(crate) type Call = [u32; 3];

/// An answer: status and reply.
pub(crate) type Answer = [u32; 2];

/// An answer that was not given yet.
pub(crate) const UNANSWERED: Answer = [0, NONE];

/// The reply to a call that was done: for [`decide`](crate::Batch::decide) the variable, or `None` if nothing is open; for
/// [`go_back`](crate::Batch::go_back) the number of variables undone; for other calls `None`.
pub type Reply = Option<u32>;

/// What a decision found.
#[derive(Clone, Copy, Debug, PartialEq, Eq, Hash)]
pub enum Decision {
    /// This variable, which now has its value at a new level.
    Variable(u32),
    /// No variable is open: each is assigned, or switched off in heap mode.
    None,
}

/// What the reply to [`Batch::decide`](crate::Batch::decide) says.
impl From<Reply> for Decision {
    #[inline]
    fn from(reply: Reply) -> Self {
        reply.map_or(Decision::None, Decision::Variable)
    }
}

/// A length as the 32 bits of a count. One that has no such count gets one that no length fits, since all limits are far below.
#[inline]
pub(crate) fn count(len: usize) -> u32 {
    u32::try_from(len).unwrap_or(u32::MAX)
}

/// What an answer says.
#[inline]
pub(crate) fn read([status, reply]: Answer) -> Result<Reply, Refusal> {
    Refusal::result(status)?;
    Ok((reply != NONE).then_some(reply))
}

#[inline]
const fn words(letter: u8, first: u32, second: u32) -> Call {
    [letter as u32, first, second]
}

#[inline]
pub(crate) const fn bump(var: u32) -> Call {
    words(b'b', var, 0)
}

#[inline]
pub(crate) const fn decay() -> Call {
    words(b'y', 0, 0)
}

#[inline]
pub(crate) const fn set_decay(decay: f64) -> Call {
    let bits = decay.to_bits();
    words(b'w', (bits >> 32) as u32, bits as u32)
}

#[inline]
pub(crate) const fn insert(var: u32) -> Call {
    words(b'i', var, 0)
}

#[inline]
pub(crate) const fn switch_off(var: u32) -> Call {
    words(b'o', var, 0)
}

#[inline]
pub(crate) const fn decide(polarity: bool) -> Call {
    words(b'g', polarity as u32, 0)
}

/// A reason that has the number which stands for none becomes the number before it: neither is the number of a clause.
#[inline]
pub(crate) fn enqueue(lit: Lit, reason: Option<u32>) -> Call {
    words(b'e', lit.code(), reason.map_or(NONE, |clause| clause.min(NONE - 1)))
}

#[inline]
pub(crate) const fn learn_unit(lit: Lit) -> Call {
    words(b'u', lit.code(), 0)
}

#[inline]
pub(crate) const fn go_back(level: u32) -> Call {
    words(b'k', level, 0)
}

#[inline]
pub(crate) const fn bump_reason(var: u32) -> Call {
    words(b'r', var, 0)
}

/// The group of so many variables from the first place on.
#[inline]
pub(crate) const fn group(first: u32, count: u32) -> Call {
    words(b'f', first, count)
}
