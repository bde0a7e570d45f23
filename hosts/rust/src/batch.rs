use crate::{
    call::{self, count, Answer, Call, UNANSWERED},
    Lit, Refusal, Reply,
};

/// A list of calls, to be handed over at once, and the answers to them.
///
/// A session checks all of its memory before it does anything. In a list the check comes once, however many calls there are. Each method for a call appends it
/// and gives its place, by which [`answer`](Batch::answer) finds the answer once [`Session::batch`](crate::Session::batch) has done the list. The
/// calls stay until [`clear`](Batch::clear), so a list that is handed over again is done again. A batch that is cleared keeps its room: once it has grown,
/// nothing is allocated any more.
///
/// ```
/// use sigvort::{Batch, Lit, Session};
///
/// let mut session = Session::heap(3)?;
/// let mut batch = Batch::new();
/// let enqueued = batch.enqueue(Lit::new(0, true), None);
/// let wrong = batch.bump(7);
/// let decided = batch.decide(true);
/// session.batch(&mut batch)?;
/// assert_eq!(batch.answer(enqueued), Ok(None));
/// assert_eq!(batch.answer(wrong), Err(sigvort::Refusal::Variable));
/// assert_eq!(batch.answer(decided), Ok(Some(2)));
///
/// batch.clear();
/// let back = batch.go_back(0);
/// session.batch(&mut batch)?;
/// assert_eq!(batch.answer(back), Ok(Some(1)));
/// # Ok::<(), sigvort::Refusal>(())
/// ```
#[derive(Clone, Debug, Default)]
pub struct Batch {
    calls: Vec<Call>,
    /// The variables of all groups.
    vars: Vec<u32>,
    /// The answers to the calls that were handed over.
    answers: Vec<Answer>,
}

impl Batch {
    /// An empty list.
    pub const fn new() -> Self {
        Batch { calls: Vec::new(), vars: Vec::new(), answers: Vec::new() }
    }

    /// Takes out all calls and answers.
    #[inline]
    pub fn clear(&mut self) {
        self.calls.clear();
        self.vars.clear();
        self.answers.clear();
    }

    /// The number of calls.
    #[inline]
    pub fn len(&self) -> usize {
        self.calls.len()
    }

    /// Whether there is no call.
    #[inline]
    pub fn is_empty(&self) -> bool {
        self.calls.is_empty()
    }

    /// Appends a call of [`Session::bump`](crate::Session::bump).
    #[inline]
    pub fn bump(&mut self, var: u32) -> usize {
        self.push(call::bump(var))
    }

    /// Appends a call of [`Session::decay`](crate::Session::decay).
    #[inline]
    pub fn decay(&mut self) -> usize {
        self.push(call::decay())
    }

    /// Appends a call of [`Session::set_decay`](crate::Session::set_decay).
    #[inline]
    pub fn set_decay(&mut self, decay: f64) -> usize {
        self.push(call::set_decay(decay))
    }

    /// Appends a call of [`Session::insert`](crate::Session::insert).
    #[inline]
    pub fn insert(&mut self, var: u32) -> usize {
        self.push(call::insert(var))
    }

    /// Appends a call of [`Session::switch_off`](crate::Session::switch_off).
    #[inline]
    pub fn switch_off(&mut self, var: u32) -> usize {
        self.push(call::switch_off(var))
    }

    /// Appends a call of [`Session::decide`](crate::Session::decide). The reply is the variable, or `None` if nothing is open;
    /// [`Decision`](crate::Decision) says the same in words.
    ///
    /// ```
    /// use sigvort::{Batch, Decision, Session};
    ///
    /// let mut session = Session::heap(1)?;
    /// let mut batch = Batch::new();
    /// let places = [batch.decide(true), batch.decide(true)];
    /// session.batch(&mut batch)?;
    /// assert_eq!(Decision::from(batch.answer(places[0])?), Decision::Variable(0));
    /// assert_eq!(Decision::from(batch.answer(places[1])?), Decision::None);
    /// # Ok::<(), sigvort::Refusal>(())
    /// ```
    #[inline]
    pub fn decide(&mut self, polarity: bool) -> usize {
        self.push(call::decide(polarity))
    }

    /// Appends a call of [`Session::enqueue`](crate::Session::enqueue).
    #[inline]
    pub fn enqueue(&mut self, lit: Lit, reason: Option<u32>) -> usize {
        self.push(call::enqueue(lit, reason))
    }

    /// Appends a call of [`Session::learn_unit`](crate::Session::learn_unit).
    #[inline]
    pub fn learn_unit(&mut self, lit: Lit) -> usize {
        self.push(call::learn_unit(lit))
    }

    /// Appends a call of [`Session::go_back`](crate::Session::go_back). The reply is the number of variables undone.
    #[inline]
    pub fn go_back(&mut self, level: u32) -> usize {
        self.push(call::go_back(level))
    }

    /// Appends a call of [`Session::bump_reason`](crate::Session::bump_reason).
    #[inline]
    pub fn bump_reason(&mut self, var: u32) -> usize {
        self.push(call::bump_reason(var))
    }

    /// Appends a call of [`Session::group`](crate::Session::group).
    ///
    /// # Panics
    ///
    /// Where the groups of the list have more than 4,294,967,295 variables together.
    #[inline]
    pub fn group(&mut self, vars: &[u32]) -> usize {
        let first = u32::try_from(self.vars.len()).expect("the groups of a list have places in 32 bits");
        self.vars.extend_from_slice(vars);
        self.push(call::group(first, count(vars.len())))
    }

    /// The answer to the call at a place.
    ///
    /// # Panics
    ///
    /// Where there is no answer: the list has no call at that place, it was not handed over yet, or the whole list was refused.
    #[inline]
    pub fn answer(&self, place: usize) -> Result<Reply, Refusal> {
        match self.answers.get(place) {
            Some(&answer) => call::read(answer),
            None => panic!("the list has no answer at place {place}"),
        }
    }

    /// The answers to all calls that were handed over, in order. There are none where the whole list was refused.
    pub fn answers(&self) -> impl DoubleEndedIterator<Item = Result<Reply, Refusal>> + ExactSizeIterator + '_ {
        self.answers.iter().copied().map(call::read)
    }

    #[inline]
    fn push(&mut self, call: Call) -> usize {
        self.calls.push(call);
        self.calls.len() - 1
    }

    /// Has the calls answered: `entry` takes the groups' variables, the calls and the room for their answers, as words.
    #[inline]
    pub(crate) fn hand_over(&mut self, entry: impl FnOnce(&[u32], &[u32], &mut [u32]) -> Result<(), Refusal>) -> Result<(), Refusal> {
        self.answers.clear();
        self.answers.resize(self.calls.len(), UNANSWERED);
        let done = entry(&self.vars, self.calls.as_flattened(), self.answers.as_flattened_mut());
        if done.is_err() {
            self.answers.clear();
        }
        done
    }
}
