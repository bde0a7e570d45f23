use std::fmt;

use crate::{
    call::{self, count, Call, UNANSWERED},
    ffi::entry,
    memory::{Heap, List, Trail},
    saved_room,
    sheet::string,
    Batch, Clauses, Counts, Decision, HeapMemory, HeapState, ListMemory, ListState, Lit, Refusal, Reply, MAX_VARIABLES,
};

/// How a session chooses.
#[derive(Clone, Copy, Debug, PartialEq, Eq, Hash)]
pub enum Mode {
    /// By activity, from a heap (VSIDS).
    Heap,
    /// By a list in which what was used last moves to the front (VMTF).
    List,
}

/// The chooser of either mode.
#[derive(Clone)]
enum Chooser<'a> {
    Heap(Heap<'a>),
    List(List<'a>),
}

/// A small state as an entry takes it: by reference where it writes the memory, else by value.
macro_rules! state {
    (as_mut_ptr $place:expr) => {
        &mut $place
    };
    (as_ptr $place:expr) => {
        $place
    };
}

/// Calls the entry of the session's mode with its memory: what comes before it, the arrays, the small states, what comes behind. `as_mut_ptr` is for an entry
/// that writes the memory, `as_ptr` for one that reads it.
macro_rules! enter {
    ($heap:ident | $list:ident, $memory:expr, $as:ident, [$($before:tt)*] [$($behind:tt)*]) => {
        Refusal::result(match $memory {
            (trail, Chooser::Heap(heap)) => {
                enter!(@ $heap [$($before)*] $as trail heap [activity heap indices decision] [members inc decay] [$($behind)*])
            }
            (trail, Chooser::List(list)) => {
                enter!(@ $list [$($before)*] $as trail list [next prev ts] [start search timestamp] [$($behind)*])
            }
        })
    };
    (@ $entry:ident [$($before:tt)*] $as:ident $trail:ident $chooser:ident [$($array:ident)*] [$($state:ident)*] [$($behind:tt)*]) => {
        entry!(
            $entry $($before)*
            $as [$trail.values, $trail.levels, $trail.reasons, $trail.trail, $trail.opened $(, $chooser.$array)*]
                (state!($as $trail.len), state!($as $trail.level), state!($as $trail.curr_i) $(, state!($as $chooser.$state))*)
            $($behind)*
        )
    };
}

/// A session of the chooser, in either mode, in memory of its own or lent by the caller.
///
/// Variables are numbered from 0. A session opens with all of them unassigned, at level 0. A method that calls the chooser does what the call of that name
/// does on a sheet (`docs/SHEET.md`); one that is refused changes nothing. Each checks all of the memory before it does anything, in time linear in the
/// variables and literals, so calls that come together go in a [`Batch`], which is checked once.
///
/// ```
/// use sigvort::{Clauses, Decision, Lit, Refusal, Session};
///
/// let mut clauses = Clauses::new();
/// let clause = clauses.push(&[Lit::new(0, true), Lit::new(1, true)]);
/// let mut session = Session::heap_with(3, clauses)?;
///
/// session.bump(2)?;
/// assert_eq!(session.decide(true)?, Decision::Variable(2));
/// assert_eq!(session.decide(false)?, Decision::Variable(0));
/// session.enqueue(Lit::new(1, true), Some(clause))?;
/// assert_eq!(session.decide(true)?, Decision::None);
///
/// assert_eq!(session.value(0), Some(false));
/// assert_eq!(session.level_of(1), Some(2));
/// assert_eq!(session.reason_of(1), Some(clause));
/// assert_eq!(session.bump(3), Err(Refusal::Variable));
/// assert_eq!(session.go_back(1)?, 2);
/// assert_eq!(session.trail(), [Lit::new(2, true)]);
/// # Ok::<(), Refusal>(())
/// ```
///
/// A clone is a snapshot: it has memory of its own, also where that of the session is lent. Lent memory counts as lent while a clone of its session lives.
/// [`save`](Session::save) makes a snapshot as text.
///
/// ```
/// use sigvort::{Decision, Session};
///
/// let mut session = Session::heap(2)?;
/// session.bump(1)?;
/// let mut snapshot = session.clone();
/// assert_eq!(session.decide(true)?, Decision::Variable(1));
/// assert_eq!(snapshot.trail(), []);
/// assert_eq!(snapshot.decide(false)?, Decision::Variable(1));
/// # Ok::<(), sigvort::Refusal>(())
/// ```
#[derive(Clone)]
pub struct Session<'a> {
    n: u32,
    clauses: Clauses<'a>,
    trail: Trail<'a>,
    chooser: Chooser<'a>,
}

/// Opening a session in memory of its own, without clauses.
impl Session<'static> {
    /// Opens a session of `n` variables in heap mode. Refused with [`Refusal::TooManyVariables`].
    pub fn heap(n: u32) -> Result<Self, Refusal> {
        Session::heap_with(n, Clauses::new())
    }

    /// Opens a session of `n` variables in list mode. Refused with [`Refusal::TooManyVariables`].
    pub fn list(n: u32) -> Result<Self, Refusal> {
        Session::list_with(n, Clauses::new())
    }
}

/// The places of a session's own arrays. Above the limit no array is looked at.
fn places(n: u32) -> usize {
    n.min(MAX_VARIABLES) as usize
}

/// Opening a session, and carrying on with one.
impl<'a> Session<'a> {
    /// Opens a session of `n` variables in heap mode, with these clauses, in memory of its own. Refused with [`Refusal::TooManyVariables`] or
    /// [`Refusal::Clauses`].
    pub fn heap_with(n: u32, clauses: Clauses<'a>) -> Result<Self, Refusal> {
        Session { n, clauses, trail: Trail::own(places(n)), chooser: Chooser::Heap(Heap::own(places(n))) }.opened_fresh()
    }

    /// Opens a session of `n` variables in list mode, with these clauses, in memory of its own. Refused with [`Refusal::TooManyVariables`] or
    /// [`Refusal::Clauses`].
    pub fn list_with(n: u32, clauses: Clauses<'a>) -> Result<Self, Refusal> {
        Session { n, clauses, trail: Trail::own(places(n)), chooser: Chooser::List(List::own(places(n))) }.opened_fresh()
    }

    /// Opens a session in heap mode in lent memory. What the memory holds does not matter. Refused with [`Refusal::TooManyVariables`],
    /// [`Refusal::Length`] or [`Refusal::Clauses`].
    pub fn heap_in(n: u32, clauses: Clauses<'a>, memory: HeapMemory<'a>) -> Result<Self, Refusal> {
        Session::in_heap(n, clauses, memory).opened_fresh()
    }

    /// Opens a session in list mode in lent memory. What the memory holds does not matter. Refused with [`Refusal::TooManyVariables`],
    /// [`Refusal::Length`] or [`Refusal::Clauses`].
    pub fn list_in(n: u32, clauses: Clauses<'a>, memory: ListMemory<'a>) -> Result<Self, Refusal> {
        Session::in_list(n, clauses, memory).opened_fresh()
    }

    /// Carries on with the session in heap mode that lent memory holds. Refused as by [`heap_in`](Session::heap_in), and with [`Refusal::State`] where it holds
    /// no good one.
    ///
    /// ```
    /// use sigvort::{Clauses, Decision, HeapMemory, HeapState, Lit, Session};
    ///
    /// // a session in arrays of the caller's
    /// let (mut values, mut decision, mut activity) = ([0; 2], [0; 2], [0.0; 2]);
    /// let [mut levels, mut reasons, mut trail, mut opened, mut heap, mut indices] = [[0; 2]; 6];
    /// let memory = HeapMemory {
    ///     values: &mut values,
    ///     levels: &mut levels,
    ///     reasons: &mut reasons,
    ///     trail: &mut trail,
    ///     opened: &mut opened,
    ///     activity: &mut activity,
    ///     heap: &mut heap,
    ///     indices: &mut indices,
    ///     decision: &mut decision,
    ///     state: HeapState::default(),
    /// };
    /// let mut session = Session::heap_in(2, Clauses::new(), memory)?;
    /// session.enqueue(Lit::new(0, true), None)?;
    /// let state = session.heap_state().unwrap();
    ///
    /// // the caller has its arrays again, and lends them once more
    /// assert_eq!(values, [1, 2]);
    /// let memory = HeapMemory {
    ///     values: &mut values,
    ///     levels: &mut levels,
    ///     reasons: &mut reasons,
    ///     trail: &mut trail,
    ///     opened: &mut opened,
    ///     activity: &mut activity,
    ///     heap: &mut heap,
    ///     indices: &mut indices,
    ///     decision: &mut decision,
    ///     state,
    /// };
    /// let mut session = Session::heap_from(2, Clauses::new(), memory)?;
    /// assert_eq!(session.decide(false)?, Decision::Variable(1));
    /// # Ok::<(), sigvort::Refusal>(())
    /// ```
    pub fn heap_from(n: u32, clauses: Clauses<'a>, memory: HeapMemory<'a>) -> Result<Self, Refusal> {
        Session::in_heap(n, clauses, memory).checked()
    }

    /// Carries on with the session in list mode that lent memory holds. Refused as by [`list_in`](Session::list_in), and with [`Refusal::State`] where it holds
    /// no good one.
    pub fn list_from(n: u32, clauses: Clauses<'a>, memory: ListMemory<'a>) -> Result<Self, Refusal> {
        Session::in_list(n, clauses, memory).checked()
    }

    fn in_heap(n: u32, clauses: Clauses<'a>, memory: HeapMemory<'a>) -> Self {
        let (trail, heap) = memory.parts();
        Session { n, clauses, trail, chooser: Chooser::Heap(heap) }
    }

    fn in_list(n: u32, clauses: Clauses<'a>, memory: ListMemory<'a>) -> Self {
        let (trail, list) = memory.parts();
        Session { n, clauses, trail, chooser: Chooser::List(list) }
    }

    fn opened_fresh(mut self) -> Result<Self, Refusal> {
        let (codes, ends) = (self.clauses.codes(), self.clauses.ends());
        enter!(
            sigvort_heap_fresh | sigvort_list_fresh,
            (&mut self.trail, &mut self.chooser),
            as_mut_ptr,
            [(self.n, count(codes.len()), count(ends.len())), as_ptr[codes, ends],] []
        )?;
        Ok(self)
    }

    fn checked(mut self) -> Result<Self, Refusal> {
        self.check()?;
        Ok(self)
    }
}

/// The clause list.
impl<'a> Session<'a> {
    /// The clauses that are lent with each call.
    pub fn clauses(&self) -> &Clauses<'a> {
        &self.clauses
    }

    /// The clauses that are lent with each call, to be added to. The next call checks them.
    ///
    /// ```
    /// use sigvort::{Decision, Lit, Session};
    ///
    /// let mut session = Session::heap(3)?;
    /// assert_eq!(session.decide(true)?, Decision::Variable(0));
    /// let learnt = session.clauses_mut().push(&[Lit::new(1, true), Lit::new(0, false)]);
    /// session.enqueue(Lit::new(1, true), Some(learnt))?;
    /// # Ok::<(), sigvort::Refusal>(())
    /// ```
    pub fn clauses_mut(&mut self) -> &mut Clauses<'a> {
        &mut self.clauses
    }

    /// Lends another clause list from now on and gives back the former one. The next call checks it: a list that is not good gets [`Refusal::Clauses`],
    /// one with too few clauses for the number of a reason [`Refusal::State`], as long as it is lent. It has the clauses that are reasons under the same
    /// numbers; this is not checked.
    pub fn lend(&mut self, clauses: Clauses<'a>) -> Clauses<'a> {
        std::mem::replace(&mut self.clauses, clauses)
    }
}

/// The calls. Beside the refusals named with each, a call gets [`Refusal::Clauses`] or [`Refusal::State`] for a clause list that was changed so that it
/// does not fit.
impl Session<'_> {
    /// Adds the step to the variable's activity. In list mode this does nothing. Refused with [`Refusal::Variable`].
    pub fn bump(&mut self, var: u32) -> Result<(), Refusal> {
        self.done(call::bump(var))
    }

    /// Multiplies the step by 1 / decay. In list mode this does nothing. Refused with [`Refusal::Step`].
    pub fn decay(&mut self) -> Result<(), Refusal> {
        self.done(call::decay())
    }

    /// Sets the decay. In list mode this does nothing. Refused with [`Refusal::Decay`].
    pub fn set_decay(&mut self, decay: f64) -> Result<(), Refusal> {
        self.done(call::set_decay(decay))
    }

    /// Puts the variable into the heap, if it is switched on and not in it. In list mode this does nothing. Refused with [`Refusal::Variable`].
    pub fn insert(&mut self, var: u32) -> Result<(), Refusal> {
        self.done(call::insert(var))
    }

    /// Switches the variable off: it is not decided any more. In list mode this does nothing. Refused with [`Refusal::Variable`].
    pub fn switch_off(&mut self, var: u32) -> Result<(), Refusal> {
        self.done(call::switch_off(var))
    }

    /// Chooses an open variable, opens a level and gives the variable its value there. Refused in list mode with [`Refusal::Stuck`], where it
    /// says what a caller can do then.
    pub fn decide(&mut self, polarity: bool) -> Result<Decision, Refusal> {
        self.one(&[], call::decide(polarity)).map(Decision::from)
    }

    /// Makes the literal true at the present level. The reason is a clause's number, or `None`. Refused with [`Refusal::Variable`], [`Refusal::Reason`] or
    /// [`Refusal::Assigned`].
    pub fn enqueue(&mut self, lit: Lit, reason: Option<u32>) -> Result<(), Refusal> {
        self.done(call::enqueue(lit, reason))
    }

    /// Goes back to level 0 and makes the literal true there. Refused with [`Refusal::Variable`], and with [`Refusal::Assigned`] where its variable is assigned
    /// at level 0.
    pub fn learn_unit(&mut self, lit: Lit) -> Result<(), Refusal> {
        self.done(call::learn_unit(lit))
    }

    /// Goes back to the level, and tells how many variables were undone. A level that is not below the present one undoes nothing. The call
    /// has no refusal of its own.
    pub fn go_back(&mut self, level: u32) -> Result<u32, Refusal> {
        Ok(self.one(&[], call::go_back(level))?.expect("going back tells how many variables were undone"))
    }

    /// Bumps each variable of the variable's reason clause except the first; without a reason none. In list mode this does nothing. Refused with
    /// [`Refusal::Variable`].
    pub fn bump_reason(&mut self, var: u32) -> Result<(), Refusal> {
        self.done(call::bump_reason(var))
    }

    /// Moves the variables to the front of the list, where they keep their order among themselves. In heap mode this does nothing. Refused with
    /// [`Refusal::Form`] for more than [`MAX_GROUP`](crate::MAX_GROUP) variables, and with [`Refusal::Variable`].
    pub fn group(&mut self, vars: &[u32]) -> Result<(), Refusal> {
        self.one(vars, call::group(0, count(vars.len()))).map(drop)
    }

    /// Does a list of calls, one after the other, each as if it were called alone. An error says that the whole list was refused, before its first call: nothing
    /// changed, and the batch has no answers. Else each call has its own answer in the batch.
    pub fn batch(&mut self, batch: &mut Batch) -> Result<(), Refusal> {
        batch.hand_over(|vars, calls, answers| self.calls(vars, calls, answers))
    }

    /// Checks clauses and memory, and does nothing.
    pub fn check(&mut self) -> Result<(), Refusal> {
        self.calls(&[], &[], &mut [])
    }

    /// Does a call that has no reply.
    fn done(&mut self, call: Call) -> Result<(), Refusal> {
        self.one(&[], call).map(drop)
    }

    /// Does a list of one call.
    fn one(&mut self, vars: &[u32], call: Call) -> Result<Reply, Refusal> {
        let mut answer = UNANSWERED;
        self.calls(vars, &call, &mut answer)?;
        call::read(answer)
    }

    /// Does a list of calls and writes their answers.
    fn calls(&mut self, vars: &[u32], calls: &[u32], answers: &mut [u32]) -> Result<(), Refusal> {
        let (codes, ends) = (self.clauses.codes(), self.clauses.ends());
        enter!(
            sigvort_heap_calls | sigvort_list_calls,
            (&mut self.trail, &mut self.chooser),
            as_mut_ptr,
            [(self.n, count(codes.len()), count(ends.len())), as_ptr[codes, ends],] [, as_ptr[vars, calls], as_mut_ptr[answers]]
        )
    }
}

/// Saving, as text (`docs/SAVED.md`). It changes nothing in the session. Refused with [`Refusal::Clauses`] or [`Refusal::State`] for a clause list that was changed
/// so that it does not fit.
impl Session<'_> {
    /// The session's text, which [`read`](Session::read) takes. Two sessions have the same one only where no call tells them apart. Never refused with
    /// [`Refusal::BufferTooShort`]: the buffer is its own and has [`saved_room`].
    ///
    /// ```
    /// use sigvort::{Decision, Session};
    ///
    /// let mut session = Session::list(2)?;
    /// session.decide(true)?;
    /// let text = session.save()?;
    /// assert_eq!(text, "n\t2\tvmtf\nt\t1\nl\t1\nr\t-\nq\t0\nv\t0\t1\ns\t2\t1\nk\t3\nf\t1\n");
    ///
    /// let mut later = Session::read(text.as_bytes())?;
    /// assert_eq!(later.decide(false)?, Decision::Variable(1));
    /// assert_eq!(later.go_back(0)?, 2);
    /// # Ok::<(), sigvort::Refusal>(())
    /// ```
    pub fn save(&self) -> Result<String, Refusal> {
        let mut text = vec![0; saved_room(self.n, self.clauses.len(), self.clauses.codes().len())];
        let len = self.save_to(&mut text)?;
        Ok(string(&text[..len]))
    }

    /// Writes the session's text to the front of the buffer; the bytes behind it stay as they were. Returns the text's length. Refused last with
    /// [`Refusal::BufferTooShort`], never where the buffer has [`saved_room`] bytes.
    ///
    /// ```
    /// use sigvort::{Refusal, Session};
    ///
    /// let session = Session::list(0)?;
    /// let mut buffer = [b'?'; 40];
    /// let len = session.save_to(&mut buffer)?;
    /// assert_eq!(&buffer[..len], b"n\t0\tvmtf\nt\nl\nr\nq\t0\nv\ns\nk\t1\nf\t-\n");
    /// assert_eq!(session.save_to(&mut buffer[..len - 1]), Err(Refusal::BufferTooShort));
    /// # Ok::<(), Refusal>(())
    /// ```
    pub fn save_to(&self, text: &mut [u8]) -> Result<usize, Refusal> {
        let (codes, ends, mut written) = (self.clauses.codes(), self.clauses.ends(), 0);
        enter!(
            sigvort_heap_save | sigvort_list_save,
            (&self.trail, &self.chooser),
            as_ptr,
            [(self.n, count(codes.len()), count(ends.len())), as_ptr[codes, ends],] [, as_mut_ptr[text] (&mut written)]
        )?;
        Ok(written as usize)
    }
}

/// Reading a session back from its text (`docs/SAVED.md`), into memory of its own.
impl Session<'static> {
    /// Reads a session, with its clauses, from its text, in whichever mode that is. It gives the answers that the saved one would have given. Refused with
    /// [`Refusal::Saved`], [`Refusal::TooManyVariables`], [`Refusal::Clauses`] or [`Refusal::State`].
    ///
    /// ```
    /// use sigvort::{Lit, Mode, Refusal, Session};
    ///
    /// let mut session = Session::heap(2)?;
    /// let learnt = session.clauses_mut().push(&[Lit::new(1, true)]);
    /// session.enqueue(Lit::new(1, true), Some(learnt))?;
    /// let mut text = session.save()?;
    ///
    /// let read = Session::read(text.as_bytes())?;
    /// assert_eq!((read.mode(), read.len()), (Mode::Heap, 2));
    /// assert_eq!(read.clauses(), session.clauses());
    /// assert_eq!(read.reason_of(1), Some(learnt));
    /// assert_eq!(read.save()?, text);
    ///
    /// text.push('\n');
    /// assert_eq!(Session::read(text.as_bytes()).unwrap_err(), Refusal::Saved);
    /// # Ok::<(), Refusal>(())
    /// ```
    pub fn read(text: &[u8]) -> Result<Self, Refusal> {
        let Counts { mode, variables: n, clauses, literals } = Counts::of(text)?;
        let chooser = match mode {
            Mode::Heap => Chooser::Heap(Heap::own(places(n))),
            Mode::List => Chooser::List(List::own(places(n))),
        };
        let (mut codes, mut ends) = (vec![0; literals], vec![0; clauses]);
        let session = Session { n, clauses: Clauses::new(), trail: Trail::own(places(n)), chooser }.filled(text, &mut codes, &mut ends)?;
        Ok(Session { clauses: Clauses::from_parts(codes, ends), ..session })
    }
}

/// Reading a session back into lent memory.
impl<'a> Session<'a> {
    /// Reads a session in heap mode from its text into lent memory, and its clauses into `codes` and `ends`. What these hold does not matter; their lengths are
    /// the [`Counts`] of the text. Refused with [`Refusal::Saved`], [`Refusal::TooManyVariables`], [`Refusal::Length`], [`Refusal::Clauses`] or
    /// [`Refusal::State`].
    ///
    /// ```
    /// use sigvort::{Decision, HeapMemory, HeapState, Session};
    ///
    /// let mut session = Session::heap(2)?;
    /// session.decide(true)?;
    /// let text = session.save()?;
    ///
    /// let (mut values, mut decision, mut activity) = ([0; 2], [0; 2], [0.0; 2]);
    /// let [mut levels, mut reasons, mut trail, mut opened, mut heap, mut indices] = [[0; 2]; 6];
    /// let memory = HeapMemory {
    ///     values: &mut values,
    ///     levels: &mut levels,
    ///     reasons: &mut reasons,
    ///     trail: &mut trail,
    ///     opened: &mut opened,
    ///     activity: &mut activity,
    ///     heap: &mut heap,
    ///     indices: &mut indices,
    ///     decision: &mut decision,
    ///     state: HeapState::default(),
    /// };
    /// let mut session = Session::read_heap_in(text.as_bytes(), &mut [], &mut [], memory)?;
    /// assert_eq!(session.decide(false)?, Decision::Variable(1));
    /// assert_eq!(values, [1, 0]);
    /// # Ok::<(), sigvort::Refusal>(())
    /// ```
    pub fn read_heap_in(text: &[u8], codes: &'a mut [u32], ends: &'a mut [u32], memory: HeapMemory<'a>) -> Result<Self, Refusal> {
        let n = count(memory.values.len());
        let session = Session::in_heap(n, Clauses::new(), memory).filled(text, codes, ends)?;
        Ok(Session { clauses: Clauses::from_parts(&*codes, &*ends), ..session })
    }

    /// Reads a session in list mode from its text into lent memory, as [`read_heap_in`](Session::read_heap_in) does in heap mode.
    ///
    /// ```
    /// use sigvort::{Lit, ListMemory, ListState, Session};
    ///
    /// let mut session = Session::list(2)?;
    /// session.clauses_mut().push(&[Lit::new(1, true)]);
    /// session.group(&[1])?;
    /// let text = session.save()?;
    ///
    /// let (mut values, mut ts, mut codes, mut ends) = ([0; 2], [0; 2], [0; 1], [0; 1]);
    /// let [mut levels, mut reasons, mut trail, mut opened, mut next, mut prev] = [[0; 2]; 6];
    /// let memory = ListMemory {
    ///     values: &mut values,
    ///     levels: &mut levels,
    ///     reasons: &mut reasons,
    ///     trail: &mut trail,
    ///     opened: &mut opened,
    ///     next: &mut next,
    ///     prev: &mut prev,
    ///     ts: &mut ts,
    ///     state: ListState::default(),
    /// };
    /// let session = Session::read_list_in(text.as_bytes(), &mut codes, &mut ends, memory)?;
    /// assert_eq!(session.list_state().unwrap().start, 1);
    /// assert_eq!(session.clauses().codes(), [3]);
    /// assert_eq!((ts, codes, ends), ([2, 3], [3], [1]));
    /// # Ok::<(), sigvort::Refusal>(())
    /// ```
    pub fn read_list_in(text: &[u8], codes: &'a mut [u32], ends: &'a mut [u32], memory: ListMemory<'a>) -> Result<Self, Refusal> {
        let n = count(memory.values.len());
        let session = Session::in_list(n, Clauses::new(), memory).filled(text, codes, ends)?;
        Ok(Session { clauses: Clauses::from_parts(&*codes, &*ends), ..session })
    }

    /// The session with the memory that a text says; the clauses of the text are written beside it.
    fn filled(mut self, text: &[u8], codes: &mut [u32], ends: &mut [u32]) -> Result<Self, Refusal> {
        enter!(
            sigvort_heap_read | sigvort_list_read,
            (&mut self.trail, &mut self.chooser),
            as_mut_ptr,
            [(), as_ptr[text], as_mut_ptr[codes, ends],] []
        )?;
        Ok(self)
    }
}

/// Reading. A variable that does not exist is unassigned and has nothing.
impl Session<'_> {
    /// How the session chooses.
    pub fn mode(&self) -> Mode {
        match self.chooser {
            Chooser::Heap(_) => Mode::Heap,
            Chooser::List(_) => Mode::List,
        }
    }

    /// The number of variables.
    pub fn len(&self) -> u32 {
        self.n
    }

    /// Whether there are no variables.
    pub fn is_empty(&self) -> bool {
        self.n == 0
    }

    /// The present level: the number of decisions that stand.
    pub fn level(&self) -> u32 {
        self.trail.level
    }

    /// The literals made true, in their order.
    pub fn trail(&self) -> &[Lit] {
        Lit::of_codes(&self.trail.trail[..self.trail.len as usize])
    }

    /// For each level, from level 1 on, the trail's length before its decision.
    pub fn opened(&self) -> &[u32] {
        &self.trail.opened[..self.trail.level as usize]
    }

    /// The place on the trail from which a solver propagates. Going back, a learnt unit's too, sets it to the trail's length where it undoes something; no
    /// other call changes it.
    pub fn curr_i(&self) -> u32 {
        self.trail.curr_i
    }

    /// Moves that place. Refused with [`Refusal::State`] where it lies behind the trail.
    ///
    /// ```
    /// use sigvort::{Lit, Refusal, Session};
    ///
    /// let mut session = Session::heap(2)?;
    /// session.enqueue(Lit::new(1, true), None)?;
    /// session.set_curr_i(1)?;
    /// assert_eq!(session.set_curr_i(2), Err(Refusal::State));
    /// assert_eq!(session.curr_i(), 1);
    /// # Ok::<(), Refusal>(())
    /// ```
    pub fn set_curr_i(&mut self, place: u32) -> Result<(), Refusal> {
        if place > self.trail.len {
            return Err(Refusal::State);
        }
        self.trail.curr_i = place;
        Ok(())
    }

    /// The value of each variable: 0, 1, or 2 where it is not assigned.
    pub fn values(&self) -> &[u8] {
        &self.trail.values
    }

    /// The variable's value, if it is assigned.
    pub fn value(&self, var: u32) -> Option<bool> {
        match self.trail.values.get(var as usize) {
            Some(0) => Some(false),
            Some(1) => Some(true),
            _ => None,
        }
    }

    /// The level at which the variable was assigned, if it is.
    pub fn level_of(&self, var: u32) -> Option<u32> {
        self.value(var).map(|_| self.trail.levels[var as usize])
    }

    /// The number of the clause for which the variable was assigned, if it is assigned for one.
    pub fn reason_of(&self, var: u32) -> Option<u32> {
        self.trail.reasons.get(var as usize).copied().filter(|&reason| reason != crate::NONE)
    }

    /// The variable's activity, in heap mode.
    pub fn activity(&self, var: u32) -> Option<f64> {
        match &self.chooser {
            Chooser::Heap(heap) => heap.activity.get(var as usize).copied(),
            Chooser::List(_) => None,
        }
    }

    /// Whether the variable is switched on. In list mode all are.
    pub fn is_on(&self, var: u32) -> bool {
        match &self.chooser {
            Chooser::Heap(heap) => heap.decision.get(var as usize) == Some(&1),
            Chooser::List(_) => var < self.n,
        }
    }

    /// The variable's stamp, in list mode. Stamps fall from the front of the list.
    pub fn stamp(&self, var: u32) -> Option<u64> {
        match &self.chooser {
            Chooser::Heap(_) => None,
            Chooser::List(list) => list.ts.get(var as usize).copied(),
        }
    }

    /// The small states as they stand, in heap mode. With the arrays that were lent they are all that a later session needs.
    pub fn heap_state(&self) -> Option<HeapState> {
        match &self.chooser {
            Chooser::Heap(heap) => Some(HeapState {
                len: self.trail.len,
                level: self.trail.level,
                curr_i: self.trail.curr_i,
                members: heap.members,
                inc: heap.inc,
                decay: heap.decay,
            }),
            Chooser::List(_) => None,
        }
    }

    /// The small states as they stand, in list mode. With the arrays that were lent they are all that a later session needs.
    pub fn list_state(&self) -> Option<ListState> {
        match &self.chooser {
            Chooser::Heap(_) => None,
            Chooser::List(list) => Some(ListState {
                len: self.trail.len,
                level: self.trail.level,
                curr_i: self.trail.curr_i,
                start: list.start,
                search: list.search,
                timestamp: list.timestamp,
            }),
        }
    }
}

impl fmt::Debug for Session<'_> {
    fn fmt(&self, f: &mut fmt::Formatter<'_>) -> fmt::Result {
        f.debug_struct("Session")
            .field("mode", &self.mode())
            .field("variables", &self.n)
            .field("clauses", &self.clauses.len())
            .field("level", &self.level())
            .field("trail", &self.trail())
            .finish_non_exhaustive()
    }
}
