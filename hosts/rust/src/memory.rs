use std::ops::{Deref, DerefMut};

/// The small states of a session in heap mode. With the arrays of [`HeapMemory`] they are all that a session is.
#[derive(Clone, Copy, Debug, Default, PartialEq)]
pub struct HeapState {
    /// How much of `trail` is in use.
    pub len: u32,
    /// How much of `opened` is in use: the present level.
    pub level: u32,
    /// The place from which a solver propagates, at most `len`. Going back, a learnt unit's too, sets it to the trail's length where it undoes something. No
    /// other call changes it: the solver moves it on.
    pub curr_i: u32,
    /// How much of `heap` is in use.
    pub members: u32,
    /// The step: what a bump adds.
    pub inc: f64,
    /// What the step decays by.
    pub decay: f64,
}

/// The small states of a session in list mode. With the arrays of [`ListMemory`] they are all that a session is.
#[derive(Clone, Copy, Debug, Default, PartialEq, Eq)]
pub struct ListState {
    /// How much of `trail` is in use.
    pub len: u32,
    /// How much of `opened` is in use: the present level.
    pub level: u32,
    /// The place from which a solver propagates, at most `len`. Going back, a learnt unit's too, sets it to the trail's length where it undoes something. No
    /// other call changes it: the solver moves it on.
    pub curr_i: u32,
    /// The front of the list, or [`NONE`](crate::NONE).
    pub start: u32,
    /// Where the search for an open variable begins, or [`NONE`](crate::NONE).
    pub search: u32,
    /// The next stamp.
    pub timestamp: u64,
}

/// The memory of a session in heap mode, lent by the caller: arrays with a place for each variable, and the small states.
///
/// A place of `trail`, `opened` or `heap` that is not in use holds [`NONE`](crate::NONE).
#[derive(Debug)]
pub struct HeapMemory<'a> {
    /// The value of each variable: 0, 1, or 2 where it is not assigned.
    pub values: &'a mut [u8],
    /// The level of each variable that is assigned.
    pub levels: &'a mut [u32],
    /// The reason of each variable: a clause number or [`NONE`](crate::NONE).
    pub reasons: &'a mut [u32],
    /// The codes made true, in their order.
    pub trail: &'a mut [u32],
    /// For each level the trail's length before its decision.
    pub opened: &'a mut [u32],
    /// The activity of each variable.
    pub activity: &'a mut [f64],
    /// The members, in heap order.
    pub heap: &'a mut [u32],
    /// The place of each variable in `heap`, or [`NONE`](crate::NONE).
    pub indices: &'a mut [u32],
    /// The switch of each variable: 1 on, 0 off.
    pub decision: &'a mut [u8],
    /// The small states. A session takes a copy; [`Session::heap_state`](crate::Session::heap_state) tells how they stand.
    pub state: HeapState,
}

/// The memory of a session in list mode, lent by the caller: arrays with a place for each variable, and the small states.
///
/// A place of `trail` or `opened` that is not in use holds [`NONE`](crate::NONE).
#[derive(Debug)]
pub struct ListMemory<'a> {
    /// The value of each variable: 0, 1, or 2 where it is not assigned.
    pub values: &'a mut [u8],
    /// The level of each variable that is assigned.
    pub levels: &'a mut [u32],
    /// The reason of each variable: a clause number or [`NONE`](crate::NONE).
    pub reasons: &'a mut [u32],
    /// The codes made true, in their order.
    pub trail: &'a mut [u32],
    /// For each level the trail's length before its decision.
    pub opened: &'a mut [u32],
    /// The variable behind each, or [`NONE`](crate::NONE).
    pub next: &'a mut [u32],
    /// The variable before each, or [`NONE`](crate::NONE).
    pub prev: &'a mut [u32],
    /// The stamp of each variable. Stamps fall from the front of the list.
    pub ts: &'a mut [u64],
    /// The small states. A session takes a copy; [`Session::list_state`](crate::Session::list_state) tells how they stand.
    pub state: ListState,
}

/// An array of a session, its own or lent to it.
pub(crate) enum Array<'a, T> {
    Own(Box<[T]>),
    Lent(&'a mut [T]),
}

impl<T: Clone + Default> Array<'_, T> {
    /// An array of its own, with so many places.
    fn own(places: usize) -> Self {
        Array::Own(vec![T::default(); places].into())
    }
}

/// A copy is the session's own.
impl<T: Clone> Clone for Array<'_, T> {
    fn clone(&self) -> Self {
        Array::Own(self[..].into())
    }
}

impl<T> Deref for Array<'_, T> {
    type Target = [T];

    #[inline]
    fn deref(&self) -> &[T] {
        match self {
            Array::Own(places) => places,
            Array::Lent(places) => places,
        }
    }
}

impl<T> DerefMut for Array<'_, T> {
    #[inline]
    fn deref_mut(&mut self) -> &mut [T] {
        match self {
            Array::Own(places) => places,
            Array::Lent(places) => places,
        }
    }
}

/// The trail of a session.
#[derive(Clone)]
pub(crate) struct Trail<'a> {
    pub values: Array<'a, u8>,
    pub levels: Array<'a, u32>,
    pub reasons: Array<'a, u32>,
    pub trail: Array<'a, u32>,
    pub opened: Array<'a, u32>,
    pub len: u32,
    pub level: u32,
    pub curr_i: u32,
}

impl<'a> Trail<'a> {
    pub(crate) fn own(places: usize) -> Self {
        Trail {
            values: Array::own(places),
            levels: Array::own(places),
            reasons: Array::own(places),
            trail: Array::own(places),
            opened: Array::own(places),
            len: 0,
            level: 0,
            curr_i: 0,
        }
    }

    fn lent(values: &'a mut [u8], [levels, reasons, trail, opened]: [&'a mut [u32]; 4], [len, level, curr_i]: [u32; 3]) -> Self {
        Trail {
            values: Array::Lent(values),
            levels: Array::Lent(levels),
            reasons: Array::Lent(reasons),
            trail: Array::Lent(trail),
            opened: Array::Lent(opened),
            len,
            level,
            curr_i,
        }
    }
}

/// The heap of a session.
#[derive(Clone)]
pub(crate) struct Heap<'a> {
    pub activity: Array<'a, f64>,
    pub heap: Array<'a, u32>,
    pub indices: Array<'a, u32>,
    pub decision: Array<'a, u8>,
    pub members: u32,
    pub inc: f64,
    pub decay: f64,
}

impl Heap<'_> {
    pub(crate) fn own(places: usize) -> Self {
        Heap {
            activity: Array::own(places),
            heap: Array::own(places),
            indices: Array::own(places),
            decision: Array::own(places),
            members: 0,
            inc: 0.0,
            decay: 0.0,
        }
    }
}

/// The move-to-front list of a session.
#[derive(Clone)]
pub(crate) struct List<'a> {
    pub next: Array<'a, u32>,
    pub prev: Array<'a, u32>,
    pub ts: Array<'a, u64>,
    pub start: u32,
    pub search: u32,
    pub timestamp: u64,
}

impl List<'_> {
    pub(crate) fn own(places: usize) -> Self {
        List { next: Array::own(places), prev: Array::own(places), ts: Array::own(places), start: 0, search: 0, timestamp: 0 }
    }
}

impl<'a> HeapMemory<'a> {
    /// The trail and the heap in this memory.
    pub(crate) fn parts(self) -> (Trail<'a>, Heap<'a>) {
        let HeapState { len, level, curr_i, members, inc, decay } = self.state;
        let trail = Trail::lent(self.values, [self.levels, self.reasons, self.trail, self.opened], [len, level, curr_i]);
        let heap = Heap {
            activity: Array::Lent(self.activity),
            heap: Array::Lent(self.heap),
            indices: Array::Lent(self.indices),
            decision: Array::Lent(self.decision),
            members,
            inc,
            decay,
        };
        (trail, heap)
    }
}

impl<'a> ListMemory<'a> {
    /// The trail and the list in this memory.
    pub(crate) fn parts(self) -> (Trail<'a>, List<'a>) {
        let ListState { len, level, curr_i, start, search, timestamp } = self.state;
        let trail = Trail::lent(self.values, [self.levels, self.reasons, self.trail, self.opened], [len, level, curr_i]);
        let list = List { next: Array::Lent(self.next), prev: Array::Lent(self.prev), ts: Array::Lent(self.ts), start, search, timestamp };
        (trail, list)
    }
}
