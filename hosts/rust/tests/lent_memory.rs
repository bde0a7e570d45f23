//! Sessions in memory that the caller lends.

use sigvort::{Clauses, Decision, HeapMemory, HeapState, ListMemory, ListState, Lit, Refusal, Session, NONE};

const fn pos(var: u32) -> Lit {
    Lit::new(var, true)
}

/// The arrays of a session in heap mode.
#[derive(Clone, Debug, PartialEq)]
struct HeapArrays {
    values: Vec<u8>,
    levels: Vec<u32>,
    reasons: Vec<u32>,
    trail: Vec<u32>,
    opened: Vec<u32>,
    activity: Vec<f64>,
    heap: Vec<u32>,
    indices: Vec<u32>,
    decision: Vec<u8>,
}

impl HeapArrays {
    /// Arrays of so many places that hold no session.
    fn new(places: usize) -> Self {
        HeapArrays {
            values: vec![9; places],
            levels: vec![9; places],
            reasons: vec![9; places],
            trail: vec![9; places],
            opened: vec![9; places],
            activity: vec![-9.0; places],
            heap: vec![9; places],
            indices: vec![9; places],
            decision: vec![9; places],
        }
    }

    fn lend(&mut self, state: HeapState) -> HeapMemory<'_> {
        HeapMemory {
            values: &mut self.values,
            levels: &mut self.levels,
            reasons: &mut self.reasons,
            trail: &mut self.trail,
            opened: &mut self.opened,
            activity: &mut self.activity,
            heap: &mut self.heap,
            indices: &mut self.indices,
            decision: &mut self.decision,
            state,
        }
    }
}

/// The arrays of a session in list mode.
#[derive(Clone, Debug, PartialEq)]
struct ListArrays {
    values: Vec<u8>,
    levels: Vec<u32>,
    reasons: Vec<u32>,
    trail: Vec<u32>,
    opened: Vec<u32>,
    next: Vec<u32>,
    prev: Vec<u32>,
    ts: Vec<u64>,
}

impl ListArrays {
    /// Arrays of so many places that hold no session.
    fn new(places: usize) -> Self {
        ListArrays {
            values: vec![9; places],
            levels: vec![9; places],
            reasons: vec![9; places],
            trail: vec![9; places],
            opened: vec![9; places],
            next: vec![9; places],
            prev: vec![9; places],
            ts: vec![9; places],
        }
    }

    fn lend(&mut self, state: ListState) -> ListMemory<'_> {
        ListMemory {
            values: &mut self.values,
            levels: &mut self.levels,
            reasons: &mut self.reasons,
            trail: &mut self.trail,
            opened: &mut self.opened,
            next: &mut self.next,
            prev: &mut self.prev,
            ts: &mut self.ts,
            state,
        }
    }
}

/// Arrays and small states in which a heap session of three variables has decided 0 and then 2.
fn heap_in_use() -> (HeapArrays, HeapState) {
    let mut arrays = HeapArrays::new(3);
    let mut session = Session::heap_in(3, Clauses::new(), arrays.lend(HeapState::default())).unwrap();
    assert_eq!(session.decide(true), Ok(Decision::Variable(0)));
    assert_eq!(session.decide(false), Ok(Decision::Variable(2)));
    let state = session.heap_state().unwrap();
    (arrays, state)
}

/// Arrays and small states in which a list session of three variables has decided 0 and moved 2 to the front.
fn list_in_use() -> (ListArrays, ListState) {
    let mut arrays = ListArrays::new(3);
    let mut session = Session::list_in(3, Clauses::new(), arrays.lend(ListState::default())).unwrap();
    assert_eq!(session.decide(true), Ok(Decision::Variable(0)));
    session.group(&[2]).unwrap();
    let state = session.list_state().unwrap();
    (arrays, state)
}

#[test]
fn a_heap_session_stands_in_the_arrays() {
    let (arrays, state) = heap_in_use();
    let expected = HeapArrays {
        values: vec![1, 2, 0],
        levels: vec![1, NONE, 2],
        reasons: vec![NONE; 3],
        trail: vec![1, 4, NONE],
        opened: vec![0, 1, NONE],
        activity: vec![0.0; 3],
        heap: vec![1, NONE, NONE],
        indices: vec![NONE, 0, NONE],
        decision: vec![1; 3],
    };
    assert_eq!(arrays, expected);
    assert_eq!(state, HeapState { len: 2, level: 2, curr_i: 0, members: 1, inc: 1.0, decay: 0.95 });
}

#[test]
fn a_list_session_stands_in_the_arrays() {
    let (arrays, state) = list_in_use();
    let expected = ListArrays {
        values: vec![1, 2, 2],
        levels: vec![1, NONE, NONE],
        reasons: vec![NONE; 3],
        trail: vec![1, NONE, NONE],
        opened: vec![0, NONE, NONE],
        next: vec![1, NONE, 0],
        prev: vec![2, 0, NONE],
        ts: vec![3, 2, 4],
    };
    assert_eq!(arrays, expected);
    assert_eq!(state, ListState { len: 1, level: 1, curr_i: 0, start: 2, search: 1, timestamp: 5 });
}

#[test]
fn a_heap_session_carries_on() {
    let (mut arrays, state) = heap_in_use();
    let mut session = Session::heap_from(3, Clauses::new(), arrays.lend(state)).unwrap();
    assert_eq!(session.trail(), [pos(0), !pos(2)]);
    assert_eq!(session.decide(true), Ok(Decision::Variable(1)));
    assert_eq!(session.go_back(0), Ok(3));
    assert_eq!(arrays.values, [2; 3]);
}

#[test]
fn a_list_session_carries_on() {
    let (mut arrays, state) = list_in_use();
    let mut session = Session::list_from(3, Clauses::new(), arrays.lend(state)).unwrap();
    assert_eq!(session.level(), 1);
    assert_eq!(session.decide(true), Ok(Decision::Variable(1)));
    assert_eq!(session.decide(true), Err(Refusal::Stuck));
    assert_eq!(arrays.values, [1, 1, 2]);
}

#[test]
fn a_list_session_that_is_stuck_searches_from_the_front() {
    let (mut arrays, state) = list_in_use();
    let mut session = Session::list_from(3, Clauses::new(), arrays.lend(state)).unwrap();
    assert_eq!(session.decide(true), Ok(Decision::Variable(1)));
    assert_eq!(session.decide(true), Err(Refusal::Stuck));
    let mut state = session.list_state().unwrap();
    state.search = state.start;
    let mut session = Session::list_from(3, Clauses::new(), arrays.lend(state)).unwrap();
    assert_eq!(session.decide(true), Ok(Decision::Variable(2)));
    assert_eq!(session.decide(true), Ok(Decision::None));
}

#[test]
fn a_clone_leaves_the_lent_arrays_alone() {
    let (mut arrays, state) = heap_in_use();
    let before = arrays.clone();
    let session = Session::heap_from(3, Clauses::new(), arrays.lend(state)).unwrap();
    let mut clone = session.clone();
    assert_eq!(clone.decide(true), Ok(Decision::Variable(1)));
    assert_eq!(clone.go_back(0), Ok(3));
    assert_eq!(session.trail(), [pos(0), !pos(2)]);
    assert_eq!(session.heap_state(), Some(state));
    assert_eq!(arrays, before);

    let (mut arrays, state) = list_in_use();
    let before = arrays.clone();
    let session = Session::list_from(3, Clauses::new(), arrays.lend(state)).unwrap();
    let mut clone = session.clone();
    assert_eq!(clone.group(&[1]), Ok(()));
    assert_eq!(clone.list_state().unwrap().start, 1);
    assert_eq!(session.list_state(), Some(state));
    assert_eq!(arrays, before);
}

#[test]
fn memory_that_holds_no_session_is_refused_and_stays_as_it_was() {
    let mut arrays = HeapArrays::new(2);
    let memory = arrays.lend(HeapState::default());
    assert_eq!(Session::heap_from(2, Clauses::new(), memory).unwrap_err(), Refusal::State);
    assert_eq!(arrays, HeapArrays::new(2));

    let mut arrays = ListArrays::new(2);
    let memory = arrays.lend(ListState::default());
    assert_eq!(Session::list_from(2, Clauses::new(), memory).unwrap_err(), Refusal::State);
    assert_eq!(arrays, ListArrays::new(2));
}

#[test]
fn each_broken_fact_of_a_heap_session_is_found() {
    type Break = fn(&mut HeapArrays, &mut HeapState);
    let breaks: [Break; 13] = [
        |arrays, _| arrays.values[1] = 3,
        |arrays, _| arrays.values[0] = 0,
        |arrays, _| arrays.levels[2] = 1,
        |arrays, _| arrays.reasons[0] = 0,
        |arrays, _| arrays.trail[2] = 0,
        |arrays, _| arrays.opened[1] = 0,
        |arrays, _| arrays.activity[1] = f64::NAN,
        |arrays, _| arrays.heap[1] = 0,
        |arrays, _| arrays.indices[1] = NONE,
        |arrays, _| arrays.decision[1] = 2,
        |_, state| state.len = 4,
        |_, state| state.members = u32::MAX,
        |_, state| state.inc = -1.0,
    ];
    for broken in breaks {
        let (mut arrays, mut state) = heap_in_use();
        broken(&mut arrays, &mut state);
        let before = arrays.clone();
        let session = Session::heap_from(3, Clauses::new(), arrays.lend(state));
        assert_eq!(session.unwrap_err(), Refusal::State);
        assert_eq!(format!("{arrays:?}"), format!("{before:?}"));
    }
}

#[test]
fn each_broken_fact_of_a_list_session_is_found() {
    type Break = fn(&mut ListArrays, &mut ListState);
    let breaks: [Break; 7] = [
        |arrays, _| arrays.next[1] = 1,
        |arrays, _| arrays.prev[2] = 0,
        |arrays, _| arrays.ts[2] = 3,
        |_, state| state.start = 0,
        |_, state| state.search = 3,
        |_, state| state.timestamp = 4,
        |_, state| state.level = 0,
    ];
    for broken in breaks {
        let (mut arrays, mut state) = list_in_use();
        broken(&mut arrays, &mut state);
        let before = arrays.clone();
        assert_eq!(Session::list_from(3, Clauses::new(), arrays.lend(state)).unwrap_err(), Refusal::State);
        assert_eq!(arrays, before);
    }
}

#[test]
fn lengths_that_do_not_fit() {
    for n in [1, 3] {
        let mut arrays = HeapArrays::new(2);
        let memory = arrays.lend(HeapState::default());
        assert_eq!(Session::heap_in(n, Clauses::new(), memory).unwrap_err(), Refusal::Length);
        assert_eq!(arrays, HeapArrays::new(2));

        let mut arrays = ListArrays::new(2);
        let memory = arrays.lend(ListState::default());
        assert_eq!(Session::list_from(n, Clauses::new(), memory).unwrap_err(), Refusal::Length);
    }
    let mut arrays = HeapArrays::new(2);
    arrays.indices.pop();
    let memory = arrays.lend(HeapState::default());
    assert_eq!(Session::heap_in(2, Clauses::new(), memory).unwrap_err(), Refusal::Length);
}

#[test]
fn refusals_come_in_order() {
    let bad_clauses = || Clauses::from_parts(vec![4], vec![1]);
    let mut arrays = HeapArrays::new(2);
    let mut refusal = |n, clauses| Session::heap_from(n, clauses, arrays.lend(HeapState::default())).unwrap_err();
    assert_eq!(refusal(2049, bad_clauses()), Refusal::TooManyVariables);
    assert_eq!(refusal(3, bad_clauses()), Refusal::Length);
    assert_eq!(refusal(2, bad_clauses()), Refusal::Clauses);
    assert_eq!(refusal(2, Clauses::new()), Refusal::State);
}

#[test]
fn no_variables() {
    let mut arrays = HeapArrays::new(0);
    let mut session = Session::heap_in(0, Clauses::new(), arrays.lend(HeapState::default())).unwrap();
    assert_eq!(session.decide(true), Ok(Decision::None));
    let state = session.heap_state().unwrap();
    assert!(Session::heap_from(0, Clauses::new(), arrays.lend(state)).is_ok());

    let mut arrays = ListArrays::new(0);
    let mut session = Session::list_in(0, Clauses::new(), arrays.lend(ListState::default())).unwrap();
    assert_eq!(session.decide(true), Ok(Decision::None));
    let state = session.list_state().unwrap();
    assert!(Session::list_from(0, Clauses::new(), arrays.lend(state)).is_ok());
}

/// The text of a session with two clauses, and the arrays that it says.
fn saved(mut session: Session) -> String {
    session.clauses_mut().push(&[pos(0), pos(1)]);
    session.clauses_mut().push(&[!pos(2)]);
    session.decide(true).unwrap();
    session.enqueue(!pos(2), Some(1)).unwrap();
    session.save().unwrap()
}

#[test]
fn a_heap_session_is_read_into_the_arrays() {
    let text = saved(Session::heap(3).unwrap());
    let (mut arrays, mut codes, mut ends) = (HeapArrays::new(3), [9; 3], [9; 2]);
    let session = Session::read_heap_in(text.as_bytes(), &mut codes, &mut ends, arrays.lend(HeapState::default())).unwrap();
    assert_eq!((session.len(), session.clauses().ends()), (3, &[2, 3][..]));
    assert_eq!(session.save(), Ok(text));
    assert_eq!(session.heap_state(), Some(HeapState { len: 2, level: 1, curr_i: 0, members: 2, inc: 1.0, decay: 0.95 }));
    let expected = HeapArrays {
        values: vec![1, 2, 0],
        levels: vec![1, NONE, 1],
        reasons: vec![NONE, NONE, 1],
        trail: vec![1, 4, NONE],
        opened: vec![0, NONE, NONE],
        activity: vec![0.0; 3],
        heap: vec![2, 1, NONE],
        indices: vec![NONE, 1, 0],
        decision: vec![1; 3],
    };
    assert_eq!((arrays, codes, ends), (expected, [1, 3, 4], [2, 3]));
}

#[test]
fn a_list_session_is_read_into_the_arrays() {
    let text = saved(Session::list(3).unwrap());
    let (mut arrays, mut codes, mut ends) = (ListArrays::new(3), [9; 3], [9; 2]);
    let mut session = Session::read_list_in(text.as_bytes(), &mut codes, &mut ends, arrays.lend(ListState::default())).unwrap();
    assert_eq!(session.save(), Ok(text));
    assert_eq!(session.list_state(), Some(ListState { len: 2, level: 1, curr_i: 0, start: 0, search: 1, timestamp: 4 }));
    assert_eq!(session.decide(false), Ok(Decision::Variable(1)));
    assert_eq!((arrays.values, arrays.next, arrays.ts), (vec![1, 0, 0], vec![1, 2, NONE], vec![3, 2, 1]));
}

#[test]
fn a_text_that_is_refused_leaves_the_memory_as_it_was() {
    let text = saved(Session::heap(3).unwrap());
    let state = text.replace("q\t0", "q\t3");
    let clauses = text.replace("c\t1\t3", "c\t1\t6");
    let other_mode = saved(Session::list(3).unwrap());
    let cases: [(&str, [usize; 3], Refusal); 8] = [
        (&text[1..], [3, 3, 2], Refusal::Saved),
        (&other_mode, [3, 3, 2], Refusal::Saved),
        (&other_mode, [9, 9, 9], Refusal::Saved),
        (&text, [4, 3, 2], Refusal::Length),
        (&text, [3, 2, 2], Refusal::Length),
        (&clauses, [3, 3, 1], Refusal::Length),
        (&clauses, [3, 3, 2], Refusal::Clauses),
        (&state, [3, 3, 2], Refusal::State),
    ];
    for (text, [places, literals, count], refusal) in cases {
        let (mut arrays, mut codes, mut ends) = (HeapArrays::new(places), vec![9; literals], vec![9; count]);
        let session = Session::read_heap_in(text.as_bytes(), &mut codes, &mut ends, arrays.lend(HeapState::default()));
        assert_eq!(session.unwrap_err(), refusal);
        assert_eq!((arrays, codes, ends), (HeapArrays::new(places), vec![9; literals], vec![9; count]));
    }
    let mut arrays = ListArrays::new(2);
    let session = Session::read_list_in(other_mode.as_bytes(), &mut [], &mut [], arrays.lend(ListState::default()));
    assert_eq!(session.unwrap_err(), Refusal::Length);
    assert_eq!(arrays, ListArrays::new(2));
}

#[test]
fn no_variables_are_read_into_no_arrays() {
    let text = Session::heap(0).unwrap().save().unwrap();
    let mut arrays = HeapArrays::new(0);
    let session = Session::read_heap_in(text.as_bytes(), &mut [], &mut [], arrays.lend(HeapState::default())).unwrap();
    assert_eq!(session.save(), Ok(text));
    let text = Session::list(0).unwrap().save().unwrap();
    let mut arrays = ListArrays::new(0);
    let session = Session::read_list_in(text.as_bytes(), &mut [], &mut [], arrays.lend(ListState::default())).unwrap();
    assert_eq!(session.save(), Ok(text));
}
