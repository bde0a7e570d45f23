//! The calls and the reading of a session in list mode.

use sigvort::{Clauses, Decision, Lit, Mode, Refusal, Session, MAX_GROUP, MAX_VARIABLES, NONE};

const fn pos(var: u32) -> Lit {
    Lit::new(var, true)
}

const fn neg(var: u32) -> Lit {
    Lit::new(var, false)
}

/// A session of `n` variables, made fresh.
fn list(n: u32) -> Session<'static> {
    Session::list(n).unwrap()
}

/// The variables from the front of the list on.
fn order(session: &Session<'_>) -> Vec<u32> {
    let mut vars: Vec<u32> = (0..session.len()).collect();
    vars.sort_by_key(|&var| std::cmp::Reverse(session.stamp(var)));
    vars
}

#[test]
fn a_fresh_session() {
    let session = list(3);
    assert_eq!(session.mode(), Mode::List);
    assert_eq!(session.len(), 3);
    assert_eq!(session.values(), [2, 2, 2]);
    assert_eq!(order(&session), [0, 1, 2]);
    let state = session.list_state().unwrap();
    assert_eq!((state.len, state.level, state.curr_i), (0, 0, 0));
    assert_eq!((state.start, state.search, state.timestamp), (0, 0, 4));
    assert_eq!(session.heap_state(), None);
    assert_eq!(session.activity(0), None);
    assert!(session.is_on(2));
    assert!(!session.is_on(3));
    assert_eq!(session.stamp(3), None);
}

#[test]
fn variables_that_occur_most_come_first() {
    // counts 1, 1, 2
    let (codes, ends) = ([1, 2, 4, 5], [4]);
    let session = Session::list_with(3, Clauses::from_parts(&codes, &ends)).unwrap();
    assert_eq!(order(&session), [2, 1, 0]);
    assert_eq!(session.stamp(2), Some(3));
}

#[test]
fn no_variables() {
    let mut session = list(0);
    let state = session.list_state().unwrap();
    assert_eq!((state.start, state.search, state.timestamp), (NONE, NONE, 1));
    assert_eq!(session.check(), Ok(()));
    assert_eq!(session.decide(false), Ok(Decision::None));
    assert_eq!(session.group(&[]), Ok(()));
    assert_eq!(session.go_back(3), Ok(0));
    assert_eq!(session.enqueue(pos(0), None), Err(Refusal::Variable));
}

#[test]
fn the_most_variables_and_one_more() {
    assert_eq!(list(MAX_VARIABLES).len(), MAX_VARIABLES);
    assert_eq!(Session::list(MAX_VARIABLES + 1).unwrap_err(), Refusal::TooManyVariables);
}

#[test]
fn a_clause_list_that_is_not_good() {
    let clauses = Clauses::from_parts(vec![2], vec![1]);
    assert_eq!(Session::list_with(1, clauses).unwrap_err(), Refusal::Clauses);
}

#[test]
fn deciding_enqueuing_and_reading() {
    let (codes, ends) = ([3, 0], [2]);
    let mut session = Session::list_with(3, Clauses::from_parts(&codes, &ends)).unwrap();
    assert_eq!(session.decide(true), Ok(Decision::Variable(0)));
    session.enqueue(pos(1), Some(0)).unwrap();
    assert_eq!(session.decide(false), Ok(Decision::Variable(2)));
    assert_eq!(session.decide(false), Ok(Decision::None));
    assert_eq!(session.trail(), [pos(0), pos(1), neg(2)]);
    assert_eq!(session.opened(), [0, 2]);
    assert_eq!(session.level_of(2), Some(2));
    assert_eq!(session.reason_of(1), Some(0));
    assert_eq!(session.enqueue(neg(1), None), Err(Refusal::Assigned));
    assert_eq!(session.enqueue(neg(1), Some(1)), Err(Refusal::Reason));
}

#[test]
fn stuck_after_going_back() {
    let mut session = list(2);
    assert_eq!(session.decide(true), Ok(Decision::Variable(0)));
    assert_eq!(session.decide(true), Ok(Decision::Variable(1)));
    assert_eq!(session.go_back(0), Ok(2));
    let before = session.list_state();
    assert_eq!(session.decide(true), Err(Refusal::Stuck));
    assert_eq!(session.list_state(), before);
    session.enqueue(pos(0), None).unwrap();
    session.enqueue(pos(1), None).unwrap();
    assert_eq!(session.decide(true), Ok(Decision::None));
}

#[test]
fn moving_a_group() {
    let mut session = list(3);
    session.group(&[2, 1, 2]).unwrap();
    assert_eq!(order(&session), [1, 2, 0]);
    assert_eq!((0..3).map(|var| session.stamp(var).unwrap()).collect::<Vec<_>>(), [3, 5, 4]);
    let state = session.list_state().unwrap();
    assert_eq!((state.start, state.search, state.timestamp), (1, 0, 6));
}

#[test]
fn refused_groups() {
    let mut session = list(3);
    let longest = vec![2; MAX_GROUP as usize];
    assert_eq!(session.group(&[0, 3]), Err(Refusal::Variable));
    assert_eq!(session.group(&[&longest[..], &[2]].concat()), Err(Refusal::Form));
    assert_eq!(order(&session), [0, 1, 2]);
    assert_eq!(session.group(&longest), Ok(()));
    assert_eq!(order(&session), [2, 0, 1]);
}

#[test]
fn learning_a_unit() {
    let mut session = list(2);
    session.decide(true).unwrap();
    assert_eq!(session.learn_unit(neg(0)), Ok(()));
    assert_eq!(session.trail(), [neg(0)]);
    assert_eq!(session.learn_unit(pos(0)), Err(Refusal::Assigned));
    assert_eq!(session.learn_unit(pos(9)), Err(Refusal::Variable));
}

#[test]
fn calls_that_do_nothing_are_still_checked() {
    let mut session = list(2);
    let before = session.list_state();
    assert_eq!(session.bump(1), Ok(()));
    assert_eq!(session.decay(), Ok(()));
    assert_eq!(session.set_decay(0.5), Ok(()));
    assert_eq!(session.insert(1), Ok(()));
    assert_eq!(session.switch_off(1), Ok(()));
    assert_eq!(session.bump_reason(1), Ok(()));
    assert_eq!(session.bump(2), Err(Refusal::Variable));
    assert_eq!(session.set_decay(2.0), Err(Refusal::Decay));
    assert_eq!(session.insert(2), Err(Refusal::Variable));
    assert_eq!(session.switch_off(2), Err(Refusal::Variable));
    assert_eq!(session.bump_reason(2), Err(Refusal::Variable));
    assert_eq!(session.list_state(), before);
    assert!(session.is_on(1));
}

#[test]
fn another_clause_list_is_lent() {
    let mut session = list(2);
    let learnt = session.clauses_mut().push(&[pos(1)]);
    assert_eq!(session.enqueue(pos(1), Some(learnt)), Ok(()));
    session.lend(Clauses::new());
    assert_eq!(session.decide(true), Err(Refusal::State));
}

#[test]
fn a_session_goes_to_another_thread() {
    let mut session = list(1);
    let decided = std::thread::spawn(move || session.decide(false)).join().unwrap();
    assert_eq!(decided, Ok(Decision::Variable(0)));
}
