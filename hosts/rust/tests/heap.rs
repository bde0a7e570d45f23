//! The calls and the reading of a session in heap mode.

use sigvort::{Clauses, Decision, Lit, Mode, Refusal, Session, MAX_CLAUSES, MAX_GROUP, MAX_LITERALS, MAX_VARIABLES};

const fn pos(var: u32) -> Lit {
    Lit::new(var, true)
}

const fn neg(var: u32) -> Lit {
    Lit::new(var, false)
}

/// A session of `n` variables, made fresh.
fn heap(n: u32) -> Session<'static> {
    Session::heap(n).unwrap()
}

/// Clauses, each of these literals.
fn clauses(of: &[&[Lit]]) -> Clauses<'static> {
    let mut clauses = Clauses::new();
    for clause in of {
        clauses.push(clause);
    }
    clauses
}

#[test]
fn a_fresh_session() {
    let session = heap(3);
    assert_eq!(session.mode(), Mode::Heap);
    assert_eq!(session.len(), 3);
    assert!(!session.is_empty());
    assert_eq!(session.level(), 0);
    assert_eq!(session.trail(), []);
    assert_eq!(session.opened(), []);
    assert_eq!(session.values(), [2, 2, 2]);
    assert!(session.clauses().is_empty());
    for var in 0..3 {
        assert_eq!(session.value(var), None);
        assert_eq!(session.level_of(var), None);
        assert_eq!(session.reason_of(var), None);
        assert_eq!(session.activity(var), Some(0.0));
        assert_eq!(session.stamp(var), None);
        assert!(session.is_on(var));
    }
    let state = session.heap_state().unwrap();
    assert_eq!((state.len, state.level, state.curr_i, state.members), (0, 0, 0, 3));
    assert_eq!((state.inc, state.decay), (1.0, 0.95));
    assert_eq!(session.list_state(), None);
}

#[test]
fn a_variable_that_does_not_exist_has_nothing() {
    let session = heap(2);
    for var in [2, u32::MAX] {
        assert_eq!(session.value(var), None);
        assert_eq!(session.level_of(var), None);
        assert_eq!(session.reason_of(var), None);
        assert_eq!(session.activity(var), None);
        assert!(!session.is_on(var));
    }
}

#[test]
fn no_variables() {
    let mut session = heap(0);
    assert!(session.is_empty());
    assert_eq!(session.check(), Ok(()));
    assert_eq!(session.decide(true), Ok(Decision::None));
    assert_eq!(session.go_back(0), Ok(0));
    assert_eq!(session.decay(), Ok(()));
    assert_eq!(session.group(&[]), Ok(()));
    assert_eq!(session.bump(0), Err(Refusal::Variable));
    assert_eq!(session.values(), []);
    assert_eq!(session.trail(), []);
}

#[test]
fn the_most_variables_and_one_more() {
    assert_eq!(heap(MAX_VARIABLES).len(), MAX_VARIABLES);
    for n in [MAX_VARIABLES + 1, u32::MAX] {
        assert_eq!(Session::heap(n).unwrap_err(), Refusal::TooManyVariables);
    }
}

#[test]
fn the_worked_sheet() {
    let mut session = Session::heap_with(3, clauses(&[&[pos(0), pos(1)]])).unwrap();
    session.bump(2).unwrap();
    assert_eq!(session.decide(true), Ok(Decision::Variable(2)));
    assert_eq!(session.decide(false), Ok(Decision::Variable(0)));
    assert_eq!(session.go_back(1), Ok(1));
    assert_eq!(session.decide(false), Ok(Decision::Variable(1)));
    assert_eq!(session.go_back(0), Ok(2));
}

#[test]
fn what_is_assigned_can_be_read() {
    let mut session = Session::heap_with(4, clauses(&[&[pos(3)], &[pos(1), neg(0)]])).unwrap();
    session.enqueue(pos(3), Some(0)).unwrap();
    assert_eq!(session.decide(true), Ok(Decision::Variable(0)));
    session.enqueue(pos(1), Some(1)).unwrap();
    assert_eq!(session.decide(false), Ok(Decision::Variable(2)));
    assert_eq!(session.trail(), [pos(3), pos(0), pos(1), neg(2)]);
    assert_eq!(session.opened(), [1, 3]);
    assert_eq!(session.level(), 2);
    assert_eq!(session.values(), [1, 1, 0, 1]);
    assert_eq!((0..4).map(|var| session.value(var)).collect::<Vec<_>>(), [Some(true), Some(true), Some(false), Some(true)]);
    assert_eq!((0..4).map(|var| session.level_of(var)).collect::<Vec<_>>(), [Some(1), Some(1), Some(2), Some(0)]);
    assert_eq!((0..4).map(|var| session.reason_of(var)).collect::<Vec<_>>(), [None, Some(1), None, Some(0)]);
    assert_eq!(session.decide(true), Ok(Decision::None));

    assert_eq!(session.go_back(1), Ok(1));
    assert_eq!(session.level_of(2), None);
    assert_eq!(session.go_back(0), Ok(2));
    assert_eq!(session.reason_of(1), None);
    assert_eq!(session.trail(), [pos(3)]);
    assert_eq!(session.curr_i(), 1);
}

#[test]
fn the_place_of_propagation_is_the_solvers_up_to_the_trails_end() {
    let mut session = heap(3);
    session.decide(true).unwrap();
    session.enqueue(pos(1), None).unwrap();
    session.set_curr_i(2).unwrap();
    assert_eq!(session.set_curr_i(3), Err(Refusal::State));
    session.enqueue(pos(2), None).unwrap();
    assert_eq!(session.heap_state().unwrap().curr_i, 2);
    session.learn_unit(neg(1)).unwrap();
    assert_eq!((session.curr_i(), session.trail()), (0, &[neg(1)][..]));
}

#[test]
fn going_back_to_a_level_not_below_undoes_nothing() {
    let mut session = heap(2);
    session.decide(true).unwrap();
    assert_eq!(session.go_back(1), Ok(0));
    assert_eq!(session.go_back(u32::MAX), Ok(0));
    assert_eq!(session.level(), 1);
}

#[test]
fn bumping_and_decaying() {
    let mut session = heap(3);
    session.bump(1).unwrap();
    session.set_decay(0.5).unwrap();
    session.decay().unwrap();
    session.bump(2).unwrap();
    assert_eq!(session.activity(1), Some(1.0));
    assert_eq!(session.activity(2), Some(2.0));
    assert_eq!(session.heap_state().map(|state| (state.inc, state.decay)), Some((2.0, 0.5)));
    assert_eq!(session.decide(true), Ok(Decision::Variable(2)));
    assert_eq!(session.decide(true), Ok(Decision::Variable(1)));
}

#[test]
fn refused_decays() {
    let mut session = heap(1);
    for decay in [f64::NAN, 0.49, 1.01, -1.0, f64::INFINITY] {
        assert_eq!(session.set_decay(decay), Err(Refusal::Decay));
    }
    for decay in [0.5, 1.0, 0.75] {
        assert_eq!(session.set_decay(decay), Ok(()));
        assert_eq!(session.heap_state().unwrap().decay, decay);
    }
}

#[test]
fn a_step_that_would_be_too_large() {
    let mut session = heap(1);
    session.set_decay(0.5).unwrap();
    for _ in 0..664 {
        session.decay().unwrap();
    }
    let before = session.heap_state();
    assert_eq!(session.decay(), Err(Refusal::Step));
    assert_eq!(session.heap_state(), before);
    session.bump(0).unwrap();
    assert_eq!(session.decay(), Ok(()));
}

#[test]
fn switching_off_and_inserting() {
    let mut session = heap(2);
    session.switch_off(0).unwrap();
    assert!(!session.is_on(0));
    assert!(session.is_on(1));
    session.insert(0).unwrap();
    session.insert(1).unwrap();
    assert_eq!(session.decide(true), Ok(Decision::Variable(1)));
    assert_eq!(session.decide(true), Ok(Decision::None));
    assert_eq!(session.heap_state().unwrap().members, 0);
    session.insert(1).unwrap();
    assert_eq!(session.heap_state().unwrap().members, 1);
}

#[test]
fn bumping_a_reason() {
    let mut session = Session::heap_with(4, clauses(&[&[pos(0), neg(2), neg(3), neg(3)]])).unwrap();
    session.enqueue(pos(0), Some(0)).unwrap();
    session.enqueue(pos(1), None).unwrap();
    session.bump_reason(0).unwrap();
    session.bump_reason(1).unwrap();
    assert_eq!((0..4).map(|var| session.activity(var).unwrap()).collect::<Vec<_>>(), [0.0, 0.0, 1.0, 2.0]);
}

#[test]
fn learning_a_unit() {
    let mut session = heap(2);
    assert_eq!(session.decide(true), Ok(Decision::Variable(0)));
    session.learn_unit(neg(0)).unwrap();
    assert_eq!(session.level(), 0);
    assert_eq!(session.trail(), [neg(0)]);
    assert_eq!(session.level_of(0), Some(0));
    assert_eq!(session.learn_unit(pos(0)), Err(Refusal::Assigned));
    assert_eq!(session.learn_unit(pos(2)), Err(Refusal::Variable));
}

#[test]
fn refused_variables() {
    let mut session = heap(2);
    assert_eq!(session.bump(2), Err(Refusal::Variable));
    assert_eq!(session.insert(2), Err(Refusal::Variable));
    assert_eq!(session.switch_off(2), Err(Refusal::Variable));
    assert_eq!(session.bump_reason(u32::MAX), Err(Refusal::Variable));
    assert_eq!(session.enqueue(pos(2), Some(7)), Err(Refusal::Variable));
    assert_eq!(session.group(&[0, 1, 2]), Err(Refusal::Variable));
}

#[test]
fn refused_enqueues() {
    let mut session = Session::heap_with(2, clauses(&[&[pos(0)]])).unwrap();
    assert_eq!(session.enqueue(pos(0), Some(1)), Err(Refusal::Reason));
    assert_eq!(session.enqueue(pos(0), Some(u32::MAX)), Err(Refusal::Reason));
    assert_eq!(session.enqueue(pos(0), Some(0)), Ok(()));
    assert_eq!(session.enqueue(neg(0), Some(1)), Err(Refusal::Reason));
    assert_eq!(session.enqueue(neg(0), None), Err(Refusal::Assigned));
    assert_eq!(session.trail(), [pos(0)]);
}

#[test]
fn a_group_does_nothing() {
    let mut session = heap(3);
    let longest = vec![1; MAX_GROUP as usize];
    assert_eq!(session.group(&[]), Ok(()));
    assert_eq!(session.group(&[2, 1, 1]), Ok(()));
    assert_eq!(session.group(&longest), Ok(()));
    assert_eq!(session.group(&[&longest[..], &[1]].concat()), Err(Refusal::Form));
    assert_eq!(session.decide(true), Ok(Decision::Variable(0)));
}

#[test]
fn clause_lists_at_their_limits() {
    let count = MAX_CLAUSES as usize;
    let empty = Clauses::from_parts(vec![], vec![0; count]);
    let long = Clauses::from_parts(vec![1; MAX_LITERALS as usize], vec![MAX_LITERALS]);
    assert!(Session::heap_with(1, empty).is_ok());
    assert!(Session::heap_with(1, long).is_ok());
    let bad: [(Vec<u32>, Vec<u32>); 5] = [
        (vec![], vec![0; count + 1]),
        (vec![1; MAX_LITERALS as usize + 1], vec![MAX_LITERALS + 1]),
        (vec![1, 1], vec![2, 1, 2]),
        (vec![1], vec![]),
        (vec![2], vec![1]),
    ];
    for (codes, ends) in bad {
        assert_eq!(Session::heap_with(1, Clauses::from_parts(codes, ends)).unwrap_err(), Refusal::Clauses);
    }
}

#[test]
fn another_clause_list_is_lent() {
    let mut session = heap(3);
    assert_eq!(session.enqueue(pos(0), Some(0)), Err(Refusal::Reason));
    let learnt = session.clauses_mut().push(&[pos(0), neg(1)]);
    assert_eq!(session.enqueue(pos(0), Some(learnt)), Ok(()));

    // a list without the clause of a reason, and one that is not good
    let former = session.lend(Clauses::new());
    assert_eq!(former.len(), 1);
    assert_eq!(session.check(), Err(Refusal::State));
    let (codes, ends) = ([6], [1]);
    session.lend(Clauses::from_parts(&codes, &ends));
    assert_eq!(session.decide(true), Err(Refusal::Clauses));
    session.lend(former);
    assert_eq!(session.decide(true), Ok(Decision::Variable(2)));
}

#[test]
fn a_session_goes_to_another_thread() {
    fn is_send<T: Send>(_: &T) {}
    let mut session = heap(1);
    is_send(&session);
    let decided = std::thread::spawn(move || session.decide(true)).join().unwrap();
    assert_eq!(decided, Ok(Decision::Variable(0)));
}

#[test]
fn debug_says_what_stands() {
    let mut session = heap(2);
    session.enqueue(neg(1), None).unwrap();
    assert_eq!(format!("{session:?}"), "Session { mode: Heap, variables: 2, clauses: 0, level: 0, trail: [-1], .. }");
}
