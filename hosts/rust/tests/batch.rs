//! Lists of calls.

use sigvort::{Batch, Clauses, Lit, Refusal, Session, MAX_GROUP};

const fn pos(var: u32) -> Lit {
    Lit::new(var, true)
}

/// Both modes, of `n` variables with the clause 0 ∨ 1.
fn both(n: u32) -> [Session<'static>; 2] {
    let mut clauses = Clauses::new();
    clauses.push(&[pos(0), pos(1)]);
    [Session::heap_with(n, clauses.clone()).unwrap(), Session::list_with(n, clauses).unwrap()]
}

#[test]
fn an_empty_list_is_done() {
    for mut session in both(2).into_iter().chain([Session::heap(0).unwrap(), Session::list(0).unwrap()]) {
        let mut batch = Batch::new();
        assert!(batch.is_empty());
        assert_eq!(batch.len(), 0);
        assert_eq!(session.batch(&mut batch), Ok(()));
        assert_eq!(batch.answers().len(), 0);
    }
}

#[test]
fn each_call_has_its_place_and_its_answer() {
    let mut session = both(4).into_iter().next().unwrap();
    let mut batch = Batch::new();
    let places = [
        batch.bump(3),
        batch.decay(),
        batch.set_decay(0.5),
        batch.insert(0),
        batch.switch_off(1),
        batch.decide(true),
        batch.enqueue(pos(0), Some(0)),
        batch.bump_reason(0),
        batch.group(&[1, 2]),
        batch.decide(false),
        batch.decide(true),
        batch.go_back(1),
        batch.learn_unit(pos(2)),
    ];
    assert_eq!(places, std::array::from_fn(|place| place));
    assert_eq!(batch.len(), places.len());
    session.batch(&mut batch).unwrap();
    let replies: Vec<_> = batch.answers().map(Result::unwrap).collect();
    let done = None;
    let decided = [Some(3), Some(2), None];
    let undone = Some(1);
    assert_eq!(replies, [done, done, done, done, done, decided[0], done, done, done, decided[1], decided[2], undone, done]);
    for (place, reply) in replies.into_iter().enumerate() {
        assert_eq!(batch.answer(place), Ok(reply));
    }
    assert_eq!(session.trail(), [pos(2)]);
    assert!(!session.is_on(1));
    assert_eq!(session.heap_state().unwrap().decay, 0.5);
}

#[test]
fn groups_of_one_list_lie_apart() {
    let [_, mut session] = both(4);
    let mut batch = Batch::new();
    batch.group(&[3]);
    batch.group(&[]);
    batch.group(&[2, 9]);
    batch.group(&[2, 0]);
    session.batch(&mut batch).unwrap();
    assert_eq!(batch.answers().collect::<Vec<_>>(), [Ok(None), Ok(None), Err(Refusal::Variable), Ok(None)]);
    assert_eq!(session.list_state().unwrap().start, 0);
    assert!(session.stamp(0) > session.stamp(2) && session.stamp(2) > session.stamp(3) && session.stamp(3) > session.stamp(1));
}

#[test]
fn refused_and_malformed_calls_leave_the_others_alone() {
    for mut session in both(3) {
        let mut batch = Batch::new();
        batch.bump(3);
        batch.group(&vec![0; MAX_GROUP as usize + 1]);
        batch.enqueue(pos(1), Some(1));
        batch.enqueue(pos(1), Some(u32::MAX));
        batch.enqueue(pos(1), Some(0));
        batch.enqueue(pos(1), None);
        batch.set_decay(f64::NAN);
        batch.learn_unit(pos(1));
        let back = batch.go_back(0);
        session.batch(&mut batch).unwrap();
        let refused = [Refusal::Variable, Refusal::Form, Refusal::Reason, Refusal::Reason];
        assert!(batch.answers().take(4).eq(refused.map(Err)));
        assert_eq!(batch.answer(4), Ok(None));
        assert!(batch.answers().skip(5).take(3).eq([Refusal::Assigned, Refusal::Decay, Refusal::Assigned].map(Err)));
        assert_eq!(batch.answer(back), Ok(Some(0)));
        assert_eq!(batch.answers().next_back(), Some(Ok(Some(0))));
        assert_eq!(session.trail(), [pos(1)]);
    }
}

#[test]
fn a_list_is_its_calls_one_by_one() {
    for (mut listed, mut single) in both(5).into_iter().zip(both(5)) {
        let mut batch = Batch::new();
        for round in 0..5 {
            batch.clear();
            batch.bump(round);
            batch.decay();
            batch.group(&[round, 4]);
            batch.decide(round % 2 == 0);
            batch.enqueue(pos(round), None);
            batch.go_back(round / 2);
            listed.batch(&mut batch).unwrap();
            let alone = [
                single.bump(round).map(|()| None),
                single.decay().map(|()| None),
                single.group(&[round, 4]).map(|()| None),
                single.decide(round % 2 == 0).map(|decision| match decision {
                    sigvort::Decision::Variable(var) => Some(var),
                    sigvort::Decision::None => None,
                }),
                single.enqueue(pos(round), None).map(|()| None),
                single.go_back(round / 2).map(Some),
            ];
            assert!(batch.answers().eq(alone));
            assert_eq!(listed.trail(), single.trail());
            assert_eq!(listed.heap_state(), single.heap_state());
            assert_eq!(listed.list_state(), single.list_state());
        }
    }
}

#[test]
fn a_list_that_is_refused_has_no_answers() {
    for mut session in both(2) {
        let mut batch = Batch::new();
        batch.enqueue(pos(0), Some(0));
        session.batch(&mut batch).unwrap();
        assert_eq!(batch.answers().len(), 1);

        let former = session.lend(Clauses::new());
        batch.decide(true);
        assert_eq!(session.batch(&mut batch), Err(Refusal::State));
        assert_eq!(batch.answers().len(), 0);
        assert_eq!(batch.len(), 2);
        assert_eq!(session.trail(), [pos(0)]);

        // the calls are still there
        session.lend(former);
        session.batch(&mut batch).unwrap();
        assert_eq!(batch.answers().collect::<Vec<_>>(), [Err(Refusal::Assigned), Ok(Some(1))]);
    }
}

#[test]
fn a_batch_is_used_again() {
    let mut session = Session::heap(2).unwrap();
    let mut batch = Batch::new();
    batch.group(&[0, 1]);
    batch.decide(true);
    session.batch(&mut batch).unwrap();
    batch.clear();
    assert!(batch.is_empty());
    assert_eq!(batch.answers().len(), 0);
    assert_eq!(batch.go_back(0), 0);
    session.batch(&mut batch).unwrap();
    assert_eq!(batch.answer(0), Ok(Some(1)));
}

#[test]
#[should_panic(expected = "the list has no answer at place 0")]
fn a_call_that_was_not_handed_over_has_no_answer() {
    let mut batch = Batch::new();
    let place = batch.decide(true);
    let _ = batch.answer(place);
}

#[test]
#[should_panic(expected = "the list has no answer at place 7")]
fn a_place_that_the_list_has_not_has_no_answer() {
    let mut batch = Batch::new();
    batch.decide(true);
    Session::heap(1).unwrap().batch(&mut batch).unwrap();
    let _ = batch.answer(7);
}
