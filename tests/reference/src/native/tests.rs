use super::*;

const FORMULA: [u32; 4] = [1, 2, 4, 5];

fn memory<M: Memory>(n: u32, clauses: &Clauses) -> M {
    M::of(&Session::new(clauses.formula(n as usize).unwrap()))
}

#[test]
fn a_fresh_heap_has_all_variables() {
    let fresh: HeapMemory = memory(2, &Clauses::default());
    assert_eq!((fresh.heap, fresh.indices, fresh.decision, fresh.members), (vec![0, 1], vec![0, 1], vec![1, 1], 2));
    assert_eq!((fresh.activity, fresh.inc, fresh.decay), (vec![0.0; 2], 1.0, 0.95));
    let TrailMemory { values, levels, reasons, trail, opened, len, level, curr_i } = fresh.trail;
    assert_eq!((values, levels, reasons, trail, opened), (vec![2; 2], vec![NONE; 2], vec![NONE; 2], vec![NONE; 2], vec![NONE; 2]));
    assert_eq!((len, level, curr_i), (0, 0, 0));
}

#[test]
fn a_fresh_list_goes_by_counts() {
    let fresh: ListMemory = memory(3, &Clauses::new(FORMULA.into(), vec![4]));
    assert_eq!((fresh.next, fresh.prev, fresh.ts), (vec![NONE, 0, 1], vec![1, 2, NONE], vec![1, 2, 3]));
    assert_eq!((fresh.start, fresh.search, fresh.timestamp), (2, 2, 4));
}

#[test]
fn fresh_memory_is_good_and_holds_its_session() {
    for n in [0, 1, 7] {
        let heap: HeapMemory = memory(n, &Clauses::default());
        let list: ListMemory = memory(n, &Clauses::default());
        let lent = Lent { n: n as usize, clauses: 0 };
        assert_eq!((heap.broken(lent), list.broken(lent)), (vec![], vec![]));
        assert_eq!(HeapMemory::of(&heap.session(Formula::new(n as usize))), heap);
        assert_eq!(ListMemory::of(&list.session(Formula::new(n as usize))), list);
    }
}

#[test]
fn the_worked_sheet_as_a_list() {
    let clauses = Clauses::new(vec![1, 3], vec![2]);
    let mut heap: HeapMemory = memory(3, &clauses);
    let calls_of = [('b', 2), ('g', 1), ('g', 0), ('k', 1), ('g', 0), ('k', 0)];
    let words: Vec<u32> = calls_of.iter().flat_map(|&(letter, argument)| [letter as u32, argument, 0]).collect();
    let mut answers = vec![7; 12];
    assert_eq!(calls(3, &clauses, &mut heap, &[], &words, &mut answers), Ok(()));
    assert_eq!(answers, [0, NONE, 0, 2, 0, 0, 0, 1, 0, 1, 0, 2]);
    assert_eq!((heap.trail.values, heap.trail.levels, heap.trail.curr_i), (vec![2; 3], vec![2, 2, 1], 0));
}

#[test]
fn words_without_form_get_3_and_the_others_go_on() {
    let mut heap: HeapMemory = memory(1, &Clauses::default());
    let words = [98, 0, 1, 121, 1, 0, 0, 0, 0, 102, 1, 1, 102, 2, 0, 102, 1, 0, 98 + 256, 0, 0, 103, 1, 0];
    let mut answers = [9; 16];
    assert_eq!(calls(1, &Clauses::default(), &mut heap, &[0], &words, &mut answers), Ok(()));
    assert_eq!(answers, [3, NONE, 3, NONE, 3, NONE, 3, NONE, 3, NONE, 0, NONE, 3, NONE, 0, 0]);
}

#[test]
fn a_list_is_refused_in_order_and_changes_nothing() {
    let clauses = Clauses::new(vec![2], vec![1]);
    let mut heap: HeapMemory = memory(1, &Clauses::default());
    heap.inc = -1.0;
    let before = heap.clone();
    let mut answers = [9; 2];
    assert_eq!(calls(2049, &clauses, &mut heap, &[], &[121, 0], &mut answers), Err(Refusal::TooManyVariables));
    assert_eq!(calls(1, &clauses, &mut heap, &[], &[121, 0], &mut answers), Err(Refusal::Length));
    assert_eq!(calls(1, &clauses, &mut heap, &[], &[121, 0, 0], &mut answers), Err(Refusal::ClauseList));
    assert_eq!(calls(1, &Clauses::default(), &mut heap, &[], &[121, 0, 0], &mut answers), Err(Refusal::State));
    assert_eq!((heap, answers), (before, [9; 2]));
}

#[test]
fn a_stamp_at_the_end_is_followed_by_new_ones() {
    let mut list: ListMemory = memory(2, &Clauses::default());
    list.timestamp = u64::MAX;
    assert_eq!(calls(2, &Clauses::default(), &mut list, &[1], &[102, 0, 1], &mut [0; 2]), Ok(()));
    assert_eq!((list.order(), list.ts, list.timestamp), (vec![1, 0], vec![1, 2], 3));
}
