use super::*;
use crate::{
    run,
    saved::{carry_on, run_new},
    ANSWER_ROOM,
};
use std::collections::BTreeSet;

/// The statuses that a sheet's answers hold, 1 and 2 for a refused sheet.
fn statuses(sheet: &[u8], room: usize) -> BTreeSet<u32> {
    let mut answers = vec![0; room];
    match run(sheet, &mut answers) {
        refused if refused > u32::MAX - 3 => [u32::MAX - refused].into(),
        len => String::from_utf8(answers[..len as usize].to_vec())
            .expect("answers are text")
            .lines()
            .map(|line| line.split('\t').nth(1).expect("an answer has a status").parse().expect("a status is a number"))
            .collect(),
    }
}

fn is_list(sheet: &[u8]) -> bool {
    sheet.split(|&byte| byte == b'\n').next().is_some_and(|line| line.ends_with(b"\tvmtf"))
}

#[test]
fn named_sheets_reach_each_refusal_in_each_mode() {
    let mut reached = [BTreeSet::new(), BTreeSet::new()];
    for Named { sheet, room, .. } in named() {
        reached[usize::from(is_list(&sheet))].extend(statuses(&sheet, room));
    }
    assert_eq!(reached[0], [0, 1, 2, 3, 4, 6, 8, 9, 10, 11, 12, 13].into());
    assert_eq!(reached[1], [0, 1, 2, 3, 4, 6, 8, 9, 10, 11, 12, 14].into());
}

#[test]
fn random_sheets_reach_each_refusal_of_a_call() {
    let mut reached = [BTreeSet::new(), BTreeSet::new()];
    for seed in 0..2_000 {
        let sheet = sheet(seed);
        reached[usize::from(is_list(&sheet))].extend(statuses(&sheet, ANSWER_ROOM * sheet.len()));
    }
    assert!(reached[0].is_superset(&[0, 3, 6, 8, 9, 10, 11, 12, 13].into()), "{:?}", reached[0]);
    assert!(reached[1].is_superset(&[0, 3, 6, 8, 9, 10, 11, 12, 14].into()), "{:?}", reached[1]);
}

#[test]
fn equal_seeds_give_equal_sheets() {
    assert!((0..50).all(|seed| sheet(seed) == sheet(seed)));
    assert_ne!(sheet(1), sheet(2));
}

#[test]
fn examples_are_read_line_by_line() {
    let document = "text\n```sheet\nn|1|vsids  → 1|0|-\nx\n```\n```\nno\n```\n";
    assert_eq!(examples(document), [(b"n\t1\tvsids\nx\n".to_vec(), b"1\t0\t-\n".to_vec())]);
    let document = "```saved\nt|1\nl\n```\n```carried\ny → 1|0|-\n```\n```sheet\n```\n";
    let (carried, empty) = ((b"y\n".to_vec(), b"1\t0\t-\n".to_vec()), (vec![], vec![]));
    assert_eq!(
        all_examples(document),
        [Example::Saved(b"t\t1\nl\n".to_vec()), Example::Carried(carried.0, carried.1), Example::Sheet(empty.0, empty.1)]
    );
    assert_eq!((examples(document).len(), saved_examples(document)), (1, vec![b"t\t1\nl\n".to_vec()]));
}

#[test]
fn the_documents_examples_answer_as_shown() {
    let document = include_str!("../../../../docs/SHEET.md");
    let examples = examples(document);
    assert!(examples.len() > 10);
    for (sheet, shown) in examples {
        let mut answers = vec![0; ANSWER_ROOM * sheet.len()];
        let len = run(&sheet, &mut answers) as usize;
        assert_eq!(String::from_utf8_lossy(&answers[..len]), String::from_utf8_lossy(&shown));
    }
}

/// A carried sheet goes on with the text that the example before it is or leaves.
#[test]
fn the_documents_carried_sheets_answer_as_shown() {
    let documents = [(include_str!("../../../../docs/SHEET.md"), 3), (include_str!("../../../../docs/SAVED.md"), 1)];
    for (document, due) in documents {
        let (mut text, mut carried) = (Vec::new(), 0);
        for example in all_examples(document) {
            let (ran, shown) = match example {
                Example::Sheet(sheet, shown) => (run_new(&sheet).unwrap(), shown),
                Example::Saved(saved) => ((Vec::new(), saved), Vec::new()),
                Example::Carried(sheet, shown) => {
                    carried += 1;
                    (carry_on(&text, &sheet).unwrap(), shown)
                }
            };
            assert_eq!(String::from_utf8_lossy(&ran.0), String::from_utf8_lossy(&shown));
            text = ran.1;
        }
        assert_eq!(carried, due);
    }
}

/// The sample that the program `replay` is held to: sheets that end in a byte 0, and the answers with an empty line behind each.
#[test]
fn the_replayed_sample_is_the_references_own() {
    let sheets = include_bytes!("../../../../crates/replay/stdin");
    let expected = include_bytes!("../../../../crates/replay/stdout");
    let mut printed = Vec::new();
    for sheet in sheets[..sheets.len() - 1].split(|&byte| byte == 0) {
        let mut answers = vec![0; 65_536];
        let len = run(sheet, &mut answers) as usize;
        printed.extend_from_slice(&answers[..len]);
        printed.push(b'\n');
    }
    assert_eq!(sheets.last(), Some(&0));
    assert_eq!(printed, expected);
}
