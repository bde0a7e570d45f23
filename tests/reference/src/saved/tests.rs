use super::*;
use crate::{
    generator::{named, saved_examples, sheet},
    native::{HeapMemory, ListMemory, Memory},
};

/// A text or a sheet, written with | for a tab and a space for a newline.
fn bytes(text: &str) -> Vec<u8> {
    text.split_whitespace().flat_map(|line| line.replace('|', "\t").into_bytes().into_iter().chain([b'\n'])).collect()
}

const HEAP: &str = "n|2|vsids c|1|3 t|1 l|1 r|- q|0 h|1 a|0000000000000000|0000000000000000 o|1|1 w|3ff0000000000000|3fee666666666666";
const LIST: &str = "n|2|vmtf t l r q|0 v|0|1 s|2|1 k|3 f|0";

const NONE: u32 = u32::MAX;

/// A heap session of three variables, all of them on the trail at levels 0, 1 and 1, with two members.
const FULL_HEAP: &str = "n|3|vsids c|1|3 c t|1|2|5 l|0|1|1 r|0|-|1 q|3 h|2|0 \
    a|4008000000000000|0000000000000000|4008000000000000 o|1|0|1 w|3ff0000000000000|3ff0000000000000";
const FULL_LIST: &str = "n|3|vmtf c|1|3 c t|1|2|5 l|1|1|2 r|-|0|1 q|1 v|2|0|1 s|9|5|0 k|18446744073709551615 f|-";

/// The text with some of it written otherwise.
fn with(text: &str, old: &str, new: &str) -> Vec<u8> {
    assert_eq!(text.matches(old).count(), 1, "{old} stands once in {text}");
    bytes(&text.replacen(old, new, 1))
}

fn refusal(text: &[u8]) -> Option<Refusal> {
    read_either(text).err()
}

#[track_caller]
fn check_refused(expected: Refusal, text: &str, edits: &[(&str, &str)]) {
    for (old, new) in edits {
        assert_eq!(refusal(&with(text, old, new)), Some(expected), "{old} as {new}");
    }
}

#[track_caller]
fn check_read_and_written_back(text: &[u8]) {
    let live = read_either(text).unwrap();
    assert_eq!(String::from_utf8_lossy(&text_of(&live)), String::from_utf8_lossy(text));
    let counts = counts(text).unwrap();
    assert!(text.len() <= bound(counts.n as usize, counts.clauses, counts.literals));
}

/// The calls that lead to the session of a text.
#[track_caller]
fn check_text(sheet: &str, text: &str) {
    let (_, written) = run_new(&bytes(sheet)).unwrap();
    assert_eq!(String::from_utf8_lossy(&written), String::from_utf8_lossy(&bytes(text)));
}

#[test]
fn the_examples_are_written_and_read_back() {
    check_text("n|2|vsids c|1|3 g|1", HEAP);
    check_text("n|2|vmtf f|1", "n|2|vmtf t l r q|0 v|1|0 s|3|2 k|4 f|0");
    check_text("n|2|vmtf c|2", "n|2|vmtf c|2 t l r q|0 v|1|0 s|2|1 k|3 f|1");
    for text in [HEAP, LIST, FULL_HEAP, FULL_LIST] {
        check_read_and_written_back(&bytes(text));
    }
}

#[test]
fn the_documents_texts_are_read_and_written_back() {
    let texts = saved_examples(include_str!("../../../../docs/SAVED.md"));
    let [heap, full_heap, full_list, list] = &texts[..] else { panic!("four texts") };
    assert_eq!((heap, list), (&bytes(HEAP), &bytes(LIST)));
    texts.iter().for_each(|text| check_read_and_written_back(text));
    let heap = HeapMemory::of(&read(full_heap).unwrap());
    assert_eq!((heap.trail.values, heap.trail.levels, heap.trail.reasons), (vec![0, 2, 1], vec![1, NONE, 0], vec![NONE, NONE, 1]));
    assert_eq!((heap.trail.trail, heap.trail.opened, heap.trail.curr_i), (vec![5, 0, NONE], vec![1, NONE, NONE], 1));
    assert_eq!((heap.heap, heap.indices, heap.decision), (vec![2, 1, NONE], vec![NONE, 1, 0], vec![0, 1, 1]));
    assert_eq!((heap.activity, heap.inc, heap.decay), (vec![1.0, 2.0, 3.0], 2.0, 0.75));
    let list = ListMemory::of(&read(full_list).unwrap());
    assert_eq!((list.trail.values, list.trail.levels, list.trail.reasons), (vec![0, 1, 2], vec![1, 1, NONE], vec![0, NONE, NONE]));
    assert_eq!((list.next, list.prev, list.ts), (vec![1, NONE, 0], vec![2, 0, NONE], vec![5, 2, 9]));
    assert_eq!((list.start, list.search, list.timestamp), (2, 2, 10));
}

#[test]
fn sheets_texts_are_read_and_written_back() {
    let named = named().into_iter().map(|case| case.sheet);
    let texts: Vec<_> = named.chain((0..3_000).map(sheet)).filter_map(|sheet| run_new(&sheet).ok()).map(|(_, text)| text).collect();
    assert!(texts.iter().filter(|text| !text.is_empty()).count() > 2_500);
    texts.iter().filter(|text| !text.is_empty()).for_each(|text| check_read_and_written_back(text));
}

#[test]
fn levels_off_the_trail_are_read_as_none() {
    let Ok(Live::Heap(session)) = read_either(&run_new(&bytes("n|2|vsids g|1 k|0 g|1")).unwrap().1) else { panic!("a heap session") };
    assert_eq!(session.trail.lit_to_level, [u32::MAX, 1]);
    let Ok(Live::List(session)) = read_either(&run_new(&bytes("n|1|vmtf g|1 k|0")).unwrap().1) else { panic!("a list session") };
    assert_eq!(session.trail.lit_to_level, [u32::MAX]);
}

#[test]
fn what_is_not_written_follows() {
    let heap = HeapMemory::of(&read(&bytes(FULL_HEAP)).unwrap());
    assert_eq!((heap.trail.values, heap.trail.levels, heap.trail.reasons), (vec![1, 0, 1], vec![0, 1, 1], vec![0, u32::MAX, 1]));
    assert_eq!((heap.trail.opened, heap.trail.level, heap.trail.curr_i), (vec![1, u32::MAX, u32::MAX], 1, 3));
    assert_eq!((heap.heap, heap.indices, heap.members), (vec![2, 0, u32::MAX], vec![1, u32::MAX, 0], 2));
    let list = ListMemory::of(&read(&bytes(FULL_LIST)).unwrap());
    assert_eq!((list.trail.opened, list.trail.level), (vec![0, 2, u32::MAX], 2));
    assert_eq!((list.next, list.prev, list.ts), (vec![1, u32::MAX, 0], vec![2, 0, u32::MAX], vec![5, 0, 9]));
    assert_eq!((list.start, list.search, list.timestamp), (2, u32::MAX, u64::MAX));
}

#[test]
fn each_line_has_its_place_and_form() {
    check_refused(
        Refusal::Saved,
        FULL_HEAP,
        &[
            ("n|3|vsids", "n|03|vsids"),
            ("n|3|vsids", "n|3|vsid"),
            ("n|3|vsids", "n|3|vsidss"),
            ("n|3|vsids", "n|3"),
            ("n|3|vsids", "n|4294967296|vsids"),
            ("n|3|vsids", "n|4|vsids"),
            ("n|3|vsids", "n|3|vmtf"),
            ("c|1|3", "c|1||3"),
            ("c|1|3", "c|1|3|"),
            ("c|1|3", "c1|3"),
            ("t|1|2|5", "t|1|2"),
            ("l|0|1|1", "l|0|1"),
            ("r|0|-|1", "r|0|-"),
            ("r|0|-|1", "r|0|4294967295|1"),
            ("r|0|-|1", "r|0|--|1"),
            ("q|3", "q"),
            ("q|3", "q|3|3"),
            ("q|3", "q|00"),
            ("q|3 ", ""),
            ("q|3 ", "q|3 q|3 "),
            ("h|2|0 ", ""),
            ("o|1|0|1", "o|1|0|2"),
            ("o|1|0|1", "o|1|0"),
            ("w|3ff0000000000000|", "w|3ff000000000000|"),
            ("w|3ff0000000000000|", "w|3FF0000000000000|"),
            ("w|3ff0000000000000|", "w|3ff0000000000000|3ff0000000000000|"),
            ("o|1|0|1 w|", "w|"),
        ],
    );
    check_refused(
        Refusal::Saved,
        FULL_LIST,
        &[
            ("v|2|0|1", "v|2|0"),
            ("s|9|5|0", "s|9|5|0|0"),
            ("s|9|5|0", "s|9|5|18446744073709551616"),
            ("k|18446744073709551615", "k|18446744073709551616"),
            ("k|18446744073709551615", "k|-"),
            ("f|-", "f|4294967295"),
            ("f|-", "f"),
            ("f|-", "f|- f|-"),
        ],
    );
}

#[test]
fn nothing_may_be_missing_or_stand_behind() {
    for text in [bytes(HEAP), bytes(LIST)] {
        for len in 0..text.len() {
            assert_eq!(refusal(&text[..len]), Some(Refusal::Saved));
        }
        for byte in [b'\n', b'\t', b'0', 0] {
            assert_eq!(refusal(&[&text[..], &[byte]].concat()), Some(Refusal::Saved));
        }
    }
}

#[test]
fn a_reader_takes_its_own_mode() {
    assert_eq!(read::<VSIDS>(&bytes(LIST)).err(), Some(Refusal::Saved));
    assert_eq!(read::<VMTF>(&bytes(HEAP)).err(), Some(Refusal::Saved));
}

/// A fresh heap session of any size, with clauses.
fn fresh(n: usize, clauses: &str) -> String {
    let field = |text: &str| text.repeat(n);
    format!("n|{n}|vsids {clauses} t l r q|0 h a{} o{} w|3ff0000000000000|3ff0000000000000", field("|0000000000000000"), field("|0"))
}

#[test]
fn there_are_no_more_than_2048_variables() {
    assert_eq!(refusal(&bytes(&fresh(2048, ""))), None);
    for n in [2049, 4096] {
        assert_eq!(refusal(&bytes(&fresh(n, "c|9999"))), Some(Refusal::TooManyVariables));
        assert_eq!(counts(&bytes(&fresh(n, "c|9999"))), Ok(Counts { mode: Mode::Vsids, n: n as u32, clauses: 1, literals: 1 }));
    }
    assert_eq!(counts(&bytes("n|4294967295|vmtf t l r q|0 v s k|0 f|-")), Err(Refusal::Saved));
}

#[test]
fn clauses_have_their_limits() {
    let empty = |clauses: usize| fresh(1, &"c ".repeat(clauses));
    let long = |literals: usize| fresh(1, &format!("c c{}", "|1".repeat(literals)));
    assert_eq!((refusal(&bytes(&empty(2048))), refusal(&bytes(&empty(2049)))), (None, Some(Refusal::ClauseList)));
    assert_eq!((refusal(&bytes(&long(8192))), refusal(&bytes(&long(8193)))), (None, Some(Refusal::ClauseList)));
    assert_eq!((refusal(&bytes(&fresh(1, "c|1"))), refusal(&bytes(&fresh(1, "c|2")))), (None, Some(Refusal::ClauseList)));
    assert_eq!(counts(&bytes(&empty(2049))).map(|counts| counts.clauses), Ok(2049));
}

#[test]
fn the_first_refusal_that_fits_is_given() {
    check_refused(Refusal::Saved, &fresh(2049, "c|9999"), &[("q|0", "q|")]);
    check_refused(Refusal::ClauseList, &fresh(1, "c|2"), &[("q|0", "q|7")]);
    check_refused(Refusal::TooManyVariables, &fresh(2049, "c|9999"), &[("q|0", "q|7")]);
}

#[test]
fn a_state_is_good() {
    let trail = [
        ("t|1|2|5", "t|1|2|6"),
        ("t|1|2|5", "t|1|2|4294967295"),
        ("t|1|2|5", "t|1|2|0"),
        ("q|", "q|4"),
        ("r|", "r|2|"),
        ("r|", "r|4294967294|"),
    ];
    for (text, first) in [(FULL_HEAP, "r|0|"), (FULL_LIST, "r|-|")] {
        for (old, new) in trail {
            let old = if old == "r|" { first } else { old };
            check_refused(Refusal::State, text, &[(old, new)]);
        }
    }
    check_refused(Refusal::State, FULL_HEAP, &[("l|0|1|1", "l|2|2|2"), ("l|0|1|1", "l|0|2|2"), ("l|0|1|1", "l|1|0|1")]);
    check_refused(Refusal::State, FULL_HEAP, &[("h|2|0", "h|2|3"), ("h|2|0", "h|2|2"), ("h|2|0", "h|2|0|2"), ("h|2|0", "h|1|0")]);
    check_refused(Refusal::State, FULL_HEAP, &[("a|4008000000000000", "a|4008000000000001")]);
    check_refused(Refusal::State, HEAP, &[("h|1", "h"), ("h|1", "h|0"), ("t|1 l|1 r|-", "t l r")]);
    assert_eq!(refusal(&with(&HEAP.replace("o|1|1", "o|1|0"), "h|1", "h")), None);
    for activity in ["8000000000000000", "7ff8000000000000", "fff8000000000000", "54e6dc186ef9f45d", "7ff0000000000000"] {
        check_refused(Refusal::State, FULL_HEAP, &[("|0000000000000000", &format!("|{activity}"))]);
    }
    assert_eq!(refusal(&with(FULL_HEAP, "|0000000000000000", "|54e6dc186ef9f45c")), None);
    for step in ["8000000000000000", "7ff8000000000000", "6974e718d7d7625b", "bff0000000000000"] {
        check_refused(Refusal::State, FULL_HEAP, &[("w|3ff0000000000000", &format!("w|{step}"))]);
    }
    for step in ["0000000000000000", "0000000000000001", "6974e718d7d7625a"] {
        assert_eq!(refusal(&with(FULL_HEAP, "w|3ff0000000000000", &format!("w|{step}"))), None);
    }
    for decay in ["3fdfffffffffffff", "3ff0000000000001", "7ff8000000000000", "bff0000000000000", "0000000000000000"] {
        check_refused(Refusal::State, HEAP, &[("3fee666666666666", decay)]);
    }
    check_refused(Refusal::State, FULL_LIST, &[("v|2|0|1", "v|2|0|0"), ("v|2|0|1", "v|2|0|3"), ("s|9|5|0", "s|9|5|5")]);
    check_refused(Refusal::State, FULL_LIST, &[("s|9|5|0", "s|18446744073709551615|5|0"), ("f|-", "f|3"), ("f|-", "f|4294967294")]);
    assert_eq!(refusal(&with(FULL_LIST, "s|9|5|0", "s|18446744073709551614|5|0")), None);
}

#[test]
fn the_longest_text_is_within_its_bound() {
    let fields = |field: &dyn Fn(u64) -> u64| (0..2048).map(|i| format!("|{}", field(i))).collect::<String>();
    let (clauses, codes, levels, reasons) =
        ("c|4095|4095|4095|4095 ".repeat(2048), fields(&|i| 2 * i + 1), fields(&|i| i + 1), fields(&|_| 2047));
    let (list, stamps) = (fields(&|i| i), fields(&|i| u64::MAX - 1 - i));
    let text =
        bytes(&format!("n|2048|vmtf {clauses} t{codes} l{levels} r{reasons} q|2048 v{list} s{stamps} k|18446744073709551615 f|2047"));
    assert!(text.len() > 126_000 && bound(2048, 2048, 8192) == 129_104);
    check_read_and_written_back(&text);
}

#[test]
fn no_variables_leave_a_short_text() {
    check_text("n|0|vsids", "n|0|vsids t l r q|0 h a o w|3ff0000000000000|3fee666666666666");
    check_text("n|0|vmtf", "n|0|vmtf t l r q|0 v s k|1 f|-");
    check_read_and_written_back(&bytes("n|0|vmtf c c t l r q|0 v s k|0 f|-"));
}

#[test]
fn a_sheet_without_a_session_has_no_text() {
    for (sheet, answers) in [("n|2049|vsids y", "1|4|-"), ("x", "1|3|-"), ("", "")] {
        assert_eq!(run_new(&bytes(sheet)), Ok((bytes(answers), Vec::new())));
    }
}

#[test]
fn a_session_is_carried_on() {
    assert_eq!(
        carry_on(&bytes(HEAP), &bytes("g|0 c|1 n|2|vsids x k|1")),
        Ok((bytes("1|0|1 2|3|- 3|3|- 4|3|- 5|0|1"), bytes(&HEAP.replace("q|0", "q|1"))))
    );
    assert_eq!(carry_on(&bytes(LIST), b"g\t1"), Ok((Vec::new(), bytes(LIST))));
}

#[test]
fn a_sheet_cut_in_two_gives_the_same_text() {
    for sheet in (0..300).map(sheet) {
        let lines: Vec<&[u8]> = sheet.split_inclusive(|&byte| byte == b'\n').collect();
        let is_clause = |line: &&[u8]| line.first() == Some(&b'c');
        let head = 1 + lines.iter().skip(1).take_while(|line| is_clause(line)).count();
        let (_, text) = run_new(&sheet).unwrap();
        for cut in (head..lines.len()).step_by(1 + lines.len() / 20).filter(|_| !text.is_empty()) {
            let (_, half) = run_new(&lines[..cut].concat()).unwrap();
            assert_eq!(carry_on(&half, &lines[cut..].concat()).unwrap().1, text);
        }
    }
}

#[test]
fn going_on_is_refused_in_order() {
    let long = vec![b'\n'; MAX_SHEET + 1];
    assert_eq!(carry_on(b"", &long), Err(Refusal::SheetTooLong));
    assert_eq!(carry_on(b"", &long[1..]), Err(Refusal::Saved));
    assert_eq!(carry_on(&bytes(&fresh(2049, "c|9999")), b""), Err(Refusal::TooManyVariables));
    assert_eq!(carry_on(&bytes(&fresh(1, "c|2")), b""), Err(Refusal::ClauseList));
    assert_eq!(carry_on(&with(LIST, "q|0", "q|1"), b""), Err(Refusal::State));
}
