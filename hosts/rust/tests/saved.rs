//! Sessions written as text and read back.

use sigvort::{saved_room, Clauses, Counts, Decision, Lit, Mode, Refusal, Session, MAX_CLAUSES, MAX_LITERALS, MAX_SAVED, MAX_VARIABLES};

const fn pos(var: u32) -> Lit {
    Lit::new(var, true)
}

const fn neg(var: u32) -> Lit {
    Lit::new(var, false)
}

/// A text, written with | for a tab and a space for a newline.
fn text(lines: &str) -> String {
    lines.split(' ').map(|line| line.replace('|', "\t") + "\n").collect()
}

const HEAP: &str = "n|2|vsids c|1|3 t|1 l|1 r|- q|0 h|1 a|0000000000000000|0000000000000000 o|1|1 w|3ff0000000000000|3fee666666666666";
const LIST: &str = "n|2|vmtf t l r q|0 v|0|1 s|2|1 k|3 f|0";

/// Both modes, of `n` variables with the clause 0 ∨ 1.
fn both(n: u32) -> [Session<'static>; 2] {
    let mut clauses = Clauses::new();
    clauses.push(&[pos(0), pos(1)]);
    [Session::heap_with(n, clauses.clone()).unwrap(), Session::list_with(n, clauses).unwrap()]
}

/// The session that is read from a session's text, which it writes again.
#[track_caller]
fn read_back(session: &Session) -> Session<'static> {
    let text = session.save().unwrap();
    let read = Session::read(text.as_bytes()).unwrap();
    assert_eq!(read.save().unwrap(), text);
    assert_eq!((read.mode(), read.len()), (session.mode(), session.len()));
    assert_eq!(read.clauses(), session.clauses());
    assert_eq!((read.trail(), read.opened(), read.values()), (session.trail(), session.opened(), session.values()));
    assert_eq!((read.heap_state(), read.list_state()), (session.heap_state(), session.list_state()));
    for var in 0..session.len() {
        assert_eq!((read.level_of(var), read.reason_of(var)), (session.level_of(var), session.reason_of(var)));
        assert_eq!((read.activity(var), read.is_on(var), read.stamp(var)), (session.activity(var), session.is_on(var), session.stamp(var)));
    }
    read
}

#[track_caller]
fn check_refused(refusal: Refusal, lines: &str, old: &str, new: &str) {
    assert_eq!(lines.matches(old).count(), 1, "{old} stands once");
    assert_eq!(Session::read(text(&lines.replace(old, new)).as_bytes()).unwrap_err(), refusal, "{old} as {new}");
}

#[test]
fn the_texts_of_the_page() {
    let [mut heap, _] = both(2);
    heap.decide(true).unwrap();
    assert_eq!(heap.save(), Ok(text(HEAP)));
    assert_eq!(Session::list(2).unwrap().save(), Ok(text(LIST)));
}

#[test]
fn fresh_sessions_are_read_back() {
    for n in [0, 1, 5, MAX_VARIABLES] {
        read_back(&Session::heap(n).unwrap());
        read_back(&Session::list(n).unwrap());
    }
}

#[test]
fn a_session_in_use_is_read_back() {
    for mut session in both(6) {
        session.enqueue(neg(5), None).unwrap();
        session.bump(3).unwrap();
        session.decay().unwrap();
        session.bump(4).unwrap();
        session.switch_off(2).unwrap();
        session.group(&[1, 4]).unwrap();
        session.decide(true).unwrap();
        session.enqueue(neg(1), Some(0)).unwrap();
        session.set_curr_i(2).unwrap();
        session.decide(false).unwrap();
        read_back(&session);
    }
}

#[test]
fn going_back_behind_a_save_counts_from_the_history_before_it() {
    for mut session in both(4) {
        session.enqueue(pos(3), None).unwrap();
        session.decide(true).unwrap();
        session.enqueue(pos(1), Some(0)).unwrap();
        let before = session.trail().to_vec();
        session.decide(true).unwrap();

        let mut read = read_back(&session);
        assert_eq!(read.go_back(1), Ok(1));
        assert_eq!((read.level(), read.trail()), (1, &before[..]));
        assert_eq!(read_back(&read).go_back(0), Ok(2));
        assert_eq!(read.trail(), before);
        assert_eq!(session.go_back(1), Ok(1));
        assert_eq!(session.save(), read.save());
    }
}

#[test]
fn a_session_that_is_saved_before_every_call_answers_as_one_that_is_not() {
    for mut session in both(5) {
        let mut saved = session.clone();
        for round in 0..12 {
            saved = read_back(&saved);
            assert_eq!(saved.bump(round % 5), session.bump(round % 5));
            assert_eq!(saved.group(&[round % 5, 2]), session.group(&[round % 5, 2]));
            saved = read_back(&saved);
            assert_eq!(saved.decay(), session.decay());
            assert_eq!(saved.decide(round % 2 == 0), session.decide(round % 2 == 0));
            saved = read_back(&saved);
            assert_eq!(saved.enqueue(pos(round % 5), Some(0)), session.enqueue(pos(round % 5), Some(0)));
            assert_eq!(saved.go_back(round % 4), session.go_back(round % 4));
            assert_eq!(saved.save(), session.save());
        }
    }
}

#[test]
fn saving_changes_nothing_and_a_read_session_is_another() {
    for mut session in both(3) {
        let text = session.save().unwrap();
        assert_eq!(session.save(), Ok(text.clone()));
        let mut read = Session::read(text.as_bytes()).unwrap();
        drop(text);
        read.decide(true).unwrap();
        let learnt = read.clauses_mut().push(&[pos(2)]);
        assert_eq!(learnt, 1);
        assert_eq!(session.trail(), []);
        assert_eq!(session.decide(true), Ok(Decision::Variable(0)));
        assert_eq!(std::thread::spawn(move || read.level()).join().unwrap(), 1);
    }
}

#[test]
fn a_clause_list_that_does_not_fit_is_not_saved() {
    for mut session in both(2) {
        session.enqueue(pos(0), Some(0)).unwrap();
        let mut buffer = [b'?'; 300];
        let former = session.lend(Clauses::new());
        assert_eq!(session.save(), Err(Refusal::State));
        assert_eq!(session.save_to(&mut []), Err(Refusal::State));
        session.lend(Clauses::from_parts(vec![4], vec![1]));
        assert_eq!(session.save(), Err(Refusal::Clauses));
        assert_eq!(session.save_to(&mut buffer), Err(Refusal::Clauses));
        assert_eq!(buffer, [b'?'; 300]);
        session.lend(former);
        assert!(session.save().is_ok());
    }
}

#[test]
fn a_buffer_that_is_too_short_stays_as_it_was() {
    for session in both(3) {
        let text = session.save().unwrap();
        let mut buffer = [b'?'; 300];
        for len in [0, 1, text.len() - 1] {
            assert_eq!(session.save_to(&mut buffer[..len]), Err(Refusal::BufferTooShort));
        }
        assert_eq!(buffer, [b'?'; 300]);
        for len in [text.len(), text.len() + 1, buffer.len()] {
            assert_eq!(session.save_to(&mut buffer[..len]), Ok(text.len()));
        }
        let (front, behind) = buffer.split_at(text.len());
        assert_eq!(front, text.as_bytes());
        assert!(behind.iter().all(|&byte| byte == b'?'));
    }
}

#[test]
fn the_longest_text_has_its_room() {
    assert_eq!(MAX_SAVED, 129_104);
    assert_eq!(saved_room(0, 0, 0), 80);
    let last = 2 * MAX_VARIABLES - 1;
    let clauses = Clauses::from_parts(vec![last; MAX_LITERALS as usize], (1..=MAX_CLAUSES).map(|i| 4 * i).collect::<Vec<_>>());
    for mut session in [Session::heap_with(MAX_VARIABLES, clauses.clone()).unwrap(), Session::list_with(MAX_VARIABLES, clauses).unwrap()] {
        while session.decide(true) != Ok(Decision::None) {}
        assert!(read_back(&session).save_to(&mut vec![0; MAX_SAVED]).unwrap() > 80_000);
    }
}

#[test]
fn the_counts_of_a_text() {
    for session in both(7) {
        let text = session.save().unwrap();
        let counts = Counts { mode: session.mode(), variables: 7, clauses: 1, literals: 2 };
        assert_eq!(Counts::of(text.as_bytes()), Ok(counts));
        assert!(text.len() <= saved_room(counts.variables, counts.clauses, counts.literals));
        assert_eq!(Counts::of(&text.as_bytes()[1..]), Err(Refusal::Saved));
    }
    assert_eq!(Counts::of(b""), Err(Refusal::Saved));
    // a state that is not good still has its counts
    let counts = Counts { mode: Mode::List, variables: 2, clauses: 0, literals: 0 };
    assert_eq!(Counts::of(text(&LIST.replace("f|0", "f|7")).as_bytes()), Ok(counts));
}

#[test]
fn a_text_without_its_lines_and_forms_is_refused() {
    for lines in [HEAP, LIST] {
        let text = text(lines);
        for len in 0..text.len() {
            assert_eq!(Session::read(&text.as_bytes()[..len]).unwrap_err(), Refusal::Saved);
        }
        assert_eq!(Session::read((text.clone() + "q\t0\n").as_bytes()).unwrap_err(), Refusal::Saved);
        assert_eq!(Session::read((text + "\r").as_bytes()).unwrap_err(), Refusal::Saved);
    }
    check_refused(Refusal::Saved, HEAP, "vsids", "vmtf");
    check_refused(Refusal::Saved, HEAP, "q|0", "q|00");
    check_refused(Refusal::Saved, HEAP, "o|1|1", "o|1");
    check_refused(Refusal::Saved, LIST, "k|3", "k|-");
    check_refused(Refusal::Saved, LIST, "t l", "l t");
}

/// A fresh list session of `n` variables with these clause lines.
fn fresh(n: usize, clauses: &str) -> String {
    let list: String = (0..n).map(|var| format!("|{var}")).collect();
    let stamps: String = (0..n).map(|var| format!("|{}", n - var)).collect();
    text(&format!("n|{n}|vmtf {clauses}t l r q|0 v{list} s{stamps} k|{} f|0", n + 1))
}

#[test]
fn more_than_the_limits_are_refused() {
    let empty = |clauses: u32| "c ".repeat(clauses as usize);
    let long = |literals: u32| format!("c{} ", "|1".repeat(literals as usize));
    for clauses in [empty(MAX_CLAUSES), long(MAX_LITERALS)] {
        assert!(Session::read(fresh(2048, &clauses).as_bytes()).is_ok());
        assert_eq!(Session::read(fresh(2049, &clauses).as_bytes()).unwrap_err(), Refusal::TooManyVariables);
    }
    for clauses in [empty(MAX_CLAUSES + 1), long(MAX_LITERALS + 1), "c|1|4 ".into()] {
        assert_eq!(Session::read(fresh(2, &clauses).as_bytes()).unwrap_err(), Refusal::Clauses);
    }
}

#[test]
fn a_state_that_is_not_good_is_refused() {
    for (old, new) in [("t|1", "t|4"), ("l|1", "l|2"), ("r|-", "r|1"), ("q|0", "q|2"), ("h|1", "h"), ("w|3ff", "w|bff")] {
        check_refused(Refusal::State, HEAP, old, new);
    }
    for (old, new) in [("v|0|1", "v|0|0"), ("s|2|1", "s|1|2"), ("k|3", "k|2"), ("f|0", "f|2")] {
        check_refused(Refusal::State, LIST, old, new);
    }
}
