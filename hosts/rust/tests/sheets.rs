//! Sheets whose session is saved at the end, and sheets that go on with it.

use sigvort::{run, run_new, run_on, Refusal, Session, ANSWER_ROOM, MAX_SHEET};

/// Lines, written with | for a tab and a space for a newline.
fn lines(lines: &str) -> String {
    lines.split_whitespace().map(|line| line.replace('|', "\t") + "\n").collect()
}

const SHEETS: [&str; 2] = ["n|3|vsids c|1|3 b|2 g|1 g|0 k|1 g|0 k|0", "n|4|vmtf c|1 f|3|2 g|1 f|1|1 g|1 b|4 k|1 g|1 g|1 k|0 g|1"];

/// The answers behind those of so many lines, numbered from 1.
fn behind(answers: &str, count: usize) -> String {
    let rests = answers.lines().skip(count).map(|line| line.split_once('\t').unwrap().1);
    (1..).zip(rests).map(|(number, rest)| format!("{number}\t{rest}\n")).collect()
}

#[test]
fn a_sheet_answers_as_ever() {
    for sheet in SHEETS.map(lines) {
        let mut answers = [0; 14 * ANSWER_ROOM];
        let len = run(sheet.as_bytes(), &mut answers).unwrap();
        let (same, text) = run_new(sheet.as_bytes()).unwrap();
        assert_eq!(same.as_bytes(), &answers[..len]);
        assert!(Session::read(text.unwrap().as_bytes()).is_ok());
    }
}

#[test]
fn a_sheet_is_carried_on_behind_each_of_its_calls() {
    for sheet in SHEETS {
        let (answers, text) = run_new(lines(sheet).as_bytes()).unwrap();
        let parts: Vec<&str> = sheet.split(' ').collect();
        for cut in 2..=parts.len() {
            let (_, half) = run_new(lines(&parts[..cut].join(" ")).as_bytes()).unwrap();
            let carried = run_on(half.unwrap().as_bytes(), lines(&parts[cut..].join(" ")).as_bytes()).unwrap();
            assert_eq!(carried, (behind(&answers, cut), text.clone().unwrap()));
        }
    }
}

#[test]
fn a_sheet_goes_on_with_a_session_and_a_session_with_a_sheet() {
    let mut session = Session::list(3).unwrap();
    session.group(&[2]).unwrap();
    let (answers, text) = run_on(session.save().unwrap().as_bytes(), lines("g|1 g|0").as_bytes()).unwrap();
    assert_eq!(answers, lines("1|0|0 2|0|1"));
    let mut session = Session::read(text.as_bytes()).unwrap();
    assert_eq!(session.level(), 2);
    assert_eq!(session.go_back(0), Ok(2));
}

#[test]
fn a_carried_sheet_has_calls_alone() {
    let text = Session::heap(2).unwrap().save().unwrap();
    let (answers, same) = run_on(text.as_bytes(), lines("n|2|vsids c|1 x b|2 g|2").as_bytes()).unwrap();
    assert_eq!(answers, lines("1|3|- 2|3|- 3|3|- 4|8|- 5|9|-"));
    assert_eq!(same, text);
    for sheet in ["", "g\t1"] {
        assert_eq!(run_on(text.as_bytes(), sheet.as_bytes()), Ok((String::new(), text.clone())));
    }
}

#[test]
fn a_sheet_without_a_session_has_no_text() {
    for (sheet, answers) in [("", ""), ("x y", "1|3|-"), ("n|2049|vmtf g|1", "1|4|-")] {
        assert_eq!(run_new(lines(sheet).as_bytes()), Ok((lines(answers), None)));
    }
    assert_eq!(run_new(b"n\t1\tvsids"), Ok((String::new(), None)));
}

#[test]
fn refusals_come_in_order() {
    let good = Session::heap(2).unwrap().save().unwrap();
    let bad_clauses = good.replace("\nt\n", "\nc\t4\nt\n");
    let bad_state = good.replace("q\t0", "q\t1");
    let long = vec![b'\n'; MAX_SHEET + 1];
    assert_eq!(run_new(&long), Err(Refusal::SheetTooLong));
    assert_eq!(run_on(b"", &long), Err(Refusal::SheetTooLong));
    assert_eq!(run_on(b"", &long[1..]), Err(Refusal::Saved));
    assert_eq!(run_on(bad_clauses.as_bytes(), b"g\t1\n"), Err(Refusal::Clauses));
    assert_eq!(run_on(bad_state.as_bytes(), b"g\t1\n"), Err(Refusal::State));
    let (answers, text) = run_on(good.as_bytes(), &long[1..]).unwrap();
    assert_eq!((answers.lines().count(), text), (MAX_SHEET, good));
}

#[test]
fn more_than_2048_variables_are_refused() {
    let fields = |field: &str| field.repeat(2049);
    let (activities, switches) = (fields("|0000000000000000"), fields("|0"));
    let text = lines(&format!("n|2049|vsids c|9999 t l r q|9 h a{activities} o{switches} w|3ff0000000000000|3ff0000000000000"));
    assert_eq!(run_on(text.as_bytes(), b"g\t1\n"), Err(Refusal::TooManyVariables));
}
