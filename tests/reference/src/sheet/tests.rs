use super::*;

/// A sheet or its answers, written with | for a tab and a space for a newline.
fn bytes(text: &str) -> Vec<u8> {
    text.split_whitespace().flat_map(|line| line.replace('|', "\t").into_bytes().into_iter().chain([NEWLINE])).collect()
}

fn answers(sheet: &[u8]) -> Vec<u8> {
    let mut buffer = vec![0; ANSWER_ROOM * sheet.len()];
    let len = run(sheet, &mut buffer);
    buffer.truncate(len as usize);
    buffer
}

/// Holds the answers of a sheet to the statuses and replies given, each `status` or `status|reply`.
#[track_caller]
fn check(sheet: &str, expected: &str) {
    let mut text = String::new();
    for (i, outcome) in expected.split_whitespace().enumerate() {
        let reply = if outcome.contains('|') { "" } else { "|-" };
        text += &format!("{}|{outcome}{reply} ", i + 1);
    }
    assert_eq!(String::from_utf8_lossy(&answers(&bytes(sheet))), String::from_utf8_lossy(&bytes(&text)));
}

#[test]
fn the_worked_sheet() {
    check("n|3|vsids c|1|3 b|2 g|1 g|0 k|1 g|0 k|0", "0 0 0 0|2 0|0 0|1 0|1 0|2");
}

#[test]
fn no_variables_leave_nothing_to_decide() {
    check("n|0|vsids g|1", "0 0");
    check("n|0|vmtf g|1", "0 0");
}

#[test]
fn a_fresh_list_goes_by_counts() {
    check("n|3|vmtf c|1|2|4|5 g|0 g|0 g|0 g|0", "0 0 0|2 0|1 0|0 0");
}

#[test]
fn a_list_that_went_back_is_stuck() {
    check("n|2|vmtf g|1 g|1 k|0 g|1 g|2", "0 0|0 0|1 0|2 14 9");
}

#[test]
fn a_list_that_went_back_goes_on_from_search() {
    check("n|3|vmtf g|1 g|1 k|0 g|1 g|1", "0 0|0 0|1 0|2 0|2 14");
}

#[test]
fn a_variable_that_is_off_is_not_decided() {
    check("n|1|vsids o|0 g|1 i|0 g|1", "0 0 0 0 0");
    check("n|1|vmtf o|0 g|1", "0 0 0|0");
}

#[test]
fn a_unit_is_refused_at_level_0_alone() {
    check("n|2|vsids g|1 u|0 u|1 g|0 k|0", "0 0|0 0 11 0|1 0|1");
    check("n|2|vmtf g|1 u|0 u|1 g|0 k|0", "0 0|0 0 11 0|1 0|1");
}

#[test]
fn going_back_no_further_undoes_nothing() {
    check("n|2|vsids k|0 g|1 k|1 k|4294967295 k|4294967296 k|0", "0 0|0 0|0 0|0 0|0 3 0|1");
}

#[test]
fn the_section_of_clauses_ends_at_the_first_other_line() {
    let sheet = b"n\t2\tvsids\nc\nc\t3\tx\ncc\nc\t\nc\t4\n\nc\t1\ne\t0\t1\ne\t0\t0\n";
    let text: String = answers(sheet).into_iter().map(char::from).collect();
    let statuses: Vec<&str> = text.lines().map(|line| line.split('\t').nth(1).unwrap()).collect();
    assert_eq!(statuses, ["0", "0", "3", "3", "3", "6", "3", "3", "10", "0"]);
}

#[test]
fn a_refused_first_line_ends_the_run() {
    for first in ["n", "n|3", "n|3|vsid", "n|3|vsids|", "n|03|vsids", "m|3|vsids", "n|4294967296|vsids", "nn|3|vsids"] {
        check(&format!("{first} y"), "3");
    }
    check("n|2049|vsids y", "4");
    check("n|4294967295|vmtf y", "4");
    assert_eq!(answers(b"\ny\n"), b"1\t3\t-\n");
    assert_eq!(answers(b""), b"");
    assert_eq!(answers(b"n\t1\tvsids"), b"");
}

#[test]
fn arguments_are_checked_in_both_modes() {
    for mode in ["vsids", "vmtf"] {
        let head = format!("n|2|{mode} c|1 ");
        check(&(head.clone() + "b|2 i|2 o|2 r|2 e|4|- u|4 f|0|2"), "0 0 8 8 8 8 8 8 8");
        check(&(head.clone() + "e|4|7 g|2 e|0|1 e|0|4294967295 e|0|0 e|1|7 e|1|0"), "0 0 8 9 10 3 0 10 11");
        check(&(head.clone() + "w|3fe0000000000000 w|3ff0000000000000 w|3fdfffffffffffff w|3ff0000000000001"), "0 0 0 0 12 12");
        check(&(head.clone() + "w|7ff8000000000000 w|bfe8000000000000 w|3FE0000000000000 w|3fe000000000000"), "0 0 12 12 3 3");
    }
}

#[test]
fn a_line_has_its_form_or_gets_3() {
    for line in
        ["b", "b|", "b|0|", "b|00", "b|+1", "bb|0", "y|", "y|0", "g", "g|-", "e|0", "e|0|", "e|-|-", "k", "f|", "f|x", "n|1|vsids", "x"]
    {
        check(&format!("n|1|vsids {line}"), "0 3");
        check(&format!("n|1|vmtf {line}"), "0 3");
    }
}

#[test]
fn the_step_stops_below_its_limit() {
    let decays = |mode: &str| format!("n|1|{mode} w|3fe0000000000000 ") + &"y ".repeat(665);
    check(&decays("vsids"), &("0 ".repeat(666) + "13"));
    check(&decays("vmtf"), &"0 ".repeat(667));
}

#[test]
fn reasons_are_bumped_without_their_first_literal() {
    check("n|4|vsids c|0|4|7|7 e|0|0 r|0 r|1 g|1 g|1 g|1", "0 0 0 0 0 0|3 0|2 0|1");
}

#[test]
fn a_group_moves_in_list_mode_alone() {
    check("n|3|vmtf u|0 f|2|1 g|1 g|1 g|1", "0 0 0 14 14 14");
    check("n|3|vmtf f|2|1 k|0 g|1 f|2", "0 0 0|0 0|0 0");
    check("n|3|vsids f|2|1 f g|1", "0 0 0 0|0");
}

#[test]
fn the_sheet_and_the_buffer_have_their_sizes() {
    let mut buffer = vec![7; ANSWER_ROOM];
    assert_eq!(run(&[b'x'; MAX_SHEET + 1], &mut buffer), 4_294_967_294);
    assert_eq!(run(b"y\n", &mut buffer[..ANSWER_ROOM - 1]), 4_294_967_293);
    assert_eq!(buffer, [7; ANSWER_ROOM]);
    assert_eq!(run(&[b'x'; MAX_SHEET], &mut []), 0);
    assert_eq!(run(b"y\n", &mut buffer), 6);
    assert_eq!(&buffer[..7], b"1\t3\t-\n\x07");
}
