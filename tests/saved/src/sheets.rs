//! Sheets that are run and leave a text, and sheets that go on with one.

use crate::{
    expected,
    judge::{differ, Judge, Outcome},
    sizes::sizes,
};
use reference::{
    generator::{all_examples, named, sheet, Example},
    ANSWER_ROOM, MAX_SHEET,
};

/// The longest text.
const LONGEST: usize = 129_104;
/// Of so many sheets one is cut at every line, the others at a few.
const CUT_AT_EVERY_LINE: u64 = 20;
/// The lines of a long sheet.
const LONG: usize = 1_000;

fn newlines(sheet: &[u8]) -> usize {
    sheet.iter().filter(|&&byte| byte == b'\n').count()
}

fn room_for(sheet: &[u8]) -> usize {
    ANSWER_ROOM * newlines(sheet)
}

/// The sheets that a page shows, run and carried on: the answers are those shown.
pub fn shown(page: &str, judge: &mut Judge) -> Outcome<()> {
    let mut text = Vec::new();
    for example in all_examples(page) {
        let (sheet, shown, (returned, run)) = match example {
            Example::Saved(saved) => {
                text = saved;
                continue;
            }
            Example::Sheet(sheet, shown) => {
                let run = judge.run_new(&sheet, [room_for(&sheet), LONGEST])?;
                (sheet, shown, run)
            }
            Example::Carried(sheet, shown) => {
                let run = judge.run_on(&text, &sheet, [room_for(&sheet), LONGEST])?;
                (sheet, shown, run)
            }
        };
        if run.answers.get(..returned as usize) != Some(&shown) {
            return differ("a sheet of the pages answers otherwise than shown", &sheet);
        }
        text = run.output.written().to_vec();
    }
    Ok(())
}

/// The sheets made for a limit, with the room that they are run with, and a long sheet of each mode, cut at every line.
pub fn at_limits(judge: &mut Judge) -> Outcome<()> {
    for case in named() {
        judge.run_new(&case.sheet, [case.room, LONGEST])?;
        judge.run_on(b"n\t0\tvmtf\nt\nl\nr\nq\t0\nv\ns\nk\t1\nf\t-\n", &case.sheet, [case.room, LONGEST])?;
    }
    for mode in ["\tvsids\n", "\tvmtf\n"] {
        let is_due = |sheet: &Vec<u8>| newlines(sheet) > LONG && String::from_utf8_lossy(sheet).contains(mode);
        let long = (0..).map(sheet).find(is_due).expect("there are long sheets");
        run_and_cut(&long, 1, judge)?;
    }
    Ok(())
}

/// Runs the sheet that belongs to a seed, with texts' buffers of several lengths, and cut in two.
pub fn round(seed: u64, judge: &mut Judge) -> Outcome<()> {
    let sheet = sheet(seed);
    let room = room_for(&sheet);
    let step = if seed.is_multiple_of(CUT_AT_EVERY_LINE) { 1 } else { 1 + newlines(&sheet) / 4 };
    let bound = expected::bound(&run_and_cut(&sheet, step, judge)?);
    judge.run_new(&sheet, [room, bound])?;
    let (short, _) = judge.run_new(&sheet, [room, bound.saturating_sub(1)])?;
    if bound > 0 && short != u32::MAX - 2 {
        return differ("both ran a sheet with a text's buffer that is too short", &sheet);
    }
    judge.run_new(&sheet, [room.saturating_sub(1), bound])?;
    Ok(())
}

/// Runs a sheet whole and cut in two; gives its session's text.
fn run_and_cut(sheet: &[u8], step: usize, judge: &mut Judge) -> Outcome<Vec<u8>> {
    let (returned, whole) = judge.run_new(sheet, [room_for(sheet), LONGEST])?;
    let text = whole.output.written();
    if !text.is_empty() {
        cut(sheet, step, &whole.answers[..returned as usize], text, judge)?;
    }
    Ok(text.to_vec())
}

/// How many lines a sheet's first line and its clauses are.
fn head(lines: &[&[u8]]) -> usize {
    1 + lines.iter().skip(1).take_while(|line| line.first() == Some(&b'c')).count()
}

/// Cuts a sheet in two behind its clauses: the second half goes on with the first one's text, and both give what the whole sheet gives.
fn cut(sheet: &[u8], step: usize, answers: &[u8], text: &[u8], judge: &mut Judge) -> Outcome<()> {
    let lines: Vec<&[u8]> = sheet.split_inclusive(|&byte| byte == b'\n').collect();
    let (head, count) = (head(&lines).min(newlines(sheet)), newlines(sheet));
    if step == 1 {
        judge.tally.longest_cut = judge.tally.longest_cut.max(count);
    }
    for cut in (head..=count).step_by(step) {
        judge.tally.cuts += 1;
        let (first, second) = (lines[..cut].concat(), lines[cut..].concat());
        let (_, before) = judge.run_new(&first, [room_for(&first), LONGEST])?;
        let (returned, behind) = judge.run_on(before.output.written(), &second, [room_for(&second), LONGEST])?;
        if behind.output.written() != text {
            return differ(format!("cut behind line {cut}, the text is another"), sheet);
        }
        if renumbered(&behind.answers[..returned as usize], cut) != lines_behind(answers, cut) {
            return differ(format!("cut behind line {cut}, the answers are others"), sheet);
        }
    }
    Ok(())
}

/// The answers with line numbers that are greater by so many.
fn renumbered(answers: &[u8], lines: usize) -> String {
    let answers = String::from_utf8_lossy(answers);
    let renumbered = answers.lines().map(|line| {
        let (number, rest) = line.split_once('\t').expect("an answer begins with its line's number");
        format!("{}\t{rest}\n", number.parse::<usize>().expect("it is a number") + lines)
    });
    renumbered.collect()
}

/// The answers behind those of so many lines.
fn lines_behind(answers: &[u8], lines: usize) -> String {
    String::from_utf8_lossy(answers).split_inclusive('\n').skip(lines).collect()
}

/// Goes on with texts that are refused and not, on sheets that are and are not, with buffers that are too short and not: the first refusal
/// that fits is given.
pub fn refusals(judge: &mut Judge) -> Outcome<()> {
    let mut texts: Vec<(Vec<u8>, u32)> = sizes().into_iter().map(|case| (case.text, case.status)).collect();
    for is_list in [false, true] {
        let good = sizes().into_iter().find(|case| case.is_list == is_list).expect("there is one of each mode").text;
        let bad = String::from_utf8_lossy(&good).replace("q\t0", "q\t1").into_bytes();
        texts.extend([(good[1..].to_vec(), 15), (bad, 7)]);
    }
    let (short, long) = (b"g\t1\nk\t0\n".to_vec(), b"y\n".repeat(MAX_SHEET / 2 + 1));
    for (text, status) in texts {
        let bound = expected::bound(&text);
        for sheet in [&short, &long] {
            for (answers, is_room) in [(room_for(sheet), true), (room_for(sheet) - 1, false)] {
                for (output, is_fitting) in [(bound, true), (bound.saturating_sub(1), bound == 0), (0, bound == 0)] {
                    let due = [(sheet.len() > MAX_SHEET, 1), (!is_room, 2), (status > 0, status), (!is_fitting, 2)];
                    let due = due.iter().find(|(fits, _)| *fits).map_or(0, |&(_, status)| status);
                    let (returned, _) = judge.run_on(&text, sheet, [answers, output])?;
                    if due > 0 && returned != u32::MAX - due || due == 0 && returned as usize > answers {
                        return differ(format!("going on: both returned {returned}, and {due} is due"), &text);
                    }
                }
            }
        }
    }
    Ok(())
}
