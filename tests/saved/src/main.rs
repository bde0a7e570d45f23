//! Runs the exported entries of the saved session and the reference on the same sessions, texts and sheets. Status, text, memory and answers are
//! compared whole, and with them what is only read, what must stay and the guards around every slice. The first difference ends the run.
//!
//! Usage: saved compare ROOT ROUNDS SEED, or saved sample ROOT ROUNDS SEED, which has no guards and does not ask what the rounds met.

mod entries;
mod expected;
mod ffi;
mod fields;
mod forms;
mod judge;
mod lent;
mod sessions;
mod sheets;
mod sizes;
mod states;
mod tally;

// what the test of sessions has: memory between guards, random states, lists of calls, faults
#[allow(dead_code)]
#[path = "../../native/src/breakers.rs"]
mod breakers;
#[path = "../../native/src/faults.rs"]
mod faults;
#[path = "../../native/src/guarded.rs"]
mod guarded;
#[path = "../../native/src/lists.rs"]
mod lists;
#[path = "../../native/src/memory.rs"]
mod memory;
#[path = "../../native/src/proved.rs"]
mod proved;
#[allow(dead_code)]
#[path = "../../native/src/random.rs"]
mod random;

use forms::FORMS;
use guarded::Guards;
use judge::{differ, Difference, Judge, Outcome};
use reference::{
    generator::{saved_examples, Rng},
    native::{HeapMemory, ListMemory},
    saved::{self, Mode},
};
use sizes::{sizes, Sized};
use states::STATES;
use std::{env, fs, path::Path, process::ExitCode};
use tally::Tally;

const GUARDS: usize = 5;

/// The sheets that the pages show, some of them carried on; the texts that one shows, and the same damaged.
fn examples(root: &Path, judge: &mut Judge) -> Outcome<()> {
    let calls = fs::read_to_string(root.join("docs/SHEET.md")).expect("docs/SHEET.md is there");
    let page = fs::read_to_string(root.join("docs/SAVED.md")).expect("docs/SAVED.md is there");
    sheets::shown(&calls, judge)?;
    sheets::shown(&page, judge)?;
    for text in saved_examples(&page) {
        sessions::other_mode(judge, &text)?;
        if saved::counts(&text).is_ok_and(|counts| counts.mode == Mode::Vmtf) {
            judge.must_get::<ListMemory>(0, "the page's list", &text)?;
            sessions::damage::<ListMemory>(judge, &text)?;
        } else {
            judge.must_get::<HeapMemory>(0, "the page's heap", &text)?;
            sessions::damage::<HeapMemory>(judge, &text)?;
        }
    }
    Ok(())
}

/// Texts at the limits of their counts.
fn limits(judge: &mut Judge) -> Outcome<()> {
    for Sized { name, text, status, is_list } in sizes() {
        sessions::other_mode(judge, &text)?;
        if is_list {
            judge.must_get::<ListMemory>(status, &name, &text)?;
        } else {
            judge.must_get::<HeapMemory>(status, &name, &text)?;
        }
        // 4 comes before 5
        let lent = judge::lent_for::<HeapMemory>(3, 2, 1, &mut judge.rng);
        let (got, _) = judge.read(&text, &lent)?;
        let due = if is_list {
            15
        } else if status == 4 {
            4
        } else {
            5
        };
        if got != due {
            return differ(format!("{name}, memory of other lengths: both gave {got}, and {due} is due"), &text);
        }
    }
    Ok(())
}

fn compare(root: &Path, rounds: u64, seed: u64, judge: &mut Judge) -> Outcome<()> {
    examples(root, judge)?;
    limits(judge)?;
    sheets::refusals(judge)?;
    sheets::at_limits(judge)?;
    sessions::at_limits::<HeapMemory>(judge)?;
    sessions::at_limits::<ListMemory>(judge)?;
    play(rounds, seed, judge)
}

/// The rounds from a seed on.
fn play(rounds: u64, seed: u64, judge: &mut Judge) -> Outcome<()> {
    for seed in seed..seed + rounds {
        judge.rng = Rng::new(seed);
        sessions::round::<HeapMemory>(judge)
            .and_then(|()| sessions::round::<ListMemory>(judge))
            .and_then(|()| sheets::round(seed, judge))
            .map_err(|mut difference| {
                difference.what = format!("seed {seed}: {}", difference.what);
                difference
            })?;
    }
    Ok(())
}

/// Writes the text or the sheet to a file, and says where and what.
fn report(root: &Path, Difference { what, text }: &Difference) {
    let folder = root.join("target/saved");
    fs::create_dir_all(&folder).expect("target/saved can be made");
    fs::write(folder.join("difference"), text).expect("target/saved can be written");
    println!("{what}\non what is in target/saved/difference:\n{}", String::from_utf8_lossy(&text[..text.len().min(4_000)]));
}

fn names<T>(ways: &[(&'static str, T)]) -> Vec<&'static str> {
    ways.iter().map(|(name, _)| *name).collect()
}

fn main() -> ExitCode {
    let arguments: Vec<String> = env::args().collect();
    let number = |i: usize| arguments.get(i).map_or(0, |text| text.parse().expect("a number"));
    let is_sample = arguments.get(1).is_some_and(|kind| kind == "sample");
    let root = Path::new(arguments.get(2).map_or(".", String::as_str));
    let (rounds, seed) = (number(3), number(4));
    let guards = Guards(if is_sample { 0 } else { GUARDS });
    let mut judge = Judge { guards, rng: Rng::new(seed), tally: Tally::default() };
    let outcome = if is_sample { play(rounds, seed, &mut judge) } else { compare(root, rounds, seed, &mut judge) };
    println!("{}", judge.tally);
    if let Err(difference) = outcome {
        report(root, &difference);
        return ExitCode::FAILURE;
    }
    let missing = judge.tally.missing(&names(FORMS), &names(STATES));
    if is_sample || missing.is_empty() {
        return ExitCode::SUCCESS;
    }
    println!("the rounds did not meet: {}", missing.join("; "));
    ExitCode::FAILURE
}
