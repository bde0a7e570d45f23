//! Runs the proved chooser and the reference on the same sheets: the documents' examples, the named ones and so many random ones.
//! Return value and answer buffer are compared whole, the bytes behind the answers too. The first difference ends the run.
//!
//! Usage: compare ROOT SHEETS [SEED], with the repository's root, the number of random sheets and the first one's seed.

mod tally;

use reference::generator::{examples, named, sheet};
use sigvort as _; // links the proved chooser
use std::{env, fs, path::Path, process::ExitCode};
use tally::Tally;

extern "C" {
    /// The proved chooser's entry for sheets, as `hosts/c/sigvort.h` has it.
    fn sigvort_run(sheet: *const u8, sheet_len: usize, answers: *mut u8, answers_len: usize) -> u32;
}

/// A sheet on which the two differ, and what each made of it.
struct Difference {
    name: String,
    sheet: Vec<u8>,
    reference: (u32, Vec<u8>),
    proved: (u32, Vec<u8>),
}

/// The two buffers, filled with the same pattern before each run.
struct Buffers {
    reference: Vec<u8>,
    proved: Vec<u8>,
}

impl Buffers {
    fn new() -> Self {
        Buffers { reference: Vec::new(), proved: Vec::new() }
    }

    /// Gives both buffers the room, with bytes that depend on place and sheet.
    fn fill(&mut self, room: usize, pattern: u8) {
        self.reference.clear();
        self.reference.extend((0..room).map(|place| (place as u8).wrapping_mul(167) ^ pattern));
        self.proved.clone_from(&self.reference);
    }

    /// Runs both on a sheet; gives what both returned, or what differs.
    fn run(&mut self, name: &str, sheet: &[u8], room: usize, tally: &mut Tally) -> Result<u32, Box<Difference>> {
        self.fill(room, sheet.len() as u8);
        let reference = reference::run(sheet, &mut self.reference);
        // SAFETY: sheet and buffer are slices of these lengths, and the buffer is no part of the sheet.
        let proved = unsafe { sigvort_run(sheet.as_ptr(), sheet.len(), self.proved.as_mut_ptr(), self.proved.len()) };
        tally.add(sheet, reference, &self.reference);
        if (reference, &self.reference) == (proved, &self.proved) {
            return Ok(proved);
        }
        Err(Box::new(Difference {
            name: name.into(),
            sheet: sheet.into(),
            reference: (reference, self.reference.clone()),
            proved: (proved, self.proved.clone()),
        }))
    }
}

fn room_for(sheet: &[u8]) -> usize {
    reference::ANSWER_ROOM * sheet.iter().filter(|&&byte| byte == b'\n').count()
}

/// The buffer's length for a random sheet: just enough, a little more, or one byte short.
fn random_room(seed: u64, sheet: &[u8]) -> usize {
    let exact = room_for(sheet);
    match seed % 16 {
        0 => exact.saturating_sub(1),
        1..=3 => exact + 1 + (seed / 16 % 100) as usize,
        _ => exact,
    }
}

/// The examples of the documents: both must give the answers that are shown.
fn compare_examples(root: &Path, buffers: &mut Buffers, tally: &mut Tally) -> Result<(), Box<Difference>> {
    let document = fs::read_to_string(root.join("docs/SHEET.md")).expect("docs/SHEET.md is there");
    for (i, (sheet, shown)) in examples(&document).into_iter().enumerate() {
        let name = format!("example {} of docs/SHEET.md", i + 1);
        let len = buffers.run(&name, &sheet, room_for(&sheet), tally)? as usize;
        let answers = &buffers.proved[..len];
        assert!(answers == shown, "{name} answers\n{}", String::from_utf8_lossy(answers));
    }
    Ok(())
}

fn compare(root: &Path, sheets: u64, seed: u64, tally: &mut Tally) -> Result<(), Box<Difference>> {
    let mut buffers = Buffers::new();
    compare_examples(root, &mut buffers, tally)?;
    for case in named() {
        buffers.run(&case.name, &case.sheet, case.room, tally)?;
    }
    for seed in seed..seed + sheets {
        let sheet = sheet(seed);
        buffers.run(&format!("seed {seed}"), &sheet, random_room(seed, &sheet), tally)?;
    }
    Ok(())
}

/// Writes the sheet and both answer buffers to files, and says where and what.
fn report(root: &Path, difference: &Difference) {
    let folder = root.join("target/compare");
    fs::create_dir_all(&folder).expect("target/compare can be made");
    let (reference, proved) = (&difference.reference, &difference.proved);
    for (file, bytes) in [("difference.sheet", &difference.sheet), ("reference.answers", &reference.1), ("proved.answers", &proved.1)] {
        fs::write(folder.join(file), bytes).expect("target/compare can be written");
    }
    println!("different on {}: the sheet and both buffers are in target/compare", difference.name);
    println!("returned: reference {}, proved {}", reference.0, proved.0);
    if let Some(place) = (0..reference.1.len()).find(|&i| reference.1[i] != proved.1[i]) {
        let line = reference.1[..place].iter().filter(|&&byte| byte == b'\n').count() + 1;
        println!("first differing byte: {place}, in line {line}");
    }
}

fn main() -> ExitCode {
    let arguments: Vec<String> = env::args().collect();
    let number = |i: usize, default| arguments.get(i).map_or(default, |text: &String| text.parse().expect("a number"));
    let root = Path::new(arguments.get(1).map_or(".", String::as_str));
    let mut tally = Tally::default();
    let outcome = compare(root, number(2, 1_000), number(3, 0), &mut tally);
    println!("{tally}");
    match outcome {
        Ok(()) => ExitCode::SUCCESS,
        Err(difference) => {
            report(root, &difference);
            ExitCode::FAILURE
        }
    }
}
