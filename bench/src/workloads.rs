//! The sheets that are timed. Each is filled with calls up to the greatest length, unless it says otherwise.

use reference::{generator::Rng, MAX_SHEET};

pub struct Workload {
    pub name: String,
    pub sheet: Vec<u8>,
}

impl Workload {
    fn new(name: impl Into<String>, sheet: impl Into<Vec<u8>>) -> Self {
        Workload { name: name.into(), sheet: sheet.into() }
    }
}

fn heading(num_vars: usize, mode: &str) -> String {
    format!("n\t{num_vars}\t{mode}\n")
}

/// Adds lines while they fit into a length.
fn fill(mut sheet: String, length: usize, mut line: impl FnMut() -> String) -> String {
    loop {
        let next = line();
        if sheet.len() + next.len() > length {
            return sheet;
        }
        sheet += &next;
    }
}

/// A line of a letter and random numbers below a bound.
fn numbers(letter: &str, count: usize, bound: usize, rng: &mut Rng) -> String {
    (0..count).fold(letter.to_string(), |line, _| line + &format!("\t{}", rng.below(bound))) + "\n"
}

/// Clauses of four literals with short codes, half a sheet of them.
fn clauses(num_vars: usize, rng: &mut Rng) -> String {
    let codes = (2 * num_vars).min(1000);
    fill(String::new(), MAX_SHEET / 2, || numbers("c", 4, codes, rng))
}

/// Bumps and decays, decisions, and now and then a way back.
fn heap_session(num_vars: usize, length: usize) -> String {
    let mut rng = Rng::new(1);
    fill(heading(num_vars, "vsids"), length, || match rng.below(20) {
        0..=9 => format!("b\t{}\n", rng.below(num_vars)),
        10 => "y\n".into(),
        11..=18 => "g\t1\n".into(),
        _ => format!("k\t{}\n", rng.below(20)),
    })
}

/// Bumps alone, of variables that are all in the heap.
fn bumps(num_vars: usize) -> String {
    let mut rng = Rng::new(2);
    fill(heading(num_vars, "vsids"), MAX_SHEET, || format!("b\t{}\ny\n", rng.below(num_vars)))
}

/// Every variable decided, all undone, again and again.
fn drains(num_vars: usize) -> String {
    let round = "g\t1\n".repeat(num_vars) + "k\t0\n";
    fill(heading(num_vars, "vsids"), MAX_SHEET, || round.clone())
}

/// Decisions, small groups and short ways back.
fn list_session(num_vars: usize, length: usize) -> String {
    let mut rng = Rng::new(3);
    let mut level = 0_usize;
    fill(heading(num_vars, "vmtf"), length, || match rng.below(8) {
        0..=3 => {
            level += 1;
            "g\t0\n".into()
        }
        4..=6 => numbers("f", 4, num_vars, &mut rng),
        _ => {
            level = level.saturating_sub(2);
            format!("k\t{level}\n")
        }
    })
}

fn groups(num_vars: usize, size: usize) -> String {
    let mut rng = Rng::new(4);
    fill(heading(num_vars, "vmtf"), MAX_SHEET, || numbers("f", size, num_vars, &mut rng))
}

/// Literals enqueued with reasons, the reasons bumped, and back.
fn reasons(num_vars: usize) -> String {
    let mut rng = Rng::new(5);
    let sheet = heading(num_vars, "vsids") + &clauses(num_vars, &mut rng);
    fill(sheet, MAX_SHEET, || {
        let var = rng.below(num_vars);
        format!("g\t1\ne\t{}\t{}\nr\t{var}\nk\t{}\n", 2 * var, rng.below(100), rng.below(30))
    })
}

/// A session that is made and does next to nothing.
fn creation(num_vars: usize, mode: &str, with_clauses: bool) -> String {
    let clauses = if with_clauses { clauses(num_vars, &mut Rng::new(6)) } else { String::new() };
    heading(num_vars, mode) + &clauses + "g\t1\n"
}

fn lines(name: &str, first: String, line: &str) -> Workload {
    Workload::new(name, fill(first, MAX_SHEET, || line.to_string()))
}

/// What a chooser is used for, and what costs most around it.
pub fn uses() -> Vec<Workload> {
    let worked = include_bytes!("../../examples/worked.sheet");
    let codes = heading(5, "vsids") + &("c".to_string() + &"\t9".repeat(64) + "\n").repeat(128);
    vec![
        Workload::new("worked sheet", worked.as_slice()),
        Workload::new("heap session, N = 512", heap_session(512, MAX_SHEET)),
        Workload::new("bumps, N = 2048", bumps(2048)),
        Workload::new("all decided and undone, N = 500", drains(500)),
        Workload::new("reasons, N = 300", reasons(300)),
        Workload::new("list session, N = 2048", list_session(2048, MAX_SHEET)),
        Workload::new("groups of 100, N = 2048", groups(2048, 100)),
        Workload::new("groups of 2,000, N = 2048", groups(2048, 2000)),
        Workload::new("heap made, N = 2048", creation(2048, "vsids", false)),
        Workload::new("heap made, N = 2048, clauses", creation(2048, "vsids", true)),
        Workload::new("list made, N = 2048", creation(2048, "vmtf", false)),
        Workload::new("list made, N = 2048, clauses", creation(2048, "vmtf", true)),
        Workload::new("8,192 codes", codes),
        lines("lines without form", heading(1, "vsids"), "b\t01\n"),
        lines("lines of one byte", heading(1, "vmtf"), "y\n"),
        lines("lines refused for their numbers", heading(1, "vsids"), "e\t4294967295\t4294967294\n"),
        lines("decays set", heading(1, "vsids"), "w\t3fee666666666666\n"),
    ]
}

/// As many bumps as variables, then every variable decided, then all undone. Random variables are bumped, and last variable 0: the search of list mode
/// begins there, and finds what stands behind it alone.
fn round(num_vars: usize, mode: &str) -> String {
    let bump = if mode == "vsids" { "b" } else { "f" };
    let mut rng = Rng::new(8);
    let bumps: String = (1..num_vars).map(|_| numbers(bump, 1, num_vars, &mut rng)).collect();
    heading(num_vars, mode) + &bumps + bump + "\t0\n" + &"g\t1\n".repeat(num_vars) + "k\t0\n"
}

/// All variables decided and undone in list mode, then decides alone, each refused by 14: search has passed what is open.
fn past_open(num_vars: usize) -> String {
    let first = heading(num_vars, "vmtf") + &"g\t1\n".repeat(num_vars) + "k\t0\n";
    fill(first, MAX_SHEET, || "g\t1\n".into())
}

/// A session made with as many clauses as variables.
fn made_with_clauses(num_vars: usize, mode: &str) -> String {
    let mut rng = Rng::new(6);
    let clauses: String = (0..num_vars).map(|_| numbers("c", 4, 2 * num_vars, &mut rng)).collect();
    heading(num_vars, mode) + &clauses + "g\t1\n"
}

/// The same kind of sheet for more and more variables. The proved chooser sets up arrays of a few sizes: the sizes just above them cost
/// it most.
pub fn growth() -> Vec<Workload> {
    let sizes = [64, 256, 1024, 2048];
    let made = [3, 16, 64, 65, 129, 256, 321, 385, 1024, 1153, 1345, 2048];
    let mut all = Vec::new();
    let mut add = |name: &str, sizes: &[usize], sheet: &dyn Fn(usize) -> String| {
        all.extend(sizes.iter().map(|&n| Workload::new(format!("{name}, N = {n}"), sheet(n))));
    };
    add("heap made", &made, &|n| creation(n, "vsids", false));
    add("list made", &made, &|n| creation(n, "vmtf", false));
    add("list made, N clauses", &[3, 16, 64, 256, 1024], &|n| made_with_clauses(n, "vmtf"));
    add("heap session", &sizes, &|n| heap_session(n, MAX_SHEET));
    add("list session", &sizes, &|n| list_session(n, MAX_SHEET));
    add("one group of N", &[3, 16, 64, 256, 1024, 2048], &|n| heading(n, "vmtf") + &numbers("f", n, n, &mut Rng::new(7)));
    add("heap round", &[16, 64, 256, 1024, 2048], &|n| round(n, "vsids"));
    add("list round", &[16, 64, 256, 1024, 2048], &|n| round(n, "vmtf"));
    add("refused by 14", &[16, 256, 2048], &past_open);
    all
}
