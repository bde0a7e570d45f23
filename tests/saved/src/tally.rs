use std::{collections::BTreeMap, fmt};

const STATUSES: usize = 16;
/// Fields at the ends of their ranges, by the letter of their line: of timestamp and stamps, activities, step and decay.
const EXTREMES: [(&str, &str); 10] = [
    ("k", "18446744073709551615"),
    ("s", "18446744073709551614"),
    ("s", "0"),
    ("a", "54e6dc186ef9f45c"),
    ("a", "0000000000000001"),
    ("a", "0000000000000000"),
    ("w", "6974e718d7d7625a"),
    ("w", "0000000000000001"),
    ("w", "0000000000000000"),
    ("w", "3fe0000000000000"),
];

/// What was compared so far.
#[derive(Default)]
pub struct Tally {
    pub sessions: u64,
    /// Sessions whose texts have the extremes.
    extremes: [u64; EXTREMES.len()],
    pub saves: [u64; STATUSES],
    pub counts: [u64; STATUSES],
    pub reads: [u64; STATUSES],
    pub runs: [u64; STATUSES],
    /// Sheets cut in two, and the lines of the longest that was cut at each of them.
    pub cuts: u64,
    pub longest_cut: usize,
    /// Calls on sessions that were written and read.
    pub calls: u64,
    /// Bytes of texts and words of memory.
    pub bytes: u64,
    pub words: u64,
    /// How often each way to take a form and each fact was broken.
    pub forms: BTreeMap<&'static str, u64>,
    pub facts: BTreeMap<&'static str, u64>,
    pub faults: BTreeMap<String, u64>,
}

impl Tally {
    /// Counts a session by its text.
    pub fn add_session(&mut self, text: &[u8]) {
        self.sessions += 1;
        let text = String::from_utf8_lossy(text);
        for line in text.lines().filter(|line| line.starts_with(['k', 's', 'a', 'w'])) {
            for ((letter, extreme), count) in EXTREMES.iter().zip(&mut self.extremes) {
                *count += u64::from(line.starts_with(letter) && line.split('\t').any(|field| field == *extreme));
            }
        }
    }

    /// What a whole run must have met and has not.
    pub fn missing(&self, forms: &[&'static str], facts: &[&'static str]) -> Vec<String> {
        let mut missing = Vec::new();
        let mut need = |met: bool, what: String| {
            if !met {
                missing.push(what);
            }
        };
        for (what, counts, due) in [
            ("writing", &self.saves, vec![0, 2, 4, 5, 6, 7]),
            ("counts", &self.counts, vec![0, 15]),
            ("reading", &self.reads, vec![0, 4, 5, 6, 7, 15]),
            ("run", &self.runs, vec![0, 1, 2, 4, 6, 7, 15]),
        ] {
            due.into_iter().for_each(|status| need(counts[status] > 0, format!("{what} with status {status}")));
        }
        for ((letter, extreme), &count) in EXTREMES.iter().zip(&self.extremes) {
            need(count > 0, format!("{extreme} on line {letter}"));
        }
        forms.iter().for_each(|form| need(self.forms.contains_key(form), form.to_string()));
        facts.iter().for_each(|fact| need(self.facts.contains_key(fact), fact.to_string()));
        missing
    }
}

fn statuses(counts: &[u64]) -> String {
    let counted = counts.iter().enumerate().filter(|(_, &count)| count > 0);
    counted.map(|(status, count)| format!(" {status}: {count}")).collect()
}

fn tried<K>(counts: &BTreeMap<K, u64>) -> String {
    format!("{}, tried {} times, the rarest {}", counts.len(), counts.values().sum::<u64>(), counts.values().min().unwrap_or(&0))
}

impl fmt::Display for Tally {
    fn fmt(&self, f: &mut fmt::Formatter<'_>) -> fmt::Result {
        writeln!(f, "{} sessions, {} bytes of text, {} words of memory compared", self.sessions, self.bytes, self.words)?;
        writeln!(f, "sessions with each of the extreme fields: {:?}", self.extremes)?;
        writeln!(f, "written by status:{}", statuses(&self.saves))?;
        writeln!(f, "counted by status:{}", statuses(&self.counts))?;
        writeln!(f, "read by status:{}", statuses(&self.reads))?;
        let (runs, cuts, longest) = (statuses(&self.runs), self.cuts, self.longest_cut);
        writeln!(f, "runs by status:{runs}; {cuts} times a sheet cut in two, one of {longest} lines at each of them")?;
        writeln!(f, "{} calls on sessions read", self.calls)?;
        writeln!(f, "ways to take a form: {}", tried(&self.forms))?;
        writeln!(f, "facts broken: {}", tried(&self.facts))?;
        write!(f, "faults of memory that is written: {}", tried(&self.faults))
    }
}
