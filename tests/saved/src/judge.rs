//! Holds the proved entries to the reference: status, what is written and what stays, all of it.

use crate::{
    entries::{self, Entries},
    expected,
    guarded::Guards,
    lent::{Counts, Output, Run},
    memory::{Parts, Request},
    random::dirty,
    tally::Tally,
};
use reference::{generator::Rng, native::Clauses};

/// What differs, and the text or the sheet on which it does.
pub struct Difference {
    pub what: String,
    pub text: Vec<u8>,
}

pub type Outcome<T> = Result<T, Box<Difference>>;

pub fn differ<T>(what: impl Into<String>, text: &[u8]) -> Outcome<T> {
    Err(Box::new(Difference { what: what.into(), text: text.to_vec() }))
}

/// A request without a list.
pub fn request<M>(n: usize, clauses: Clauses, memory: M) -> Request<M> {
    Request { n: n as u32, clauses, memory, list: None }
}

/// The memory that is lent for a text, with any words in it: so many variables, literals and clauses.
pub fn lent_for<M: Parts>(n: usize, literals: usize, clauses: usize, rng: &mut Rng) -> Request<M> {
    let words = |count: usize, rng: &mut Rng| (0..count).map(|_| rng.word() as u32).collect();
    let clauses = Clauses::new(words(literals, rng), words(clauses, rng));
    request(n, clauses, dirty(n, rng))
}

/// Both sides, and what they were asked.
pub struct Judge {
    pub guards: Guards,
    pub rng: Rng,
    pub tally: Tally,
}

impl Judge {
    /// Compares the writing of a session into a buffer of so many bytes; gives the status and the text.
    pub fn save<M: Entries>(&mut self, request: &Request<M>, room: usize) -> Outcome<(u32, Vec<u8>)> {
        let (mut due, mut output) = (Output::new(room), Output::new(room));
        let mut lent = request.clone();
        let status = expected::save(request, &mut due);
        let text = || expected::text(request).unwrap_or_default();
        let proved = M::save(&mut lent, &mut output, self.guards).or_else(|error| differ(format!("writing: {error}"), &text()))?;
        self.tally.saves[status as usize] += 1;
        if proved != status {
            return differ(format!("writing {} mode into {room} bytes: reference {status}, proved {proved}", M::NAME), &text());
        }
        if let Some(place) = (0..room).find(|&place| due.text[place] != output.text[place]) {
            let near = &output.text[place.saturating_sub(20)..room.min(place + 20)];
            return differ(format!("the texts differ at byte {place}; proved {:?}", String::from_utf8_lossy(near)), &text());
        }
        if due.written != output.written {
            return differ(format!("written: reference {}, proved {}", due.written, output.written), &text());
        }
        if let Some(difference) = request.clone().difference(&mut lent) {
            return differ(format!("writing changed {difference}"), &text());
        }
        if status != 0 {
            return Ok((status, Vec::new()));
        }
        self.tally.bytes += u64::from(output.written);
        Ok((status, output.written().to_vec()))
    }

    /// Compares the counts of a text; gives them where the text has its form.
    pub fn counts(&mut self, text: &[u8]) -> Outcome<Option<Counts>> {
        let mut due = Counts { list: 11, n: 22, literals: 33, clauses: 44 };
        let mut counts = due.clone();
        let status = expected::counts(text, &mut due);
        let proved = entries::counts(text, &mut counts, self.guards).or_else(|error| differ(format!("counts: {error}"), text))?;
        self.tally.counts[status as usize] += 1;
        if (status, &due) != (proved, &counts) {
            return differ(format!("counts: reference {status}, {due:?}; proved {proved}, {counts:?}"), text);
        }
        Ok(Some(counts).filter(|_| status == 0))
    }

    /// Compares the reading of a text into memory; gives the status and the memory as both left it.
    pub fn read<M: Entries>(&mut self, text: &[u8], lent: &Request<M>) -> Outcome<(u32, Request<M>)> {
        let (mut due, mut read) = (lent.clone(), lent.clone());
        let status = expected::read(text, &mut due);
        let proved = M::read(text, &mut read, self.guards).or_else(|error| differ(format!("reading: {error}"), text))?;
        self.tally.reads[status as usize] += 1;
        if proved != status {
            return differ(format!("reading in {} mode: reference {status}, proved {proved}", M::NAME), text);
        }
        if let Some(difference) = due.difference(&mut read) {
            return differ(format!("status {status}, reference and proved differ in {difference}"), text);
        }
        // a refusal changes nothing, whatever the reference makes of it
        if let Some(difference) = lent.clone().difference(&mut read).filter(|_| status != 0) {
            return differ(format!("refused with {status}, and changed in {difference}"), text);
        }
        self.tally.words += read.parts().iter().map(|(_, words)| words.count() as u64).sum::<u64>();
        Ok((status, read))
    }

    /// Compares counts and reading of a text, into memory that fits it, or another where it has no counts; gives the status.
    pub fn read_fitting<M: Entries>(&mut self, text: &[u8]) -> Outcome<u32> {
        let lent = match self.counts(text)? {
            Some(counts) => lent_for::<M>(counts.n as usize, counts.literals as usize, counts.clauses as usize, &mut self.rng),
            None => lent_for(2, 2, 1, &mut self.rng),
        };
        self.read(text, &lent).map(|(status, _)| status)
    }

    /// Compares the reading of a text that must get a status.
    pub fn must_get<M: Entries>(&mut self, due: u32, what: &str, text: &[u8]) -> Outcome<()> {
        match self.read_fitting::<M>(text)? {
            status if status == due => Ok(()),
            status => differ(format!("{what}: both gave {status}, and {due} is due"), text),
        }
    }

    /// Compares two runs, one by the reference, from buffers that are alike.
    fn run(
        &mut self,
        sheet: &[u8],
        rooms: [usize; 2],
        runs: impl Fn(&mut Run, bool, Guards) -> Result<u32, String>,
    ) -> Outcome<(u32, Run)> {
        let [mut due, mut run] = [Run::new(rooms[0], rooms[1]), Run::new(rooms[0], rooms[1])];
        let returned = runs(&mut due, true, self.guards).expect("the reference has no guards");
        let proved = runs(&mut run, false, self.guards).or_else(|error| differ(format!("running: {error}"), sheet))?;
        let refusal = u32::MAX - returned;
        self.tally.runs[if refusal < 16 { refusal as usize } else { 0 }] += 1;
        if returned != proved {
            return differ(format!("a run returned: reference {returned}, proved {proved}"), sheet);
        }
        if due != run {
            let what = if due.answers != run.answers { "answers" } else { "texts" };
            let written = [&due, &run].map(|run| (run.output.written, String::from_utf8_lossy(&run.output.text[..1_000.min(rooms[1])])));
            return differ(format!("the {what} of a run differ; texts of the reference and of the proved one: {written:?}"), sheet);
        }
        Ok((returned, run))
    }

    /// Compares a sheet that is run, with buffers of so many bytes for answers and text.
    pub fn run_new(&mut self, sheet: &[u8], rooms: [usize; 2]) -> Outcome<(u32, Run)> {
        self.run(sheet, rooms, |run, by_reference, guards| match by_reference {
            true => Ok(expected::run_new(sheet, run)),
            false => entries::run_new(sheet, run, guards),
        })
    }

    /// Compares a sheet that goes on with a text.
    pub fn run_on(&mut self, old: &[u8], sheet: &[u8], rooms: [usize; 2]) -> Outcome<(u32, Run)> {
        self.run(sheet, rooms, |run, by_reference, guards| match by_reference {
            true => Ok(expected::run_on(old, sheet, run)),
            false => entries::run_on(old, sheet, run, guards),
        })
        .map_err(|mut difference| {
            difference.what += &format!("\ngoing on with\n{}", String::from_utf8_lossy(&old[..1_000.min(old.len())]));
            difference
        })
    }
}
