//! Sessions that are written, read and gone on with, and the same with memory that is refused.

use crate::{
    breakers::{Breakable, TRAIL},
    entries::Entries,
    expected, faults,
    fields::{Fields, Line},
    forms::{self, FORMS},
    judge::{differ, lent_for, request, Judge, Outcome},
    lists::Maker,
    memory::{List, Request},
    random::{self, Good},
    states::STATES,
};
use reference::native::{Clauses, HeapMemory, Lent, ListMemory, NONE};

const LENGTH: u32 = 5;
const CLAUSES: u32 = 6;
const STATE: u32 = 7;
const SAVED: u32 = 15;
/// Up to this length a text is damaged byte by byte.
const SHORT: usize = 130;

/// All that a mode of the test needs.
pub trait Mode: Entries + Good + Breakable {}
impl Mode for HeapMemory {}
impl Mode for ListMemory {}

/// Sessions at the limits of their counts, each at the limits of its stamps or doubles.
pub fn at_limits<M: Mode>(judge: &mut Judge) -> Outcome<()> {
    for n in [0, 1, 2, random::MAX_VARIABLES] {
        let codes = |count: usize| (0..count as u32).map(|place| place % (2 * n as u32)).collect::<Vec<_>>();
        let empty = Clauses::new(vec![], vec![0; random::MAX_CLAUSES]);
        let ends = (1..=random::MAX_CLAUSES as u32).map(|clause| 4 * clause).collect();
        let full = if n == 0 { empty.clone() } else { Clauses::new(codes(random::MAX_LITERALS), ends) };
        for clauses in [Clauses::default(), empty, full] {
            for _ in 0..8 {
                let mut memory = M::good(n, clauses.ends.len(), &mut judge.rng);
                there_and_back(judge, &request(n, clauses.clone(), memory.clone()))?;
                memory.bring_near_limit(&mut judge.rng);
                there_and_back(judge, &request(n, clauses.clone(), memory))?;
            }
        }
    }
    Ok(())
}

/// A few sessions of any size.
pub fn round<M: Mode>(judge: &mut Judge) -> Outcome<()> {
    let n = random::variables(&mut judge.rng);
    let clauses = random::clauses(n, &mut judge.rng);
    let mut session = request(n, clauses.clone(), M::good(n, clauses.ends.len(), &mut judge.rng));
    refuse(judge, &session)?;
    there_and_back(judge, &session)?;
    session.memory.bring_near_limit(&mut judge.rng);
    there_and_back(judge, &session)?;
    // one that calls have led to
    let mut played: Request<M> = request(n, clauses, random::dirty(n, &mut judge.rng));
    must_be_done(played.reference());
    for _ in 0..1 + judge.rng.below(4) {
        played.list = Some(list(judge, &played));
        must_be_done(played.reference());
        played.list = None;
        there_and_back(judge, &played)?;
    }
    refuse(judge, &played)
}

fn must_be_done(status: u32) {
    assert_eq!(status, 0, "the memory is good");
}

fn list<M: Mode>(judge: &mut Judge, session: &Request<M>) -> List {
    let formula = session.clauses.formula(session.n as usize).expect("the clauses are good");
    let (n, clauses) = (session.n as usize, session.clauses.ends.len());
    Maker::new(session.memory.session(formula), n, clauses, &mut judge.rng).list()
}

/// Writes a session and reads it back; what is read has all that was written, and goes on alike.
fn there_and_back<M: Mode>(judge: &mut Judge, session: &Request<M>) -> Outcome<()> {
    let text = write(judge, session)?;
    judge.tally.add_session(&text);
    let (n, clauses) = (session.n as usize, &session.clauses);
    let Some(counts) = judge.counts(&text)? else { return differ("a text that was written is refused", &text) };
    if (counts.n as usize, counts.literals as usize, counts.clauses as usize) != (n, clauses.lits.len(), clauses.ends.len()) {
        return differ(format!("a text that was written has the counts {counts:?}"), &text);
    }
    let lent = lent_for(n, clauses.lits.len(), clauses.ends.len(), &mut judge.rng);
    let (status, mut read) = judge.read::<M>(&text, &lent)?;
    if status != 0 {
        return differ(format!("a text that was written is refused with {status}"), &text);
    }
    let mut kept = session.clone();
    forget_levels(&mut kept);
    if let Some(difference) = kept.difference(&mut read) {
        return differ(format!("the session that was read differs from that written in {difference}"), &text);
    }
    if judge.save(&read, text.len())?.1 != text {
        return differ("the session that was read has another text", &text);
    }
    go_on(judge, session, &read, &text)
}

/// Everything that can be refused of a session and of its text.
fn refuse<M: Mode>(judge: &mut Judge, session: &Request<M>) -> Outcome<()> {
    let text = write(judge, session)?;
    refuse_memory(judge, session, text.len())?;
    refuse_lengths::<M>(judge, &text)?;
    damage::<M>(judge, &text)
}

/// Writes a session into buffers of several lengths; gives its text.
fn write<M: Mode>(judge: &mut Judge, session: &Request<M>) -> Outcome<Vec<u8>> {
    let room = expected::text(session).expect("the session is good").len();
    for short in [room - 1, judge.rng.below(room), 0] {
        if judge.save(session, short)?.0 != 2 {
            return differ("both wrote a text into a buffer that is too short", &[]);
        }
    }
    let more = room + 1 + judge.rng.below(100);
    let (_, text) = judge.save(session, more)?;
    if judge.save(session, room)?.1 != text || text.len() != room {
        return differ("another text in another buffer", &text);
    }
    if room > expected::bound(&text) {
        return differ("the text is longer than it may be", &text);
    }
    Ok(text)
}

/// Levels that are not written.
fn forget_levels<M: Mode>(session: &mut Request<M>) {
    let trail = session.memory.trail();
    for var in 0..trail.levels.len() {
        if !trail.is_assigned(var) {
            trail.levels[var] = NONE;
        }
    }
}

/// Does a list of calls on the session that was written and on that read: the answers are the same, and the texts behind them.
fn go_on<M: Mode>(judge: &mut Judge, written: &Request<M>, read: &Request<M>, text: &[u8]) -> Outcome<()> {
    let list = list(judge, written);
    judge.tally.calls += list.calls.len() as u64 / 3;
    let both = [written, read].map(|session| {
        let mut after = Request { list: Some(list.clone()), ..session.clone() };
        M::proved(&mut after, judge.guards).map(|status| (status, after))
    });
    let [Ok((status, mut after_written)), Ok((other, mut after_read))] = both else { return differ("calls touched a guard", text) };
    let answers = |request: &Request<M>| request.list.as_ref().map(|list| list.answers.clone());
    if (status, other) != (0, 0) || answers(&after_written) != answers(&after_read) {
        return differ("the session that was read answers otherwise", text);
    }
    (after_written.list, after_read.list) = (None, None);
    let room = expected::bound(text);
    if judge.save(&after_written, room)? != judge.save(&after_read, room)? {
        return differ("the session that was read goes on to another text", text);
    }
    Ok(())
}

/// Memory that is refused is not written: each fault, each fact broken, alone and at once.
fn refuse_memory<M: Mode>(judge: &mut Judge, session: &Request<M>, room: usize) -> Outcome<()> {
    let lent = Lent { n: session.n as usize, clauses: session.clauses.ends.len() };
    let mut broken = Vec::new();
    for (name, _, apply) in TRAIL {
        let mut request = session.clone();
        if apply(request.memory.trail(), lent, &mut judge.rng).is_some() {
            broken.push((*name, request));
        }
    }
    for (name, _, apply) in M::breakers() {
        let mut request = session.clone();
        if apply(&mut request.memory, lent, &mut judge.rng).is_some() {
            broken.push((*name, request));
        }
    }
    for (name, request) in &broken {
        must_refuse(judge, STATE, name, request, room)?;
    }
    broken.push(("", session.clone()));
    for (status, faults) in [(CLAUSES, faults::clause_lists()), (LENGTH, faults::lengths()), (4, faults::too_many())] {
        for (name, apply) in faults {
            // on memory that is good, or on one that is broken too
            let (_, mut request) = broken[judge.rng.below(broken.len())].clone();
            if apply(&mut request, &mut judge.rng).is_some() {
                must_refuse(judge, status, name, &request, room)?;
            }
        }
    }
    for number in 0.. {
        let mut request = session.clone();
        let Some(name) = faults::wrong_slice(&mut request, number, &mut judge.rng) else { break };
        must_refuse(judge, LENGTH, name, &request, room)?;
    }
    Ok(())
}

/// Compares the writing of memory that must get a status, whether the buffer is long enough or not.
fn must_refuse<M: Mode>(judge: &mut Judge, due: u32, name: &str, request: &Request<M>, room: usize) -> Outcome<()> {
    *judge.tally.faults.entry(format!("{}: {name}", M::NAME)).or_default() += 1;
    let room = if judge.rng.chance(1, 2) { room } else { judge.rng.below(room) };
    match judge.save(request, room)?.0 {
        status if status == due => Ok(()),
        status => differ(format!("writing with {name}: both gave {status}, and {due} is due"), &[]),
    }
}

/// Memory of other lengths than the text's is refused with 5, whatever else there is to refuse in its clauses and its state.
fn refuse_lengths<M: Mode>(judge: &mut Judge, text: &[u8]) -> Outcome<()> {
    let good = Fields::of(text);
    let texts = [Some(text.to_vec()), with_bad_state(judge, &good), Some(with_bad_clause(&good))];
    for text in texts.iter().flatten() {
        let Some(counts) = judge.counts(text)? else { return differ("a text that has its form is refused", text) };
        for lent in of_other_lengths::<M>(judge, counts.n as usize, counts.literals as usize, counts.clauses as usize) {
            let (status, _) = judge.read(text, &lent)?;
            if status != LENGTH {
                return differ(format!("memory of other lengths: both gave {status}"), text);
            }
        }
    }
    Ok(())
}

/// Memory for so many variables, literals and clauses, but for one of its slices.
fn of_other_lengths<M: Mode>(judge: &mut Judge, n: usize, literals: usize, clauses: usize) -> Vec<Request<M>> {
    let rng = &mut judge.rng;
    let [more, less] = [literals, clauses].map(|count| rng.pick(&[count + 1, 2 * count + 1, count.checked_sub(1).unwrap_or(2)]));
    let mut all = vec![lent_for(n, more, clauses, rng), lent_for(n, literals, less, rng)];
    let fitting: Request<M> = lent_for(n, literals, clauses, rng);
    for number in 0.. {
        let mut lent = fitting.clone();
        match faults::wrong_slice(&mut lent, number, rng) {
            Some(_) => all.push(lent),
            None => break,
        }
    }
    all
}

/// The text with some fact broken, if that one can be.
fn with_bad_state(judge: &mut Judge, text: &Fields) -> Option<Vec<u8>> {
    let (_, apply) = judge.rng.pick(STATES);
    let mut broken = text.clone();
    apply(&mut broken, &mut judge.rng).map(|()| broken.text())
}

/// The text with a first clause of a code that is none.
fn with_bad_clause(text: &Fields) -> Vec<u8> {
    let mut text = text.clone();
    let code = 2 * text.n();
    text.0.insert(1, Line { letter: "c".into(), fields: vec![code.to_string()] });
    text.text()
}

/// Damages a good text in every way.
pub fn damage<M: Mode>(judge: &mut Judge, text: &[u8]) -> Outcome<()> {
    let good = Fields::of(text);
    for (name, apply) in FORMS {
        let mut broken = good.clone();
        if apply(&mut broken, &mut judge.rng).is_some() {
            *judge.tally.forms.entry(name).or_default() += 1;
            judge.must_get::<M>(SAVED, name, &broken.text())?;
        }
    }
    for (fact, apply) in STATES {
        let mut broken = good.clone();
        if apply(&mut broken, &mut judge.rng).is_some() {
            *judge.tally.facts.entry(fact).or_default() += 1;
            judge.must_get::<M>(STATE, fact, &broken.text())?;
            // a bad clause comes before a bad state, and a lost form before both
            let worse = with_bad_clause(&broken);
            judge.must_get::<M>(CLAUSES, fact, &worse)?;
            judge.must_get::<M>(SAVED, fact, &worse[..worse.len() - 1])?;
        }
    }
    judge.must_get::<M>(SAVED, "no newline at the end", &text[..text.len() - 1])?;
    judge.must_get::<M>(SAVED, "nothing", b"")?;
    if text.len() <= SHORT {
        for text in forms::byte_by_byte(text) {
            judge.read_fitting::<M>(&text)?;
        }
    }
    random_damage::<M>(judge, text)
}

/// Changes some bytes anywhere: both must agree on what is left.
fn random_damage<M: Mode>(judge: &mut Judge, text: &[u8]) -> Outcome<()> {
    for _ in 0..30 {
        let mut text = text.to_vec();
        for _ in 0..1 + judge.rng.below(2) {
            let place = judge.rng.below(text.len());
            match judge.rng.below(4) {
                0 => drop(text.remove(place)),
                1 => text.insert(place, judge.rng.pick(b"\t\n0123456789abcdefghklnoqrstvwx-")),
                // another digit, so that the form often stays
                _ if text[place].is_ascii_digit() => text[place] = judge.rng.pick(b"0123456789"),
                _ => text[place] = judge.rng.pick(b"\t\n01289abcdf-"),
            }
        }
        judge.read_fitting::<M>(&text)?;
    }
    Ok(())
}

/// A text of one mode is none of the other's.
pub fn other_mode(judge: &mut Judge, text: &[u8]) -> Outcome<()> {
    let is_list = Fields::of(text).line('v').is_some();
    if is_list {
        judge.must_get::<HeapMemory>(SAVED, "a list's text for a heap", text)
    } else {
        judge.must_get::<ListMemory>(SAVED, "a heap's text for a list", text)
    }
}
