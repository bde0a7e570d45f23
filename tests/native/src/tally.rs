use crate::memory::List;
use reference::native::{ANSWER_WORDS, CALL_WORDS, MAX_GROUP};
use std::{collections::BTreeMap, fmt};

const STATUSES: usize = 15;

/// What was compared so far.
#[derive(Default)]
pub struct Tally {
    pub rounds: u64,
    pub fresh: [u64; STATUSES],
    pub lists: [u64; STATUSES],
    pub calls: [u64; STATUSES],
    pub words: u64,
    /// Groups of just as many variables as may be, and groups of one more.
    pub longest_groups: [u64; 2],
    /// Lists lent with clauses among which a reason of the state is no more.
    pub lost_reasons: u64,
    /// How often each set of refusals was due at once, on lists and on creations.
    pub at_once: BTreeMap<String, u64>,
    /// Lists on which activities were scaled or stamps begun anew.
    pub over_limit: BTreeMap<&'static str, u64>,
    /// How often each fault and each breaker was tried.
    pub faults: BTreeMap<String, u64>,
    pub breakers: BTreeMap<String, u64>,
    /// How often each fact was broken, and how often no other was.
    pub facts: BTreeMap<String, (u64, u64)>,
}

impl Tally {
    /// Counts the calls of an accepted list by their answers.
    pub fn add_calls(&mut self, list: &List) {
        for (call, answer) in list.calls.chunks_exact(CALL_WORDS).zip(list.answers.chunks_exact(ANSWER_WORDS)) {
            self.calls[answer[0] as usize] += 1;
            let is_group = call[0] == u32::from(b'f');
            let does_lie = call[1] as usize + call[2] as usize <= list.vars.len();
            let over = (call[2] as usize).wrapping_sub(MAX_GROUP);
            if is_group && does_lie && over < self.longest_groups.len() {
                self.longest_groups[over] += 1;
            }
        }
    }

    pub fn count(counts: &mut BTreeMap<String, u64>, name: String) {
        *counts.entry(name).or_default() += 1;
    }

    pub fn add_facts(&mut self, mode: &str, facts: &[&'static str]) {
        for fact in facts {
            let (broken, alone) = self.facts.entry(format!("{mode}: {fact}")).or_default();
            *broken += 1;
            *alone += u64::from(facts.len() == 1);
        }
    }

    /// What a whole run must have met and has not.
    pub fn missing(&self, faults: &[String], breakers: &[String], modes: &[&'static str]) -> Vec<String> {
        let mut missing = Vec::new();
        let mut need = |met: bool, what: String| {
            if !met {
                missing.push(what);
            }
        };
        for status in [0, 4, 5, 6] {
            need(self.fresh[status] > 0, format!("creation with status {status}"));
        }
        for status in [0, 4, 5, 6, 7] {
            need(self.lists[status] > 0, format!("list with status {status}"));
        }
        for status in [0, 3, 8, 9, 10, 11, 12, 13, 14] {
            need(self.calls[status] > 0, format!("call with status {status}"));
        }
        need(self.longest_groups.iter().all(|&groups| groups > 0), "groups of 2,048 and 2,049".into());
        need(self.lost_reasons > 0, "clauses without a state's reason".into());
        for sum in 3..16 {
            let due: Vec<u32> = (4..=7).filter(|status| sum >> (status - 4) & 1 == 1).collect();
            if due.len() > 1 {
                need(self.at_once.contains_key(&format!("list {due:?}")), format!("at once {due:?}"));
            }
        }
        for mode in modes {
            need(self.over_limit.contains_key(mode), format!("{mode} over its limit"));
        }
        for fault in faults {
            need(self.faults.contains_key(fault), format!("fault {fault}"));
        }
        for breaker in breakers {
            need(self.breakers.contains_key(breaker), format!("breaker {breaker}"));
        }
        for (fact, (_, alone)) in &self.facts {
            need(*alone > 0 || fact.ends_with("are literals") || fact.ends_with("are variables"), format!("alone broken {fact}"));
        }
        missing
    }
}

fn statuses(counts: &[u64]) -> String {
    let counted = counts.iter().enumerate().filter(|(_, &count)| count > 0);
    counted.map(|(status, count)| format!(" {status}: {count}")).collect()
}

impl fmt::Display for Tally {
    fn fmt(&self, f: &mut fmt::Formatter<'_>) -> fmt::Result {
        let sum = |counts: &[u64]| counts.iter().sum::<u64>();
        let (fresh, lists, calls) = (sum(&self.fresh), sum(&self.lists), sum(&self.calls));
        writeln!(f, "{} sessions, {fresh} creations, {lists} lists, {calls} calls, {} words of memory compared", self.rounds, self.words)?;
        writeln!(f, "creations by status:{}", statuses(&self.fresh))?;
        writeln!(f, "lists by status:{}", statuses(&self.lists))?;
        let [longest, longer] = self.longest_groups;
        writeln!(f, "calls by status:{}; {longest} groups of {MAX_GROUP} and {longer} of one more", statuses(&self.calls))?;
        let limits: Vec<String> = self.over_limit.iter().map(|(mode, count)| format!("{count} in {mode} mode")).collect();
        writeln!(f, "lists over a scaling or over the end of the stamps: {}", limits.join(", "))?;
        let (faults, tried, sets) = (self.faults.len(), self.faults.values().sum::<u64>(), self.at_once.len());
        writeln!(
            f,
            "{faults} kinds of faults, tried {tried} times; {sets} sets of refusals due at once; {} lists without a reason's clause",
            self.lost_reasons
        )?;
        let facts = self.facts.values();
        let alone = facts.clone().filter(|(_, alone)| *alone > 0).count();
        write!(
            f,
            "{} ways to break a state, tried {} times, the rarest {} times; {} facts broken, {alone} of them alone",
            self.breakers.len(),
            self.breakers.values().sum::<u64>(),
            self.breakers.values().min().unwrap_or(&0),
            facts.len(),
        )
    }
}
