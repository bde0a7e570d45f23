//! Ways to break a fact of a good state in a text, each by the name of the fact; then the text gets 7. A way says no where the text has not
//! what it needs.

use crate::fields::{bits, double, number, Fields};
use reference::generator::Rng;

/// How a good text is changed, behind the fact that no longer holds.
pub type State = (&'static str, fn(&mut Fields, &mut Rng) -> Option<()>);

const CODES: &str = "a code on line t is below 2N";
const ONCE: &str = "no variable is on line t twice";
const FIRST_LEVEL: &str = "the first level is 0 or 1";
const LEVELS: &str = "a further level is that before it or one more";
const REASONS: &str = "a reason is none or the number of a clause";
const CURR_I: &str = "curr_i is not above the number of codes on line t";
const MEMBERS: &str = "members are below N";
const MEMBER_ONCE: &str = "no member is there twice";
const OPEN: &str = "each variable that is on and not on the trail is a member";
const ORDER: &str = "a member's activity is not above its parent's";
const ACTIVITY_SIGN: &str = "activities have no sign bit";
const ACTIVITY_NAN: &str = "activities are no NaN";
const ACTIVITY_LIMIT: &str = "activities are at most 1e101";
const STEP_SIGN: &str = "the step has no sign bit";
const STEP_NAN: &str = "the step is no NaN";
const STEP_LIMIT: &str = "the step is at most 1e200";
const DECAY_LOW: &str = "the decay is at least 0.5";
const DECAY_HIGH: &str = "the decay is at most 1";
const DECAY_NAN: &str = "the decay is no NaN";
const LIST_ONCE: &str = "each variable stands once on line v";
const LIST_BELOW: &str = "variables on line v are below N";
const STAMPS: &str = "stamps fall strictly";
const TIMESTAMP: &str = "the timestamp is above the first stamp";
const SEARCH: &str = "the place to search is none or below N";

pub const STATES: &[State] = &[
    (CODES, |text, rng| {
        let n = text.n() as u64;
        let code = rng.pick(&[2 * n, 2 * n + 1, u64::from(u32::MAX), 1 << 31]);
        set_some(text, 't', code.to_string(), rng)
    }),
    (ONCE, |text, rng| {
        let codes = text.line('t')?;
        let (from, to) = two(codes.len(), rng)?;
        codes[to] = (number(&codes[from]) ^ rng.below(2) as u64).to_string();
        Some(())
    }),
    (ONCE, |text, _| {
        // a trail of more variables than there are
        for letter in ['t', 'l', 'r'] {
            let last = text.line(letter)?.last()?.clone();
            text.line(letter)?.push(last);
        }
        Some(())
    }),
    (FIRST_LEVEL, |text, rng| {
        let levels = text.line('l')?;
        let more = rng.pick(&[2, 3, u64::from(u32::MAX) - number(levels.last()?)]) - number(levels.first()?);
        levels.iter_mut().for_each(|level| *level = (number(level) + more).to_string());
        Some(())
    }),
    (LEVELS, |text, rng| {
        // all from a place on are one level too high or too low
        let levels = text.line('l')?;
        let place = 1 + rng.below(levels.len().checked_sub(1).filter(|&behind| behind > 0)?);
        let (before, here) = (number(&levels[place - 1]), number(&levels[place]));
        let other = if rng.chance(1, 2) { before + 2 } else { before.checked_sub(1)? };
        for level in &mut levels[place..] {
            *level = (number(level) + other - here).to_string();
        }
        Some(())
    }),
    (REASONS, |text, rng| {
        let clauses = text.clauses() as u64;
        let reason = rng.pick(&[clauses, clauses + 1, u64::from(u32::MAX) - 1]);
        set_some(text, 'r', reason.to_string(), rng)
    }),
    (CURR_I, |text, rng| {
        let len = text.line('t')?.len() as u64;
        let behind = rng.pick(&[len + 1, len + 7, u64::from(u32::MAX)]);
        set_some(text, 'q', behind.to_string(), rng)
    }),
    (MEMBERS, |text, rng| {
        let n = text.n() as u64;
        // behind the others, where nothing else is broken
        text.line('h')?.push(rng.pick(&[n, n + 1, u64::from(u32::MAX), u64::from(u32::MAX) - 1]).to_string());
        Some(())
    }),
    (MEMBERS, |text, rng| {
        let n = text.n();
        set_some(text, 'h', n.to_string(), rng)
    }),
    (MEMBER_ONCE, |text, _| {
        // below itself, where the order holds
        let members = text.line('h')?;
        let parent = members.get(members.len().checked_sub(1)? / 2)?.clone();
        members.push(parent);
        Some(())
    }),
    (OPEN, |text, _| {
        let last = number(text.line('h')?.last()?);
        let is_off = text.line('o')?[last as usize] == "0";
        let is_assigned = text.line('t')?.iter().any(|code| number(code) / 2 == last);
        text.line('h')?.pop();
        Some(()).filter(|()| !is_off && !is_assigned)
    }),
    (OPEN, |text, rng| {
        let n = text.n();
        let (members, codes) = (text.line('h')?.clone(), text.line('t')?.clone());
        let is_out = |var: &u64| members.iter().all(|member| number(member) != *var) && codes.iter().all(|code| number(code) / 2 != *var);
        let out: Vec<u64> = (0..n as u64).filter(is_out).collect();
        let var = *out.get(rng.below(out.len()))?;
        text.line('o')?[var as usize] = "1".into();
        Some(())
    }),
    (ORDER, |text, rng| {
        let members = text.line('h')?.clone();
        let place = 1 + rng.below(members.len().checked_sub(1).filter(|&children| children > 0)?);
        let (child, parent) = (number(&members[place]) as usize, number(&members[(place - 1) / 2]) as usize);
        let activity = text.line('a')?;
        let above = double(&activity[parent]).next_up();
        activity[child] = bits(above);
        Some(()).filter(|()| above <= 1e101)
    }),
    (ACTIVITY_SIGN, |text, rng| set_some(text, 'a', bits(rng.pick(&[-0.0, -5e-324, -1.0, -1e101])), rng)),
    (ACTIVITY_NAN, |text, rng| set_some(text, 'a', rng.pick(&["7ff8000000000000", "7ff0000000000001", "7fffffffffffffff"]).into(), rng)),
    (ACTIVITY_LIMIT, |text, rng| {
        // at the top, where the order holds, or where there is no member
        let top = text.line('h')?.first().map_or(0, |top| number(top)) as usize;
        let field = text.line('a')?.get_mut(top)?;
        *field = rng.pick(&["54e6dc186ef9f45d", "7ff0000000000000", "7fefffffffffffff"]).into();
        Some(())
    }),
    (STEP_SIGN, |text, rng| set(text, 'w', 0, bits(rng.pick(&[-0.0, -5e-324, -1.0])))),
    (STEP_NAN, |text, rng| set(text, 'w', 0, rng.pick(&["7ff8000000000000", "7ff0000000000001", "fff8000000000000"]).into())),
    (STEP_LIMIT, |text, rng| set(text, 'w', 0, rng.pick(&["6974e718d7d7625b", "7ff0000000000000", "7fefffffffffffff"]).into())),
    (DECAY_LOW, |text, rng| set(text, 'w', 1, bits(rng.pick(&[0.5_f64.next_down(), 0.0, -0.75, -1.0, 5e-324, f64::NEG_INFINITY])))),
    (DECAY_HIGH, |text, rng| set(text, 'w', 1, bits(rng.pick(&[1.0_f64.next_up(), 2.0, f64::INFINITY])))),
    (DECAY_NAN, |text, rng| set(text, 'w', 1, rng.pick(&["7ff8000000000000", "7ff0000000000001", "ffffffffffffffff"]).into())),
    (LIST_ONCE, |text, rng| {
        let list = text.line('v')?;
        let (from, to) = two(list.len(), rng)?;
        list[to] = list[from].clone();
        Some(())
    }),
    (LIST_BELOW, |text, rng| {
        let n = text.n() as u64;
        let var = rng.pick(&[n, n + 1, u64::from(u32::MAX), u64::from(u32::MAX) - 1]);
        set_some(text, 'v', var.to_string(), rng)
    }),
    (STAMPS, |text, rng| {
        let stamps = text.line('s')?;
        let place = rng.below(stamps.len().checked_sub(1).filter(|&pairs| pairs > 0)?);
        if rng.chance(1, 2) {
            stamps[place + 1] = stamps[place].clone();
        } else {
            stamps.swap(place, place + 1);
        }
        Some(())
    }),
    (TIMESTAMP, |text, rng| {
        let first = number(text.line('s')?.first()?);
        let stamp = rng.pick(&[first, first.saturating_sub(1), 0]);
        set(text, 'k', 0, stamp.to_string())
    }),
    (TIMESTAMP, |text, rng| {
        let timestamp = number(&text.line('k')?[0]);
        let stamp = rng.pick(&[timestamp, timestamp.saturating_add(1), u64::MAX]);
        set(text, 's', 0, stamp.to_string())
    }),
    (SEARCH, |text, rng| {
        let n = text.n() as u64;
        set(text, 'f', 0, rng.pick(&[n, n + 1, u64::from(u32::MAX) - 1]).to_string())
    }),
];

fn set(text: &mut Fields, letter: char, place: usize, field: String) -> Option<()> {
    *text.line(letter)?.get_mut(place)? = field;
    Some(())
}

/// Sets one of the fields of a line.
fn set_some(text: &mut Fields, letter: char, field: String, rng: &mut Rng) -> Option<()> {
    let place = rng.below(text.line(letter)?.len());
    set(text, letter, place, field)
}

/// Two different numbers below a bound.
fn two(bound: usize, rng: &mut Rng) -> Option<(usize, usize)> {
    let one = rng.below(Some(bound).filter(|&bound| bound > 1)?);
    Some((one, (one + 1 + rng.below(bound - 1)) % bound))
}
