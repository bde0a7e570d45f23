//! Ways to break a good state, each by the name of the fact that no longer holds. A breaker says no where the state has not what it needs.

use crate::{memory::Parts, random::link};
use reference::{
    generator::Rng,
    native::{HeapMemory, Lent, ListMemory, TrailMemory, NONE},
};

const UNASSIGNED: u8 = 2;

/// A breaker: its name, the fact that it breaks, and how.
pub type Breaker<M> = (&'static str, &'static str, fn(&mut M, Lent, &mut Rng) -> Option<()>);

/// A mode with its breakers.
pub trait Breakable: Parts + 'static {
    fn breakers() -> &'static [Breaker<Self>];
}

pub const TRAIL: &[Breaker<TrailMemory>] = &[
    ("an unassigned variable's value is none", "values are 0, 1 or 2", |t, _, rng| {
        let var = unassigned(t, rng)?;
        set(&mut t.values, var, other_byte(rng))
    }),
    ("an assigned variable's value is none", "values are 0, 1 or 2", |t, _, rng| {
        let (_, var) = assigned(t, rng)?;
        set(&mut t.values, var, other_byte(rng))
    }),
    ("a trail longer than its places", "the trail fits its places", |t, lent, rng| put(&mut t.len, beyond(lent.n, rng))),
    ("more opened levels than places", "the opened levels fit their places", |t, lent, rng| put(&mut t.level, beyond(lent.n, rng))),
    ("curr_i behind the trail", "curr_i is at most the trail's length", |t, _, rng| {
        let behind = beyond(t.len as usize, rng);
        put(&mut t.curr_i, behind)
    }),
    ("a code that is no literal", "trail codes are literals", |t, lent, rng| {
        let (place, _) = assigned(t, rng)?;
        set(&mut t.trail, place, rng.pick(&[2 * lent.n as u32, 2 * lent.n as u32 + 1, NONE, NONE - 1]))
    }),
    ("a code of the other sign", "trail codes agree with the values", |t, _, rng| {
        let (place, _) = assigned(t, rng)?;
        let code = t.trail[place] ^ 1;
        set(&mut t.trail, place, code)
    }),
    ("a value of the other sign", "trail codes agree with the values", |t, _, rng| {
        let (_, var) = assigned(t, rng)?;
        let value = t.values[var] ^ 1;
        set(&mut t.values, var, value)
    }),
    ("a variable on the trail without a value", "trail codes agree with the values", |t, _, rng| {
        let (_, var) = assigned(t, rng)?;
        unassign(t, var)
    }),
    ("a variable in the place of another of its level", "no variable is on the trail twice", |t, _, rng| {
        let (place, var) = assigned(t, rng)?;
        let other = (0..t.len as usize).find(|&p| p != place && t.levels[variable(t.trail[p])] == t.levels[var])?;
        unassign(t, variable(t.trail[other]))?;
        let code = t.trail[place];
        set(&mut t.trail, other, code)
    }),
    ("a variable of the present level once more behind the trail", "no variable is on the trail twice", |t, _, rng| {
        let (_, var) = assigned(t, rng).filter(|&(_, var)| t.levels[var] == t.level)?;
        let place = free(&t.trail, t.len)?;
        t.len += 1;
        let code = 2 * var as u32 + u32::from(t.values[var]);
        set(&mut t.trail, place, code)
    }),
    ("a value for a variable that is not on the trail", "each assigned variable is on the trail", |t, _, rng| {
        let var = unassigned(t, rng)?;
        set(&mut t.values, var, rng.below(2) as u8)
    }),
    ("the last variable off the trail, its value kept", "each assigned variable is on the trail", |t, _, _| {
        let place = t.len.checked_sub(1)?;
        t.len = place;
        t.curr_i = t.curr_i.min(place);
        if t.level > 0 && t.opened[t.level as usize - 1] == place {
            t.level -= 1;
            t.opened[t.level as usize] = NONE;
        }
        set(&mut t.trail, place as usize, NONE)
    }),
    ("two opened levels in each other's places", "opened levels rise strictly", |t, _, rng| {
        let place = rng.below((t.level as usize).checked_sub(1).filter(|&pairs| pairs > 0)?);
        t.opened.swap(place, place + 1);
        Some(())
    }),
    ("a level opened twice at a place", "opened levels rise strictly", |t, _, rng| {
        let end = free(&t.opened, t.level).filter(|&end| end > 0)?;
        let level = rng.below(end);
        t.opened.copy_within(level..end, level + 1);
        t.level += 1;
        relevel(t)
    }),
    ("a level opened behind the trail", "opened levels lie below the trail's length", |t, _, rng| {
        let place = free(&t.opened, t.level)?;
        t.level += 1;
        let behind = if rng.chance(1, 2) { t.len } else { beyond(t.len as usize, rng) };
        set(&mut t.opened, place, behind)
    }),
    ("another level for a trail variable", LEVELS, |t, _, rng| {
        let (_, var) = assigned(t, rng)?;
        let level = t.levels[var];
        set(&mut t.levels, var, rng.pick(&[level + 1, level.wrapping_sub(1), NONE, level + 2]))
    }),
    ("a level opened a place later", LEVELS, |t, _, rng| {
        let level = rng.below(Some(t.level as usize).filter(|&level| level > 0)?);
        let next = t.levels_opened().get(level + 1).copied().unwrap_or(t.len);
        let later = Some(t.opened[level] + 1).filter(|&later| later < next)?;
        set(&mut t.opened, level, later)
    }),
    ("a level opened a place earlier", LEVELS, |t, _, rng| {
        let level = rng.below(Some(t.level as usize).filter(|&level| level > 0)?);
        let least = if level == 0 { 0 } else { t.opened[level - 1] + 1 };
        let earlier = t.opened[level].checked_sub(1).filter(|&earlier| earlier >= least)?;
        set(&mut t.opened, level, earlier)
    }),
    ("a level that nothing opened", LEVELS, |t, _, rng| {
        let level = rng.below(Some(t.level as usize).filter(|&level| level > 0)?);
        t.opened.remove(level);
        t.opened.push(NONE);
        t.level -= 1;
        Some(())
    }),
    ("a reason for an unassigned variable", "an unassigned variable has no reason", |t, lent, rng| {
        let var = unassigned(t, rng).filter(|_| lent.clauses > 0)?;
        set(&mut t.reasons, var, rng.below(lent.clauses) as u32)
    }),
    ("a reason that is no clause", "reasons are clauses or NONE", |t, lent, rng| {
        let (_, var) = assigned(t, rng)?;
        set(&mut t.reasons, var, not_none(lent.clauses as u32, rng))
    }),
    ("a word behind the trail", "unused places of the trail are NONE", |t, _, rng| {
        let place = free(&t.trail, t.len)?;
        let place = place + rng.below(t.trail.len() - place);
        set(&mut t.trail, place, rng.pick(&[0, 1, place as u32, NONE - 1]))
    }),
    ("a word behind the opened levels", "unused places of the opened levels are NONE", |t, _, rng| {
        let place = free(&t.opened, t.level)?;
        let place = place + rng.below(t.opened.len() - place);
        set(&mut t.opened, place, rng.pick(&[0, t.len, place as u32, NONE - 1]))
    }),
];

const LEVELS: &str = "the level of a trail variable is the number of levels opened up to its place";

const HEAP: &[Breaker<HeapMemory>] = &[
    ("more members than places", "the members fit their places", |h, lent, rng| put(&mut h.members, beyond(lent.n, rng))),
    ("a member that is no variable", "members are variables", |h, lent, rng| {
        let (place, _) = member(h, rng)?;
        set(&mut h.heap, place, rng.pick(&[lent.n as u32, lent.n as u32 + 1, NONE, NONE - 1]))
    }),
    ("two members in each other's places", PLACE, |h, _, rng| {
        let ((place, _), (other, _)) = (member(h, rng)?, member(h, rng)?);
        h.heap.swap(place, other);
        Some(()).filter(|()| place != other)
    }),
    ("a member once more, below itself", PLACE, |h, _, _| {
        let place = free(&h.heap, h.members).filter(|&place| place > 0)?;
        h.members += 1;
        let var = h.heap[(place - 1) / 2];
        set(&mut h.heap, place, var)
    }),
    ("a member without a position", PLACE, |h, _, rng| {
        let (_, var) = member(h, rng)?;
        set(&mut h.indices, var, NONE)
    }),
    ("two positions in each other's places", POSITION, |h, _, rng| {
        let ((_, var), (_, other)) = (member(h, rng)?, member(h, rng)?);
        h.indices.swap(var, other);
        Some(()).filter(|()| var != other)
    }),
    ("another's position", POSITION, |h, _, rng| {
        let var = no_member(h, rng)?;
        let (place, _) = member(h, rng)?;
        set(&mut h.indices, var, place as u32)
    }),
    ("a position behind the members", POSITION, |h, _, rng| {
        let var = no_member(h, rng)?;
        let behind = h.members + rng.below(3) as u32;
        set(&mut h.indices, var, behind)
    }),
    ("the last member taken off, its position kept", POSITION, |h, _, _| {
        let place = h.members.checked_sub(1)?;
        h.members = place;
        set(&mut h.heap, place as usize, NONE)
    }),
    ("a word behind the members", "unused places of the heap are NONE", |h, _, rng| {
        let place = free(&h.heap, h.members)?;
        let place = place + rng.below(h.heap.len() - place);
        set(&mut h.heap, place, rng.pick(&[0, place as u32, NONE - 1]))
    }),
    ("a child just above its parent", "a parent's activity is no lower", |h, _, rng| {
        let (place, var) = member(h, rng).filter(|&(place, _)| place > 0)?;
        let parent = h.activity[h.heap[(place - 1) / 2] as usize];
        set(&mut h.activity, var, Some(parent.next_up()).filter(|&above| above <= 1e101)?)
    }),
    ("a parent just below its child", "a parent's activity is no lower", |h, _, rng| {
        let (place, var) = member(h, rng).filter(|&(place, _)| place > 0)?;
        let child = Some(h.activity[var]).filter(|&child| child > 0.0)?;
        let parent = h.heap[(place - 1) / 2] as usize;
        set(&mut h.activity, parent, child.next_down())
    }),
    ("an activity with a sign", ACTIVITY, |h, lent, rng| {
        let var = any(lent.n, rng)?;
        set(&mut h.activity, var, rng.pick(&[-0.0, -5e-324, -1.0, -1e101, f64::NEG_INFINITY]))
    }),
    ("an activity that is not a number", ACTIVITY, |h, lent, rng| {
        let var = any(lent.n, rng)?;
        set(&mut h.activity, var, rng.pick(&[f64::NAN, -f64::NAN]))
    }),
    ("an activity above 1e101", ACTIVITY, |h, lent, rng| {
        // at the top, or where nothing stands above it
        let var = no_member(h, rng).or_else(|| h.in_heap().first().map(|&top| top as usize)).filter(|_| lent.n > 0)?;
        set(&mut h.activity, var, rng.pick(&[1e101_f64.next_up(), 1e102, f64::MAX, f64::INFINITY]))
    }),
    ("a step with a sign", STEP, |h, _, rng| put(&mut h.inc, rng.pick(&[-0.0, -1.0, -5e-324]))),
    ("a step that is not a number", STEP, |h, _, rng| put(&mut h.inc, rng.pick(&[f64::NAN, -f64::NAN]))),
    ("a step above 1e200", STEP, |h, _, rng| put(&mut h.inc, rng.pick(&[1e200_f64.next_up(), 1e201, f64::INFINITY]))),
    ("a decay below 0.5", DECAY, |h, _, rng| put(&mut h.decay, rng.pick(&[0.5_f64.next_down(), 0.0, -0.75, -1.0]))),
    ("a decay above 1", DECAY, |h, _, rng| put(&mut h.decay, rng.pick(&[1.0_f64.next_up(), 2.0, f64::INFINITY]))),
    ("a decay that is not a number", DECAY, |h, _, rng| put(&mut h.decay, rng.pick(&[f64::NAN, -f64::NAN]))),
    ("another switch", "switches are 0 or 1", |h, lent, rng| {
        let var = any(lent.n, rng)?;
        set(&mut h.decision, var, 2 + rng.below(254) as u8)
    }),
    ("an open variable taken out of the heap", OPEN, |h, _, _| {
        let place = h.members.checked_sub(1)? as usize;
        let var = Some(h.heap[place] as usize).filter(|&var| h.decision[var] == 1 && !h.trail.is_assigned(var))?;
        h.members -= 1;
        h.heap[place] = NONE;
        set(&mut h.indices, var, NONE)
    }),
    ("an unassigned variable switched on outside the heap", OPEN, |h, lent, rng| {
        let var = pick(lent.n, rng, |var| h.indices[var] == NONE && !h.trail.is_assigned(var))?;
        set(&mut h.decision, var, 1)
    }),
];

const PLACE: &str = "a member's position is its place";
const POSITION: &str = "a position that is not NONE is the variable's place";
const ACTIVITY: &str = "activities have no sign and are at most 1e101";
const STEP: &str = "the step has no sign and is at most 1e200";
const DECAY: &str = "the decay is from 0.5 to 1";
const OPEN: &str = "each switched-on, unassigned variable is a member";

const LIST: &[Breaker<ListMemory>] = &[
    ("no front", FRONT, |l, lent, _| put(&mut l.start, NONE).filter(|()| lent.n > 0)),
    ("a front that is no variable", FRONT, |l, lent, rng| put(&mut l.start, not_none(lent.n as u32, rng))),
    ("another front", ONCE, |l, lent, rng| {
        let var = pick(lent.n, rng, |var| var as u32 != l.start)?;
        put(&mut l.start, var as u32)
    }),
    ("a last variable with a next", "the list ends behind its last variable", |l, lent, rng| {
        let last = *l.order().last()?;
        let next = if rng.chance(1, 2) { rng.below(lent.n) as u32 } else { not_none(lent.n as u32, rng) };
        set(&mut l.next, last, next)
    }),
    ("a variable left out", ONCE, |l, lent, rng| {
        let order = l.order();
        let left_out = rng.below(lent.n);
        let var = order.get(left_out).copied().filter(|_| lent.n > 1)?;
        let (next, prev) = (l.next[var], l.prev[var]);
        match l.next.get_mut(prev as usize) {
            Some(link) => *link = next,
            None => l.start = next,
        }
        if let Some(link) = l.prev.get_mut(next as usize) {
            *link = prev;
        }
        Some(())
    }),
    ("a list that breaks off", ONCE, |l, lent, rng| {
        let var = pick(lent.n, rng, |var| l.next[var] != NONE)?;
        set(&mut l.next, var, if rng.chance(1, 2) { NONE } else { not_none(lent.n as u32, rng) })
    }),
    ("a list that goes round", ONCE, |l, lent, rng| {
        let order = l.order();
        let from = 1 + rng.below(lent.n.checked_sub(2).filter(|&inner| inner > 0)?);
        let to = rng.below(from + 1);
        set(&mut l.next, order[from], order[to] as u32)
    }),
    ("something before the front", "nothing stands before the front", |l, lent, rng| {
        let front = *l.order().first()?;
        let prev = if rng.chance(1, 2) { rng.below(lent.n) as u32 } else { not_none(lent.n as u32, rng) };
        set(&mut l.prev, front, prev)
    }),
    ("another link back", "links agree both ways", |l, lent, rng| {
        let var = pick(lent.n, rng, |var| l.prev[var] != NONE)?;
        let other = pick(lent.n, rng, |other| l.prev[var] != other as u32).map_or(NONE, |other| other as u32);
        set(&mut l.prev, var, rng.pick(&[other, NONE, lent.n as u32]))
    }),
    ("two equal stamps", STAMPS, |l, lent, rng| {
        let var = pick(lent.n, rng, |var| l.next[var] != NONE)?;
        let next = l.next[var] as usize;
        let stamp = l.ts[next];
        set(&mut l.ts, var, stamp)
    }),
    ("two stamps in each other's places", STAMPS, |l, lent, rng| {
        let var = pick(lent.n, rng, |var| l.next[var] != NONE)?;
        let next = l.next[var] as usize;
        l.ts.swap(var, next);
        Some(())
    }),
    ("a variable moved with its stamp kept", STAMPS, |l, lent, rng| {
        let mut order = l.order();
        let from = 1 + rng.below(lent.n.checked_sub(1).filter(|&behind| behind > 0)?);
        order[..=from].rotate_right(1);
        link(l, &order);
        Some(())
    }),
    ("a timestamp that is not above the front's", TIMESTAMP, |l, _, rng| {
        let greatest = l.ts.iter().copied().max()?;
        put(&mut l.timestamp, rng.pick(&[greatest, greatest.saturating_sub(1), 0]))
    }),
    ("a front's stamp that is not below the timestamp", TIMESTAMP, |l, _, rng| {
        let front = *l.order().first()?;
        let stamp = rng.pick(&[l.timestamp, l.timestamp.saturating_add(1), u64::MAX]);
        set(&mut l.ts, front, stamp)
    }),
    ("a search that is no variable", "search is a variable or NONE", |l, lent, rng| put(&mut l.search, not_none(lent.n as u32, rng))),
];

const FRONT: &str = "the front is a variable, or NONE where there is none";
const ONCE: &str = "each variable stands in the list once";
const STAMPS: &str = "stamps fall strictly from the front";
const TIMESTAMP: &str = "the timestamp is above every stamp";

impl Breakable for HeapMemory {
    fn breakers() -> &'static [Breaker<Self>] {
        HEAP
    }
}

impl Breakable for ListMemory {
    fn breakers() -> &'static [Breaker<Self>] {
        LIST
    }
}

fn set<T>(slice: &mut [T], place: usize, word: T) -> Option<()> {
    slice[place] = word;
    Some(())
}

fn put<T>(number: &mut T, word: T) -> Option<()> {
    *number = word;
    Some(())
}

fn variable(code: u32) -> usize {
    (code / 2) as usize
}

/// A number above a bound.
fn beyond(bound: usize, rng: &mut Rng) -> u32 {
    let bound = bound as u32;
    rng.pick(&[bound + 1, bound + 2, 2 * bound + 3, 1 << 31, NONE])
}

/// A number that is not below a bound and not NONE.
fn not_none(bound: u32, rng: &mut Rng) -> u32 {
    rng.pick(&[bound, bound + 1, 2 * bound + 2, 1 << 31, NONE - 1])
}

/// A byte that is no value.
fn other_byte(rng: &mut Rng) -> u8 {
    3 + rng.below(253) as u8
}

/// A number below a bound for which a test holds.
fn pick(bound: usize, rng: &mut Rng, test: impl Fn(usize) -> bool) -> Option<usize> {
    let from = rng.below(bound);
    (from..bound).chain(0..from).find(|&number| test(number))
}

fn any(n: usize, rng: &mut Rng) -> Option<usize> {
    pick(n, rng, |_| true)
}

fn unassigned(t: &TrailMemory, rng: &mut Rng) -> Option<usize> {
    pick(t.values.len(), rng, |var| t.values[var] == UNASSIGNED)
}

/// A place of the trail, with its variable.
fn assigned(t: &TrailMemory, rng: &mut Rng) -> Option<(usize, usize)> {
    let place = any(t.len as usize, rng)?;
    Some((place, variable(t.trail[place])))
}

fn unassign(t: &mut TrailMemory, var: usize) -> Option<()> {
    t.reasons[var] = NONE;
    set(&mut t.values, var, UNASSIGNED)
}

/// The first place behind those in use.
fn free(places: &[u32], used: u32) -> Option<usize> {
    Some(used as usize).filter(|&place| place < places.len())
}

/// Gives each trail variable the level that the opened levels say.
fn relevel(t: &mut TrailMemory) -> Option<()> {
    for place in 0..t.len {
        let var = variable(t.trail[place as usize]);
        t.levels[var] = t.levels_opened().iter().filter(|&&opened| opened <= place).count() as u32;
    }
    Some(())
}

/// A place of the heap, with its member.
fn member(h: &HeapMemory, rng: &mut Rng) -> Option<(usize, usize)> {
    let place = any(h.members as usize, rng)?;
    Some((place, h.heap[place] as usize))
}

fn no_member(h: &HeapMemory, rng: &mut Rng) -> Option<usize> {
    pick(h.indices.len(), rng, |var| h.indices[var] == NONE)
}
