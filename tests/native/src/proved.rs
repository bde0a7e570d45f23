//! The proved entries on a request.

use crate::{
    ffi,
    guarded::{Guarded, Guards},
    memory::{List, Parts, Request},
};
use reference::native::{Clauses, HeapMemory, ListMemory, TrailMemory};

/// A mode with its proved entries.
pub trait Proved: Parts {
    const NAME: &'static str;

    /// Calls the proved entry; what comes back is in the request. An error says which guard was touched.
    fn proved(request: &mut Request<Self>, guards: Guards) -> Result<u32, String>;
}

/// Clauses and trail while they are lent.
pub struct Common {
    pub lits: Guarded<u32>,
    pub ends: Guarded<u32>,
    pub values: Guarded<u8>,
    pub levels: Guarded<u32>,
    pub reasons: Guarded<u32>,
    pub trail: Guarded<u32>,
    pub opened: Guarded<u32>,
    pub len: Guarded<u32>,
    pub level: Guarded<u32>,
    pub curr_i: Guarded<u32>,
}

impl Common {
    pub fn lend(clauses: &Clauses, trail: &TrailMemory, guards: Guards) -> Self {
        Common {
            lits: guards.lend(&clauses.lits),
            ends: guards.lend(&clauses.ends),
            values: guards.lend(&trail.values),
            levels: guards.lend(&trail.levels),
            reasons: guards.lend(&trail.reasons),
            trail: guards.lend(&trail.trail),
            opened: guards.lend(&trail.opened),
            len: guards.lend_one(trail.len),
            level: guards.lend_one(trail.level),
            curr_i: guards.lend_one(trail.curr_i),
        }
    }

    pub fn back(self, clauses: &mut Clauses, trail: &mut TrailMemory) -> Result<(), String> {
        clauses.lits = self.lits.back("lits")?;
        clauses.ends = self.ends.back("ends")?;
        *trail = TrailMemory {
            values: self.values.back("values")?,
            levels: self.levels.back("levels")?,
            reasons: self.reasons.back("reasons")?,
            trail: self.trail.back("trail")?,
            opened: self.opened.back("opened")?,
            len: self.len.back_one("len")?,
            level: self.level.back_one("level")?,
            curr_i: self.curr_i.back_one("curr_i")?,
        };
        Ok(())
    }
}

/// A list while it is lent.
struct LentList {
    vars: Guarded<u32>,
    calls: Guarded<u32>,
    answers: Guarded<u32>,
}

impl LentList {
    fn lend(list: &List, guards: Guards) -> Self {
        LentList { vars: guards.lend(&list.vars), calls: guards.lend(&list.calls), answers: guards.lend(&list.answers) }
    }

    fn back(self, list: &mut List) -> Result<(), String> {
        *list = List { vars: self.vars.back("vars")?, calls: self.calls.back("calls")?, answers: self.answers.back("answers")? };
        Ok(())
    }
}

/// Calls an entry with clauses and trail, then the chooser's slices, the numbers, and a list where there is one.
macro_rules! call {
    ($entry:path, $request:ident, $common:ident, ($($slice:ident),*), ($($number:ident),*) $(, $list:ident)?) => {
        // SAFETY: each pointer is followed by the length of what it points to, or points to a number; what is written overlaps nothing else.
        unsafe {
            $entry(
                $request.n, $request.clauses.literals, $request.clauses.clauses,
                $common.lits.at(), $common.lits.len(), $common.ends.at(), $common.ends.len(),
                $common.values.at(), $common.values.len(), $common.levels.at(), $common.levels.len(),
                $common.reasons.at(), $common.reasons.len(), $common.trail.at(), $common.trail.len(),
                $common.opened.at(), $common.opened.len(),
                $($slice.at(), $slice.len(),)*
                $common.len.at(), $common.level.at(), $common.curr_i.at(), $($number.at(),)*
                $($list.vars.at(), $list.vars.len(), $list.calls.at(), $list.calls.len(), $list.answers.at(), $list.answers.len(),)?
            )
        }
    };
}

/// The proved entries of a mode, with the chooser's slices and numbers in the order in which they are lent.
macro_rules! mode {
    ($memory:ident, $name:literal, $fresh:path, $calls:path, $slices:tt, ($($slice:ident),*), $numbers:tt, ($($number:ident),*)) => {
        impl Proved for $memory {
            const NAME: &'static str = $name;

            fn proved(request: &mut Request<Self>, guards: Guards) -> Result<u32, String> {
                let mut common = Common::lend(&request.clauses, &request.memory.trail, guards);
                $(let mut $slice = guards.lend(&request.memory.$slice);)*
                $(let mut $number = guards.lend_one(request.memory.$number);)*
                let status = match &mut request.list {
                    None => call!($fresh, request, common, $slices, $numbers),
                    Some(list) => {
                        let mut lent = LentList::lend(list, guards);
                        let status = call!($calls, request, common, $slices, $numbers, lent);
                        lent.back(list)?;
                        status
                    }
                };
                common.back(&mut request.clauses, &mut request.memory.trail)?;
                $(request.memory.$slice = $slice.back(stringify!($slice))?;)*
                $(request.memory.$number = $number.back_one(stringify!($number))?;)*
                Ok(status)
            }
        }
    };
    ($memory:ident, $name:literal, $fresh:path, $calls:path, $slices:tt, $numbers:tt) => {
        mode!($memory, $name, $fresh, $calls, $slices, $slices, $numbers, $numbers);
    };
}

mode!(HeapMemory, "heap", ffi::sigvort_heap_fresh, ffi::sigvort_heap_calls, (activity, heap, indices, decision), (members, inc, decay));
mode!(ListMemory, "list", ffi::sigvort_list_fresh, ffi::sigvort_list_calls, (next, prev, ts), (start, search, timestamp));
