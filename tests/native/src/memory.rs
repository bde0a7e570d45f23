//! The memory of either mode as parts that can be named, compared and damaged, and a request with all that it lends.

use reference::native::{self, Clauses, HeapMemory, ListMemory, Memory, TrailMemory};

/// A word of memory: a byte, a number, a stamp or a double.
pub trait Word: Copy + Default {
    /// The word's bits, all NaNs as one.
    fn bits(self) -> u64;
    fn of(bits: u64) -> Self;
}

macro_rules! numbers {
    ($($kind:ty),*) => {
        $(impl Word for $kind {
            fn bits(self) -> u64 {
                self.into()
            }

            fn of(bits: u64) -> Self {
                bits as $kind
            }
        })*
    };
}

numbers!(u8, u32, u64);

impl Word for f64 {
    fn bits(self) -> u64 {
        self.to_bits()
    }

    fn of(bits: u64) -> Self {
        f64::from_bits(bits)
    }
}

/// A slice of memory, or a number alone.
pub trait Words {
    fn count(&self) -> usize;
    fn bits(&self, place: usize) -> u64;
    fn set(&mut self, place: usize, bits: u64);
    fn is_slice(&self) -> bool;
    /// Gives a slice another length, with 0 in new places; a number alone stays.
    fn resize(&mut self, count: usize);
}

impl<T: Word> Words for Vec<T> {
    fn count(&self) -> usize {
        self.len()
    }

    fn bits(&self, place: usize) -> u64 {
        self[place].bits()
    }

    fn set(&mut self, place: usize, bits: u64) {
        self[place] = T::of(bits);
    }

    fn is_slice(&self) -> bool {
        true
    }

    fn resize(&mut self, count: usize) {
        Vec::resize(self, count, T::default());
    }
}

impl<T: Word> Words for T {
    fn count(&self) -> usize {
        1
    }

    fn bits(&self, _place: usize) -> u64 {
        Word::bits(*self)
    }

    fn set(&mut self, _place: usize, bits: u64) {
        *self = T::of(bits);
    }

    fn is_slice(&self) -> bool {
        false
    }

    fn resize(&mut self, _count: usize) {}
}

/// A part of memory by its name.
pub type Part<'a> = (&'static str, &'a mut dyn Words);

fn trail_parts(trail: &mut TrailMemory) -> [Part<'_>; 8] {
    let TrailMemory { values, levels, reasons, trail, opened, len, level, curr_i } = trail;
    [
        ("values", values),
        ("levels", levels),
        ("reasons", reasons),
        ("trail", trail),
        ("opened", opened),
        ("len", len),
        ("level", level),
        ("curr_i", curr_i),
    ]
}

/// The memory of a mode, part by part.
pub trait Parts: Memory + Default {
    fn trail(&mut self) -> &mut TrailMemory;
    fn parts(&mut self) -> Vec<Part<'_>>;
}

impl Parts for HeapMemory {
    fn trail(&mut self) -> &mut TrailMemory {
        &mut self.trail
    }

    fn parts(&mut self) -> Vec<Part<'_>> {
        let HeapMemory { trail, activity, heap, indices, decision, members, inc, decay } = self;
        let chooser: [Part<'_>; 7] = [
            ("activity", activity),
            ("heap", heap),
            ("indices", indices),
            ("decision", decision),
            ("members", members),
            ("inc", inc),
            ("decay", decay),
        ];
        trail_parts(trail).into_iter().chain(chooser).collect()
    }
}

impl Parts for ListMemory {
    fn trail(&mut self) -> &mut TrailMemory {
        &mut self.trail
    }

    fn parts(&mut self) -> Vec<Part<'_>> {
        let ListMemory { trail, next, prev, ts, start, search, timestamp } = self;
        let chooser: [Part<'_>; 6] =
            [("next", next), ("prev", prev), ("ts", ts), ("start", start), ("search", search), ("timestamp", timestamp)];
        trail_parts(trail).into_iter().chain(chooser).collect()
    }
}

/// All that an entry is called with: a list of calls, or none for a creation.
#[derive(Clone, Default)]
pub struct Request<M> {
    pub n: u32,
    pub clauses: Clauses,
    pub memory: M,
    pub list: Option<List>,
}

/// A list of calls with what is lent beside the memory.
#[derive(Clone, Default)]
pub struct List {
    pub vars: Vec<u32>,
    pub calls: Vec<u32>,
    pub answers: Vec<u32>,
}

impl<M: Parts> Request<M> {
    pub fn parts(&mut self) -> Vec<Part<'_>> {
        let Clauses { literals, clauses, lits, ends } = &mut self.clauses;
        let mut parts: Vec<Part<'_>> = vec![("literals", literals), ("clauses", clauses), ("lits", lits), ("ends", ends)];
        parts.extend(self.memory.parts());
        if let Some(List { vars, calls, answers }) = &mut self.list {
            let list: [Part<'_>; 3] = [("vars", vars), ("calls", calls), ("answers", answers)];
            parts.extend(list);
        }
        parts
    }

    /// Does what is asked by the reference.
    pub fn reference(&mut self) -> u32 {
        let Request { n, clauses, memory, list } = self;
        native::status(match list {
            None => native::fresh(*n, clauses, memory),
            Some(List { vars, calls, answers }) => native::calls(*n, clauses, memory, vars, calls, answers),
        })
    }

    /// The first place in which two requests differ.
    pub fn difference(&mut self, other: &mut Self) -> Option<String> {
        self.parts().into_iter().zip(other.parts()).find_map(|((name, mine), (_, others))| {
            let place = (0..mine.count()).find(|&place| mine.bits(place) != others.bits(place))?;
            Some(format!("{name}, place {place}: {} and {}", mine.bits(place), others.bits(place)))
        })
    }
}
