//! Memory with guard words on both sides, which nobody may touch.

use crate::memory::Word;

/// How many guard words stand on each side; with none, a slice has an allocation of just its length.
#[derive(Clone, Copy)]
pub struct Guards(pub usize);

/// A slice that is lent, between its guards.
pub struct Guarded<T> {
    words: Vec<T>,
    guards: usize,
}

fn pattern<T: Word>(place: usize) -> T {
    T::of((place as u64 + 1).wrapping_mul(0x9e37_79b9_7f4a_7c15) >> 8)
}

impl Guards {
    pub fn lend<T: Word>(self, words: &[T]) -> Guarded<T> {
        let Guards(guards) = self;
        let mut all = Vec::with_capacity(words.len() + 2 * guards);
        all.extend((0..guards).map(pattern::<T>));
        all.extend_from_slice(words);
        all.extend((0..guards).map(pattern::<T>));
        Guarded { words: all, guards }
    }

    /// Lends a number alone.
    pub fn lend_one<T: Word>(self, word: T) -> Guarded<T> {
        self.lend(&[word])
    }
}

impl<T: Word> Guarded<T> {
    /// Where the lent words begin; never null.
    pub fn at(&mut self) -> *mut T {
        self.words[self.guards..].as_mut_ptr()
    }

    pub fn len(&self) -> usize {
        self.words.len() - 2 * self.guards
    }

    /// The lent words as they are now, if the guards are as they were.
    pub fn back(self, name: &str) -> Result<Vec<T>, String> {
        let Guarded { mut words, guards } = self;
        let behind = words.split_off(words.len() - guards);
        let lent = words.split_off(guards);
        for (side, found) in [("before", words), ("behind", behind)] {
            if found.iter().enumerate().any(|(place, word)| word.bits() != pattern::<T>(place).bits()) {
                return Err(format!("a word {side} {name} was written"));
            }
        }
        Ok(lent)
    }

    /// The same of a number alone.
    pub fn back_one(self, name: &str) -> Result<T, String> {
        self.back(name).map(|words| words[0])
    }
}
