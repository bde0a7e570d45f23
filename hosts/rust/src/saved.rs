use crate::{ffi::entry, Mode, Refusal, MAX_CLAUSES, MAX_LITERALS, MAX_VARIABLES};

/// The bytes of the longest text that a session has.
pub const MAX_SAVED: usize = saved_room(MAX_VARIABLES, MAX_CLAUSES as usize, MAX_LITERALS as usize);

/// The most bytes that the text of a session of `n` variables has, with so many clauses and so many literals in all of them.
///
/// ```
/// use sigvort::{saved_room, Session, MAX_SAVED};
///
/// assert_eq!(MAX_SAVED, saved_room(2048, 2048, 8192));
/// let session = Session::heap(3)?;
/// let mut buffer = [0; saved_room(3, 0, 0)];
/// let len = session.save_to(&mut buffer)?;
/// assert_eq!(session.save()?.as_bytes(), &buffer[..len]);
/// # Ok::<(), sigvort::Refusal>(())
/// ```
pub const fn saved_room(n: u32, clauses: usize, literals: usize) -> usize {
    80 + 41 * n as usize + 2 * clauses + 5 * literals
}

/// What a saved text says of its size, and with it how much memory its session takes.
#[derive(Clone, Copy, Debug, PartialEq, Eq)]
pub struct Counts {
    /// How the session chooses.
    pub mode: Mode,
    /// The number of variables.
    pub variables: u32,
    /// The number of clauses.
    pub clauses: usize,
    /// The number of literals of all clauses.
    pub literals: usize,
}

impl Counts {
    /// The counts of a text. It has its lines, each of its form, or is refused with [`Refusal::Saved`]. Whether the counts are within the limits and the
    /// state is good is not looked at.
    ///
    /// ```
    /// use sigvort::{Clauses, Counts, Lit, Mode, Refusal, Session};
    ///
    /// let mut clauses = Clauses::new();
    /// clauses.push(&[Lit::new(0, true), Lit::new(1, true)]);
    /// let text = Session::list_with(3, clauses)?.save()?;
    /// let counts = Counts { mode: Mode::List, variables: 3, clauses: 1, literals: 2 };
    /// assert_eq!(Counts::of(text.as_bytes()), Ok(counts));
    /// assert_eq!(Counts::of(b"n\t3\tvmtf\n"), Err(Refusal::Saved));
    /// # Ok::<(), Refusal>(())
    /// ```
    pub fn of(text: &[u8]) -> Result<Counts, Refusal> {
        let (mut list, mut variables, mut literals, mut clauses) = (0, 0, 0, 0);
        Refusal::result(entry!(sigvort_saved_counts(), as_ptr[text](&mut list, &mut variables, &mut literals, &mut clauses)))?;
        let mode = if list == 0 { Mode::Heap } else { Mode::List };
        // each has a byte of the text to itself
        Ok(Counts { mode, variables, clauses: clauses as usize, literals: literals as usize })
    }
}
