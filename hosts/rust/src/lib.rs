//! The proved option chooser of a SAT solver: which open variable to decide next, by activity or by a move-to-front list, with the trail.
//!
//! The chooser is written in Rattle and proved against its contracts; this crate links it as a static library and has no `unsafe` in its interface.
//! `docs/NATIVE.md` is the guide, `docs/SHEET.md` says what each call does, `docs/PROMISES.md` what is proved.
//!
//! A [`Session`] holds the variables, the trail and the chooser. A solver propagates on values of its own and tells the session what it found, in lists
//! of calls, a [`Batch`] each: before a decision the literals enqueued since the last list, then the decision; at a conflict the bumps, a decay, and going
//! back.
//!
//! ```
//! use sigvort::{Batch, Lit, Session};
//!
//! let mut session = Session::heap(4)?;
//! let mut batch = Batch::new();
//!
//! // decide, after what was propagated
//! batch.enqueue(Lit::new(3, false), None);
//! let decided = batch.decide(true);
//! session.batch(&mut batch)?;
//! assert_eq!(batch.answer(decided)?, Some(0));
//!
//! // a conflict that variables 1 and 2 took part in
//! batch.clear();
//! batch.bump(1);
//! batch.bump(2);
//! batch.decay();
//! let back = batch.go_back(0);
//! session.batch(&mut batch)?;
//! assert_eq!(batch.answer(back)?, Some(1));
//! # Ok::<(), sigvort::Refusal>(())
//! ```
//!
//! [`Session::save`] writes a session as text, and [`Session::read`] reads it back, on another day or another machine. `docs/SAVED.md` has the text.
//!
//! [`run`] takes whole call sheets as text. [`run_new`] saves the session at a sheet's end, and [`run_on`] goes on with it.
//!
//! # Linking
//!
//! The build script links `libsigvort.a` from the folder that the environment variable `SIGVORT_LIB_DIR` names, or else from where `hosts/library` writes it. The
//! archive and this crate are of one release: a status that this crate does not know makes a call panic.

#![deny(missing_docs)]

mod batch;
mod call;
mod clauses;
mod ffi;
mod lit;
mod memory;
mod refusal;
mod saved;
mod session;
mod sheet;

pub use batch::Batch;
pub use call::{Decision, Reply};
pub use clauses::Clauses;
pub use lit::Lit;
pub use memory::{HeapMemory, HeapState, ListMemory, ListState};
pub use refusal::Refusal;
pub use saved::{saved_room, Counts, MAX_SAVED};
pub use session::{Mode, Session};
pub use sheet::{run, run_new, run_on, ANSWER_ROOM, MAX_SHEET};

/// No reason, no variable, a place that is not in use: the number that stands for none in lent memory.
pub const NONE: u32 = u32::MAX;

/// The most variables of a session.
pub const MAX_VARIABLES: u32 = 2_048;

/// The most clauses of a list.
pub const MAX_CLAUSES: u32 = 2_048;

/// The most literals of all clauses of a list.
pub const MAX_LITERALS: u32 = 8_192;

/// The most variables of a group.
pub const MAX_GROUP: u32 = 2_048;
