//! A separate chooser to compare the proved one with: JigSAT's `Heap`, `VSIDS` and `VMTF` over vectors, its trail under them, and on top the
//! call sheet, the lists of calls on lent memory and the saved session. It shares nothing with the Rattle crates. Names and steps are JigSAT's; its licence and
//! origin are in the file NOTICE of this repository.

mod assignments;
mod decision;
mod formula;
pub mod generator;
mod heap;
mod lit;
pub mod native;
mod refusal;
pub mod saved;
pub mod session;
mod sheet;
mod trail;
mod util;
mod vmtf;
mod vsids;

pub use sheet::{run, ANSWER_ROOM, MAX_SHEET};

/// The mark for no place, no variable and no reason.
const INVALID: usize = usize::MAX;
