//! Sheets to compare choosers on: random sessions, damaged ones, and named ones at the limits. Equal seeds give equal sheets.

mod boundary;
mod builder;
mod damage;
mod examples;
mod profile;
mod rng;
#[cfg(test)]
mod tests;

pub use boundary::{named, Named};
pub use examples::{all_examples, examples, saved_examples, Example};

use crate::sheet::{Mode, MAX_VARIABLES};
use builder::Builder;
use profile::Profile;
pub use rng::Rng;

/// The sheet that belongs to a seed.
pub fn sheet(seed: u64) -> Vec<u8> {
    let mut rng = Rng::new(seed);
    let mode = if rng.chance(1, 2) { Mode::Vsids } else { Mode::Vmtf };
    let num_vars = variables(&mut rng);
    let length = length(&mut rng);
    let profile = Profile::random(&mut rng);
    let mut builder = Builder::new(mode, num_vars, length, &mut rng);
    builder.clauses();
    builder.session(&profile);
    let mut sheet = builder.finish();
    if rng.chance(1, 3) {
        damage::damage(&mut sheet, &mut rng);
    }
    sheet
}

/// A number of variables: mostly small, so that ties, full trails and empty heaps are common.
fn variables(rng: &mut Rng) -> usize {
    match rng.below(100) {
        0..=2 => 0,
        3..=6 => 1,
        7..=44 => 2 + rng.below(7),
        45..=79 => 9 + rng.below(56),
        80..=93 => 65 + rng.below(236),
        94..=98 => 301 + rng.below(1700),
        _ => MAX_VARIABLES,
    }
}

/// About how many bytes a sheet has.
fn length(rng: &mut Rng) -> usize {
    match rng.below(100) {
        0..=29 => 20 + rng.below(200),
        30..=74 => 200 + rng.below(2_000),
        75..=96 => 2_000 + rng.below(6_000),
        _ => 8_000 + rng.below(24_000),
    }
}
