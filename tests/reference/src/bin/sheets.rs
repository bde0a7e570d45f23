//! Writes sheets to files of a folder: the named ones, then so many random ones from a seed on.
//!
//! Usage: sheets FOLDER COUNT [SEED]

use reference::generator::{named, sheet};
use std::{env, fs, io, path::Path};

fn main() -> io::Result<()> {
    let arguments: Vec<String> = env::args().collect();
    let number = |i: usize| arguments.get(i).map_or(0, |text| text.parse().expect("a number"));
    let folder = Path::new(arguments.get(1).expect("usage: sheets FOLDER COUNT [SEED]"));
    let (count, seed) = (number(2), number(3));
    let random = (seed..seed + count).map(sheet);
    for (i, sheet) in named().into_iter().map(|case| case.sheet).chain(random).enumerate() {
        fs::write(folder.join(format!("{i:05}.sheet")), sheet)?;
    }
    Ok(())
}
