use super::rng::Rng;
use crate::sheet::MAX_SHEET;

/// Bytes that mean something somewhere on a sheet, and some that never do.
const BYTES: &[u8] = b"\t\t\n\n0123456789abcdefgikoruwyn-+ \r\0\x7f\x80\xff";

/// Spoils a sheet in a few places, and keeps it within its length.
pub fn damage(sheet: &mut Vec<u8>, rng: &mut Rng) {
    for _ in 0..1 + rng.below(8) {
        let place = spot(sheet, rng);
        match rng.below(8) {
            0 => flip(sheet, place, rng),
            1 => drop_bytes(sheet, place, 1),
            2 => drop_bytes(sheet, place, rng.below(20)),
            3 | 4 => sheet.insert(place, rng.pick(BYTES)),
            5 => overwrite(sheet, place, rng),
            6 => repeat(sheet, place, rng),
            _ if rng.chance(1, 4) => sheet.truncate(place),
            _ => flip(sheet, place, rng),
        }
    }
    sheet.truncate(MAX_SHEET);
}

/// A place in the sheet, often near its start, where heading and clauses are.
fn spot(sheet: &[u8], rng: &mut Rng) -> usize {
    if rng.chance(1, 6) {
        rng.below(sheet.len().min(30) + 1)
    } else {
        rng.below(sheet.len() + 1)
    }
}

fn flip(sheet: &mut [u8], place: usize, rng: &mut Rng) {
    if let Some(byte) = sheet.get_mut(place) {
        *byte ^= 1 << rng.below(8);
    }
}

fn overwrite(sheet: &mut [u8], place: usize, rng: &mut Rng) {
    if let Some(byte) = sheet.get_mut(place) {
        *byte = rng.pick(BYTES);
    }
}

fn drop_bytes(sheet: &mut Vec<u8>, place: usize, count: usize) {
    let end = sheet.len().min(place + count);
    sheet.drain(place..end);
}

/// Writes some of the sheet a second time, behind itself.
fn repeat(sheet: &mut Vec<u8>, place: usize, rng: &mut Rng) {
    let end = sheet.len().min(place + rng.below(40));
    let copy = sheet[place..end].to_vec();
    sheet.splice(end..end, copy);
}
