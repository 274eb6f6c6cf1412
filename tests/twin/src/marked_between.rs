//! Marked cases of two ends, worked out by hand from document 01 and request 6/14, tried on twin and library.

mod refused;
mod shields;
mod told;

use crate::compare::{LIBRARY, Side, TWIN};
use crate::inputs::between::Pair;
use crate::inputs::sheets::{sheet_t, to_bytes};
use crate::marked::{Cases, case};

pub fn cases() -> Cases {
    [told::cases(), refused::cases(), shields::cases()].concat()
}

/// What stands in the 14 numbers before each call.
const BEFORE: [u32; 14] = [77; 14];

/// "None" where a height is asked for.
const NONE: u32 = 4_294_967_295;

/// What a side returns, and the 14 numbers then.
fn asked(side: &Side, sheet: &[u8], [mild, harsh]: &Pair) -> (u64, [u32; 14]) {
    let mut lent = BEFORE;
    let returned = (side.between)(sheet, &mild.0, &harsh.0, &mut lent);
    (returned, lent)
}

/// Both sides have to return and to leave this.
fn is_so(sheet: &[u8], pair: &Pair, wanted: (u64, [u32; 14])) -> bool {
    [LIBRARY, TWIN].iter().all(|side| asked(side, sheet, pair) == wanted)
}

/// Under sheet T: what is told of checks 1 to 12, a digit each, and the mild and the harsh end's stability height.
fn is_told(pair: &Pair, checks: &str, heights: [u32; 2]) -> bool {
    let mut numbers: Vec<u32> = checks.chars().filter_map(|digit| digit.to_digit(10)).collect();
    numbers.extend(heights);
    let numbers = numbers.try_into().expect("twelve digits and two heights");
    is_so(&to_bytes(&sheet_t()), pair, (14, numbers))
}

/// A refusal leaves the 14 numbers as they were.
fn is_refused_under(sheet: &[u8], pair: &Pair, number: u64, place: u64) -> bool {
    is_so(sheet, pair, (number * 4_294_967_296 + place, BEFORE))
}

fn is_refused(pair: &Pair, number: u64, place: u64) -> bool {
    is_refused_under(&to_bytes(&sheet_t()), pair, number, place)
}

/// Whether both sides accept a pair under T, and alike.
fn is_accepted(pair: &Pair) -> bool {
    let told = asked(&TWIN, &to_bytes(&sheet_t()), pair);
    told.0 == 14 && is_so(&to_bytes(&sheet_t()), pair, told)
}

/// The cases of a table, each with its name.
fn named(cases: impl IntoIterator<Item = (String, bool)>) -> Cases {
    cases.into_iter().map(|(name, holds)| case(&format!("two ends: {name}"), holds)).collect()
}
