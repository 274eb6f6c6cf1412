//! Marked cases of the first failing row, worked out by hand from document 01 and request 9/14, tried on both sides.

mod alone;
mod places;
mod refused;

use crate::compare::{LIBRARY, Side, TWIN};
use crate::hand_books::rows::{J_GROUPS, groups_with};
use crate::inputs::books::whole;
use crate::inputs::sheets::{sheet_t, to_bytes};
use crate::marked::{Cases, J, case};
use crate::paper::job::Job;

pub fn cases() -> Cases {
    [places::cases(), alone::cases(), alone::searches(), refused::cases()].concat()
}

/// What stands in the two numbers before each call.
const BEFORE: [u32; 2] = [77, 78];

/// "None" where a place is asked for.
const NONE: u32 = 4_294_967_295;

/// J with strength 201: 11 is 0.5 × 201,000 × 0.2 = 20,100 to 20,093, and J's other verdicts are ten times 1 and one 0.
const STRONG: Job = {
    let mut job = J;
    job.0[23] = 201;
    job
};
/// 201 = 128 + 73; 73 = 49, C9.
const STRONG_GROUPS: [&[u8]; 25] = groups_with(J_GROUPS, 24, &[0xC9, 0x01]);

/// What a side returns, and the two numbers then.
fn asked(side: &Side, sheet: &[u8], book: &[u8]) -> (u64, [u32; 2]) {
    let mut lent = BEFORE;
    let returned = (side.first_failing)(sheet, book, &mut lent);
    (returned, lent)
}

/// Both sides have to return and to leave this.
fn is_so(sheet: &[u8], book: &[u8], wanted: (u64, [u32; 2])) -> bool {
    [LIBRARY, TWIN].iter().all(|side| asked(side, sheet, book) == wanted)
}

/// Under sheet T: the place and the number of rows judged.
fn is_told(book: &[u8], place: u32, judged: u32) -> bool {
    is_so(&to_bytes(&sheet_t()), book, (2, [place, judged]))
}

/// The same of rows whose groups are the twin's.
fn is_told_of(rows: &[Job], place: u32, judged: u32) -> bool {
    is_told(&whole(rows), place, judged)
}

/// A refusal leaves both numbers as they were.
fn is_refused_under(sheet: &[u8], book: &[u8], number: u64, place: u64) -> bool {
    is_so(sheet, book, (number * 4_294_967_296 + place, BEFORE))
}

fn is_refused(book: &[u8], number: u64, place: u64) -> bool {
    is_refused_under(&to_bytes(&sheet_t()), book, number, place)
}

/// The cases of a table, each with its name.
fn named<N: std::fmt::Display>(cases: impl IntoIterator<Item = (N, bool)>) -> Cases {
    cases.into_iter().map(|(name, holds)| case(&format!("first failing: {name}"), holds)).collect()
}
