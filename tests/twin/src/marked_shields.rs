//! Marked cases of half closed faces, worked out by hand from document 01 as request 8/14 has it, tried on both sides.

mod files;
mod ranges;
mod reports;

use crate::call::Call;
use crate::compare::{Answer, both};
use crate::marked::{Cases, J, case};
use crate::paper::job::Job;

pub fn cases() -> Cases {
    [reports::cases(), ranges::cases(), files::cases()].concat()
}

/// J, 2,835 high, half closed in more wind, its ties of 9,559 N: at shield 299 it just passes 9 and 12, see `reports`.
pub fn half_closed(shield: u32) -> Job {
    J.with(7, 2_835).with(15, 500).with(16, 1_600).with(17, 2).with(18, shield).with(22, 9_559)
}

/// J as a single row of structure 200, 2,400 high, half closed before a pierced wall, its ties of 8,943 N.
pub fn single(shield: u32) -> Job {
    half_closed(shield).with(1, 2).with(7, 2_400).with(14, 200).with(19, 2).with(22, 8_943)
}

/// The answer in which both sides agree; none where they differ.
fn answered(call: &Call) -> Option<Answer> {
    let (library, twin) = both(call);
    (library == twin).then_some(library)
}

/// The cases of a table, each with its name.
fn named(cases: impl IntoIterator<Item = (String, bool)>) -> Cases {
    cases.into_iter().map(|(name, holds)| case(&format!("half closed: {name}"), holds)).collect()
}
