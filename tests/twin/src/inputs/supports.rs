//! Supports: accepted ones, harsher ones for pairs, the ends of their ranges, and the longest in bytes.

use super::any_job::AnyJob;
use super::ends::End;
use super::jobs::{farther, leaning};
use crate::paper::constants::soil_factor;
use crate::paper::job::Fields;
use crate::paper::support::{Support, range};
use crate::random::Random;

/// The family under which cells count supports: the first number that marks them.
pub const FAMILY: u32 = 3;

/// An accepted support of a tube; its fields lean to the low end at times.
pub fn accepted(random: &mut Random, tube: u32) -> Support {
    let power = random.pick(&[1, 1, 2, 4]);
    let support = Fields([FAMILY; 13]).with(2, tube);
    (3..=13).fold(support, |support, field| support.with(field, leaning(random, range(field), power)))
}

pub fn any_accepted(random: &mut Random) -> Support {
    let tube = random.within(1, 2);
    accepted(random, tube)
}

/// A support whose file has 24 bytes and whose report has 127, the most that there are.
pub fn longest(random: &mut Random) -> Support {
    let least = [3, 1, 200, 0, 200, 45_000, 40_000, 1_900, 4_000, 2_000, 1, 128, 128];
    let between =
        |support: Support, field| support.with(field, random.within(support.field(field), *range(field).end()));
    (2..=13).fold(Fields(least), between)
}

/// How the second of a pair goes by the first: heavier or weaker-founded and otherwise alike, as the request has it.
pub const LOADS_AND_GROUND: u32 = 0;
/// Or with no dimension and no wind figure smaller either.
pub const ANY_FIELD: u32 = 1;

/// A second support for a pair: nothing milder in it, and the tube the same.
pub fn harsher(random: &mut Random, first: &Support, order: u32) -> Support {
    let no_smaller: &[usize] = if order == LOADS_AND_GROUND { &[6, 7] } else { &[3, 4, 5, 6, 7, 8, 9, 10] };
    let (mut support, often) = (*first, random.pick(&[1, 2, 4, 8]));
    for &field in no_smaller {
        if random.once_in(often) {
            let (value, most) = (support.field(field), support.bounds(field).1);
            support = support.with(field, farther(random, value, most));
        }
    }
    for field in [12, 13] {
        if random.once_in(often) {
            let (value, least) = (support.field(field), support.bounds(field).0);
            support = support.with(field, value - farther(random, 0, value - least));
        }
    }
    let soil = random.within(1, 5);
    if soil_factor(soil) <= soil_factor(first.field(11)) { support.with(11, soil) } else { support }
}

/// Every field at, just inside and just outside the ends of its range, without repeats.
pub fn ends() -> Vec<End> {
    let mut ends: Vec<End> = (1..=13)
        .flat_map(|field| {
            values(field).into_iter().map(move |value| End { field, family: FAMILY, enclosure: 0, value })
        })
        .collect();
    ends.sort_unstable();
    ends.dedup();
    ends
}

fn values(field: usize) -> Vec<u32> {
    let (low, high) = (*range(field).start(), *range(field).end());
    let mut values = vec![low, low + 1, high - 1, high, high + 1, u32::MAX];
    values.extend(low.checked_sub(1));
    if field == 1 {
        values.extend([0, 1]);
    }
    values
}
