//! Every field at, just inside and just outside the ends of its range, and the contradictions and walls beside them.

use super::jobs::accepted;
use crate::coverage::{Cell, cell};
use crate::paper::job::{Fields, Job, range};
use crate::random::Random;

/// A value of a field, in a family and an enclosure.
#[derive(Clone, Copy, PartialEq, Eq, PartialOrd, Ord, Debug)]
pub struct End {
    pub field: usize,
    pub family: u32,
    pub enclosure: u32,
    pub value: u32,
}

/// All values tried, without repeats.
pub fn all() -> Vec<End> {
    let mut ends = Vec::new();
    for field in 1..=25 {
        for family in [1, 2] {
            let enclosures: &[u32] = if field == 18 { &[1, 2, 3] } else { &[2] };
            for &enclosure in enclosures {
                let values = values(field, family, enclosure);
                ends.extend(values.into_iter().map(|value| End { field, family, enclosure, value }));
            }
        }
    }
    ends.sort_unstable();
    ends.dedup();
    ends
}

fn values(field: usize, family: u32, enclosure: u32) -> Vec<u32> {
    let job = Fields([1; 25]).with(1, family).with(17, enclosure);
    let (low, high) = (*range(&job, field).start(), *range(&job, field).end());
    let mut values = vec![low, low + 1, high - 1, high, high + 1, u32::MAX];
    values.extend(low.checked_sub(1));
    match (field, family, enclosure) {
        (3, 1, _) => values.extend([106, 129, 130, 131, 154]),
        // Half closed faces from 300 on were all that was taken before request 8/14.
        (18, _, 2) => values.extend([299, 300]),
        (20, 2, _) => values.extend([179, 180, 181, 182]),
        _ => {}
    }
    values
}

/// A job with the value in its field and the others valid beside it, as far as they can be.
pub fn job(random: &mut Random, end: End) -> Job {
    let tube = random.within(1, 2);
    let job = accepted(random, end.family, tube, end.enclosure).with(end.field, end.value);
    suited(random, job, end.field)
}

/// The job with its other fields put to where they are valid beside the field, whatever that is.
pub fn suited(random: &mut Random, job: Job, field: usize) -> Job {
    match field {
        1 => job.with(3, random.pick(&[105, 130])).with(7, random.within(1, 2_400)).with(20, 200).with(21, 1),
        9 => job.with(10, job.field(10).min(job.field(9).max(1))),
        10 => job.with(9, 10),
        11 => job.with(12, 30_000),
        12 => job.with(11, job.field(12).min(random.within(0, 10_000))),
        17 => job.with(18, random.within(1, 700)),
        _ => job,
    }
}

/// As many numbers as there are ends, contradictions and walls.
pub fn count(ends: &[End]) -> u64 {
    ends.len() as u64 + u64::from(CONTRADICTIONS)
}

/// The job of a number: every end of a range, then the contradictions and walls; with its cell in a kind of calls.
pub fn numbered(random: &mut Random, ends: &[End], number: u64, kind: u32) -> (Job, Cell) {
    let number = (number % count(ends)) as usize;
    match ends.get(number) {
        Some(&end) => (job(random, end), end_cell(end, kind)),
        None => {
            let number = (number - ends.len()) as u32;
            (contradiction(random, number), contradiction_cell(number, kind))
        }
    }
}

pub fn end_cell(end: End, kind: u32) -> Cell {
    cell("end of a range", [end.field as u32, end.family * 10 + end.enclosure, end.value, kind])
}

pub fn contradiction_cell(number: u32, kind: u32) -> Cell {
    cell("contradiction or wall", [number, kind, 0, 0])
}

/// Contradictions: layers worked on against layers boarded, loads summed against the greatest, both, and bad walls.
pub const CONTRADICTIONS: u32 = 9;

pub fn contradiction(random: &mut Random, number: u32) -> Job {
    let (family, tube) = (if number < 5 { random.within(1, 2) } else { 2 }, random.within(1, 2));
    let job = accepted(random, family, tube, 1);
    let (layers, load) = (random.within(1, 8), random.within(1, 10_000));
    match number {
        0 => job.with(9, layers).with(10, layers),
        1 => job.with(9, layers).with(10, layers + 1),
        2 => job.with(11, load).with(12, load),
        3 => job.with(11, load).with(12, load - 1),
        4 => job.with(9, layers).with(10, layers + 1).with(11, load).with(12, load - 1),
        5 => job.with(20, random.within(0, 180)),
        6 => job.with(21, random.within(2, 3)),
        7 => job.with(20, 180).with(21, random.within(2, 3)),
        _ => job.with(20, 181).with(21, 1),
    }
}
