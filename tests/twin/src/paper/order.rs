//! The order of a pair, as demand 3 has it: how each field of the harsher job has to stand to the milder one's.

use super::constants::soil_factor;
use super::fraction::Fraction;
use super::job::Job;

/// What the order asks of a field of the harsher job.
#[derive(Clone, Copy, PartialEq, Debug)]
pub enum Way {
    Equal,
    NoSmaller,
    NoGreater,
    Free,
}

/// Fields 1, 2, 8, 17 and 19 are equal; 3 to 7, 9 to 16 and 18 no smaller; 22 to 25 no greater; 20 and 21 free.
pub fn way(field: usize) -> Way {
    match field {
        1 | 2 | 8 | 17 | 19 => Way::Equal,
        3..=7 | 9..=16 | 18 => Way::NoSmaller,
        22..=25 => Way::NoGreater,
        20 | 21 => Way::Free,
        _ => panic!("a job has fields 1 to 25"),
    }
}

/// A field as the order compares it: soils go by their factor, so that 1, 2 and 3 are alike.
fn figure(job: &Job, field: usize) -> Fraction {
    match field {
        23 => soil_factor(job.field(field)),
        _ => job.number(field),
    }
}

/// Whether a field of the harsher job stands as the order asks; equal ones always do.
pub fn stands(field: usize, mild: &Job, harsh: &Job) -> bool {
    let (one, other) = (figure(mild, field), figure(harsh, field));
    match way(field) {
        Way::Equal => other == one,
        Way::NoSmaller => other >= one,
        Way::NoGreater => other <= one,
        Way::Free => true,
    }
}

/// The lowest field that is unlike or runs the wrong way; none where the jobs are in order.
pub fn fault(mild: &Job, harsh: &Job) -> Option<usize> {
    (1..=25).find(|&field| !stands(field, mild, harsh))
}
