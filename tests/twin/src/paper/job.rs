//! The job: 25 whole numbers, the range of each, and the refusals 3, 4 and 5.
//! What a scaffold job and a support have in common stands first.

use super::fraction::Fraction;
use super::refusal::{Refusal, refuse};
use std::ops::RangeInclusive;

/// The numbers of a job of either kind in the paper's order; field 1 stands first.
#[derive(Clone, Copy, PartialEq, Eq, Debug)]
pub struct Fields<const N: usize>(pub [u32; N]);

/// A scaffold job.
pub type Job = Fields<25>;

impl<const N: usize> Fields<N> {
    pub fn field(&self, field: usize) -> u32 {
        self.0[field - 1]
    }

    /// The job with another value in one field.
    pub fn with(mut self, field: usize, value: u32) -> Fields<N> {
        self.0[field - 1] = value;
        self
    }

    /// A field as a fraction, in the field's own unit.
    pub fn number(&self, field: usize) -> Fraction {
        Fraction::whole(i128::from(self.field(field)))
    }

    /// A field of centimetres in metres.
    pub fn metres(&self, field: usize) -> Fraction {
        Fraction::of(i128::from(self.field(field)), 100)
    }

    /// A field in thousandths.
    pub fn thousandths(&self, field: usize) -> Fraction {
        Fraction::of(i128::from(self.field(field)), 1000)
    }
}

impl Job {
    pub fn is_double_row(&self) -> bool {
        self.field(1) == 1
    }

    pub fn is_open(&self) -> bool {
        self.field(17) == 1
    }

    /// Pole spacing across, m.
    pub fn lb(&self) -> Fraction {
        self.metres(3)
    }

    /// Bay, m.
    pub fn la(&self) -> Fraction {
        self.metres(4)
    }

    /// Step, m.
    pub fn h(&self) -> Fraction {
        self.metres(5)
    }
}

/// The range of a field; that of field 3 in a double row has gaps, see `in_range`.
pub fn range(job: &Job, field: usize) -> RangeInclusive<u32> {
    match field {
        1 => 1..=2,
        2 => 1..=2,
        3 if job.is_double_row() => 105..=155,
        3 => 60..=150,
        4 => 60..=200,
        5 => 60..=200,
        6 => 2..=3,
        7 if job.is_double_row() => 1..=5_000,
        7 => 1..=2_400,
        8 => 1..=3,
        9 => 1..=10,
        10 => 1..=9,
        11 => 0..=10_000,
        12 => 0..=30_000,
        13 => 0..=5_000,
        14 => 50..=500,
        15 => 0..=2_000,
        16 => 100..=4_000,
        17 => 1..=3,
        18 => shield_range(job.field(17)),
        19 => 1..=2,
        20 => 0..=2_000,
        21 => 1..=3,
        22 => 8_000..=100_000,
        23 => 1..=5,
        24 => 10..=2_000,
        25 => 100..=10_000,
        _ => panic!("a job has fields 1 to 25"),
    }
}

fn shield_range(enclosure: u32) -> RangeInclusive<u32> {
    match enclosure {
        1 => 1..=2_000,
        2 => 1..=700,
        _ => 1..=1_000,
    }
}

pub fn in_range(job: &Job, field: usize) -> bool {
    let value = job.field(field);
    let gap = field == 3 && job.is_double_row() && !matches!(value, 105 | 130 | 155);
    range(job, field).contains(&value) && !gap
}

/// Refusals 3, 4 and 5, in that order.
pub fn accept(job: &Job) -> Result<(), Refusal> {
    if let Some(field) = (1..=25).find(|&field| !in_range(job, field)) {
        return refuse(3, field as u64);
    }
    if job.field(10) > job.field(9) {
        return refuse(4, 10);
    }
    if job.field(12) < job.field(11) {
        return refuse(4, 12);
    }
    if !job.is_double_row() && job.field(20) <= 180 {
        return refuse(5, 20);
    }
    if !job.is_double_row() && job.field(21) != 1 {
        return refuse(5, 21);
    }
    Ok(())
}
