//! The constants: tubes, steel, boards and rails, length factors, soil factors.

use super::fraction::{Fraction, d};
use super::job::{Fields, Job};

/// f, N/mm².
pub const STRENGTH: Fraction = Fraction::decimal("205");
/// E, N/mm².
pub const ELASTICITY: Fraction = Fraction::decimal("206_000");

/// A tube's area A, mm², modulus W, mm³, radius i, mm, and inertia I, mm⁴.
pub struct Tube {
    pub area: Fraction,
    pub modulus: Fraction,
    pub radius: Fraction,
    pub inertia: Fraction,
}

/// The tube is field 2 of either kind of job.
pub fn tube<const N: usize>(job: &Fields<N>) -> Tube {
    match job.field(2) {
        1 => Tube { area: d!(489), modulus: d!(5_080), radius: d!(15.8), inertia: d!(121_900) },
        _ => Tube { area: d!(452), modulus: d!(5_130), radius: d!(17.0), inertia: d!(130_800) },
    }
}

/// g, N/m².
pub fn boards(job: &Job) -> Fraction {
    match job.field(8) {
        1 => d!(300),
        2 => d!(350),
        _ => d!(350),
    }
}

/// Rails, N/m.
pub fn rails(job: &Job) -> Fraction {
    match job.field(8) {
        1 => d!(110),
        2 => d!(140),
        _ => d!(140),
    }
}

/// The length factor, by spacing and tie interval.
pub fn length_factor(job: &Job) -> Fraction {
    match (job.is_double_row(), job.field(3), job.field(6)) {
        (true, 105, 2) => d!(1.50),
        (true, 130, 2) => d!(1.55),
        (true, 155, 2) => d!(1.60),
        (true, 105, 3) => d!(1.70),
        (true, 130, 3) => d!(1.75),
        (true, 155, 3) => d!(1.80),
        (false, _, 2) => d!(1.8),
        (false, _, 3) => d!(2.00),
        _ => panic!("no length factor outside the ranges of fields 3 and 6"),
    }
}

pub fn soil_factor(soil: u32) -> Fraction {
    match soil {
        4 => d!(0.5),
        5 => d!(1.0),
        _ => d!(0.4),
    }
}
