//! Formwork supports by clause 5.6, as request 2/14 restates it: the 13 numbers, the figures, the checks, the report.

use super::checks::{self, Check};
use super::constants::tube;
use super::figures;
use super::fraction::{Fraction, d};
use super::job::Fields;
use super::refusal::{Refusal, refuse};
use super::report::{check_lines, last_lines};
use super::sheet::Sheet;
use std::ops::RangeInclusive;

/// A formwork support.
pub type Support = Fields<13>;

impl Support {
    /// Step, m.
    pub fn h(&self) -> Fraction {
        self.metres(3)
    }

    /// Overhang, m.
    pub fn a(&self) -> Fraction {
        self.metres(4)
    }

    /// Bay and spacing, which are alike, m.
    pub fn bay(&self) -> Fraction {
        self.metres(5)
    }
}

/// The range of a field: 3, tube, step, overhang, bay, dead, live, wind, height factor, shape, soil, strength, pad.
pub fn range(field: usize) -> RangeInclusive<u32> {
    match field {
        1 => 3..=3,
        2 => 1..=2,
        3 => 60..=200,
        4 => 0..=100,
        5 => 60..=200,
        6 => 0..=60_000,
        7 => 0..=60_000,
        8 => 0..=2_000,
        9 => 100..=4_000,
        10 => 0..=2_000,
        11 => 1..=5,
        12 => 10..=2_000,
        13 => 100..=10_000,
        _ => panic!("a support has fields 1 to 13"),
    }
}

/// Refusal 3; 4 and 5 don't occur.
pub fn accept(support: &Support) -> Result<(), Refusal> {
    match (1..=13).find(|&field| !range(field).contains(&support.field(field))) {
        Some(field) => refuse(3, field as u64),
        None => Ok(()),
    }
}

/// wk = 0.7 × height factor × shape × w0, the shape factor as it is.
pub fn wind(support: &Support) -> Fraction {
    figures::wind_pressure(support.thousandths(9), support.thousandths(10), support.number(8))
}

/// N = 1.2 dead + 1.4 live.
pub fn pole_force(support: &Support) -> i128 {
    figures::factored(support.number(6), support.number(7))
}

/// Nw = 1.2 dead + 1.19 live.
pub fn pole_force_in_wind(support: &Support) -> i128 {
    figures::factored_in_wind(support.number(6), support.number(7))
}

/// Mw = 1.19 × wk × bay × h² / 10 with the step h alone.
pub fn wind_moment(support: &Support) -> i128 {
    figures::moment(wind(support), support.bay(), support.h())
}

/// (h + 2a) / i, not yet rounded.
pub fn unrounded_slenderness(support: &Support) -> Fraction {
    (support.h() + d!(2) * support.a()) * d!(1000) / tube(support).radius
}

/// (h + 2a) / i, rounded as for scaffolds.
pub fn slenderness(support: &Support) -> Fraction {
    figures::rounded_slenderness(unrounded_slenderness(support))
}

/// The slenderness in tenths.
pub fn tenths(support: &Support) -> i128 {
    figures::in_tenths(slenderness(support))
}

/// φA, mm², the sheet read as for scaffolds.
fn reduced_area(support: &Support, sheet: &Sheet) -> Fraction {
    sheet.stability_factor(slenderness(support)) * tube(support).area
}

/// Checks 7, 8, always due, 10 and 11 apply; the rest are 0 with figure 0.
pub fn check(number: usize, support: &Support, sheet: &Sheet) -> Check {
    match number {
        7 => checks::stability(pole_force(support), reduced_area(support, sheet)),
        8 => in_wind(support, sheet),
        10 => checks::pole_limit(pole_force(support)),
        11 => checks::ground(pole_force(support), support.field(11), support.number(12), support.number(13)),
        _ => Check { due: false, left: d!(0), right: d!(0), figure: 0 },
    }
}

fn in_wind(support: &Support, sheet: &Sheet) -> Check {
    let (force, moment) = (pole_force_in_wind(support), wind_moment(support));
    checks::stability_in_wind(force, reduced_area(support, sheet), moment, tube(support).modulus)
}

/// The whole report of an accepted support: twelve lines, "wind", "column"; there is no height line.
pub fn report(support: &Support, sheet: &Sheet) -> String {
    let mut text = check_lines(|number| check(number, support, sheet));
    last_lines(&mut text, wind(support), wind_moment(support), tenths(support));
    text
}
