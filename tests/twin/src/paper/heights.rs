//! The stability height, by bisection and by a scan of every height, and the permitted height.

use super::checks::check;
use super::fraction::{Fraction, d};
use super::job::Job;
use super::sheet::Sheet;

/// Whether 7 passes at H, and 8 passes or isn't due.
pub fn pole_checks_pass(job: &Job, sheet: &Sheet, height: u32) -> bool {
    check(7, job, sheet, height).verdict() == 1 && check(8, job, sheet, height).verdict() != 2
}

/// The greatest H from 0 to 6,000 at which the pole checks pass, found by bisection.
pub fn stability(job: &Job, sheet: &Sheet) -> Option<u32> {
    if !pole_checks_pass(job, sheet, 0) {
        return None;
    }
    let (mut passes, mut beyond) = (0, 6_001);
    while beyond - passes > 1 {
        let middle = (passes + beyond) / 2;
        if pole_checks_pass(job, sheet, middle) {
            passes = middle;
        } else {
            beyond = middle;
        }
    }
    Some(passes)
}

/// The stability height and the permitted height, where the pole stands at any height.
pub fn reported(job: &Job, sheet: &Sheet) -> Option<(u32, u32)> {
    stability(job, sheet).map(|height| (height, permitted(job, height)))
}

/// All heights from 0 to 6,000 tried: the greatest that passes, and how many pass.
pub fn stability_by_scan(job: &Job, sheet: &Sheet) -> (Option<u32>, usize) {
    let passing: Vec<u32> = (0..=6_000).filter(|&height| pole_checks_pass(job, sheet, height)).collect();
    (passing.iter().copied().max(), passing.len())
}

/// The permitted height: that before the caps, then at most 5,000 or 2,400.
pub fn permitted(job: &Job, stability: u32) -> u32 {
    before_caps(stability).min(if job.is_double_row() { 5_000 } else { 2_400 })
}

/// The stability height below 2,535, 2,534 from there to 2,599, otherwise Hs / (1 + 0.001 Hs) in metres, down.
pub fn before_caps(stability: u32) -> u32 {
    match stability {
        ..2_535 => stability,
        2_535..2_600 => 2_534,
        _ => reduced(stability),
    }
}

fn reduced(stability: u32) -> u32 {
    let metres = Fraction::of(i128::from(stability), 100);
    (metres / (d!(1) + d!(0.001) * metres) * d!(100)).down() as u32
}
