//! The twelve checks: the figure of each, what is compared, and the verdict.
//! What 7, 8, 10 and 11 compare stands in functions that take a support's figures too.

use super::constants::{STRENGTH, soil_factor, tube};
use super::figures;
use super::fraction::{Fraction, d};
use super::heights;
use super::job::Job;
use super::sheet::Sheet;

/// One check: `left` has to be at most `right`; `figure` is what the report gives.
#[derive(Clone, Copy)]
pub struct Check {
    pub due: bool,
    pub left: Fraction,
    pub right: Fraction,
    pub figure: i128,
}

impl Check {
    /// 0 not due, 1 passes, 2 fails.
    pub fn verdict(&self) -> u8 {
        match (self.due, self.left <= self.right) {
            (false, _) => 0,
            (true, true) => 1,
            (true, false) => 2,
        }
    }
}

/// Check 1 to 12 of a job, with the height H in centimetres given apart from the job.
pub fn check(number: usize, job: &Job, sheet: &Sheet, height: u32) -> Check {
    match number {
        1 => rounded(figures::transom_moment(job).up(), STRENGTH * tube(job).modulus),
        2 => deflection(figures::transom_deflection(job), job.lb()),
        3 => rounded(figures::ledger_moment(job).up(), STRENGTH * tube(job).modulus),
        4 => deflection(figures::ledger_deflection(job), job.la()),
        5 => rounded(figures::slip(job).up(), d!(8_000)),
        6 => slenderness(job),
        7 => stability(figures::pole_force(job, height), reduced_area(job, sheet)),
        8 => Check { due: wind_is_due(job), ..in_wind(job, sheet, height) },
        9 => rounded(figures::tie_force(job), job.number(22)),
        10 => pole_limit(figures::pole_force(job, height)),
        11 => ground(figures::pole_force(job, height), job.field(23), job.number(24), job.number(25)),
        12 => height_limit(height, heights::reported(job, sheet)),
        _ => panic!("checks 1 to 12"),
    }
}

fn rounded(figure: i128, limit: Fraction) -> Check {
    Check { due: true, left: Fraction::whole(figure), right: limit, figure }
}

/// At most l/150 and at most 10 mm, unrounded; the figure in micrometres, up.
fn deflection(millimetres: Fraction, span: Fraction) -> Check {
    let limit = (span * d!(1000) / d!(150)).least(d!(10));
    Check { due: true, left: millimetres, right: limit, figure: (millimetres * d!(1000)).up() }
}

/// Unrounded, at most 210 (double) or 230 (single).
fn slenderness(job: &Job) -> Check {
    let limit = if job.is_double_row() { d!(210) } else { d!(230) };
    let left = figures::slenderness(job);
    Check { due: true, left, right: limit, figure: left.up() }
}

/// φA, mm².
fn reduced_area(job: &Job, sheet: &Sheet) -> Fraction {
    sheet.stability_factor(figures::column_slenderness(job)) * tube(job).area
}

/// N, at most φAf.
pub fn stability(force: i128, reduced_area: Fraction) -> Check {
    rounded(force, reduced_area * STRENGTH)
}

fn in_wind(job: &Job, sheet: &Sheet, height: u32) -> Check {
    let (force, moment) = (figures::pole_force_in_wind(job, height), figures::wind_moment(job));
    stability_in_wind(force, reduced_area(job, sheet), moment, tube(job).modulus)
}

/// Nw/(φA) + Mw/W, at most f.
pub fn stability_in_wind(force: i128, reduced_area: Fraction, moment: i128, modulus: Fraction) -> Check {
    let bending = Fraction::whole(moment) / modulus;
    let left = Fraction::whole(force) / reduced_area + bending;
    Check { due: true, left, right: STRENGTH, figure: force }
}

/// Check 8 is not due when w0 is at most 350, the enclosure is open and t × h × 3la is at most 30 m².
fn wind_is_due(job: &Job) -> bool {
    !(job.number(15) <= d!(350) && job.is_open() && figures::tie_face(job) <= d!(30))
}

/// N, at most 40,000.
pub fn pole_limit(force: i128) -> Check {
    rounded(force, d!(40_000))
}

/// N, at most soil factor × strength × pad in newtons: kPa are 1,000 N/m² and cm² are 1/10,000 m².
pub fn ground(force: i128, soil: u32, strength: Fraction, pad: Fraction) -> Check {
    rounded(force, soil_factor(soil) * (strength * d!(1000)) * (pad / d!(10_000)))
}

/// The job's height, at most the permitted height, failing when none is reported; the figure is 0 then.
fn height_limit(height: u32, reported: Option<(u32, u32)>) -> Check {
    let permitted = reported.map(|(_, permitted)| i128::from(permitted));
    // None counts as below 0, so that no height is within it.
    let limit = Fraction::whole(permitted.unwrap_or(-1));
    Check { due: true, left: Fraction::whole(i128::from(height)), right: limit, figure: permitted.unwrap_or(0) }
}
