//! The report: twelve lines of checks, then height, wind and column. A support's takes its lines from here.

use super::checks::{Check, check};
use super::figures;
use super::fraction::Fraction;
use super::heights::reported;
use super::job::Job;
use super::sheet::Sheet;
use std::fmt::Write;

/// The whole report of an accepted job.
pub fn report(job: &Job, sheet: &Sheet) -> String {
    let mut text = check_lines(|number| check(number, job, sheet, job.field(7)));
    match reported(job, sheet) {
        Some((stability, permitted)) => line(&mut text, format_args!("height {} {}", stability, permitted)),
        None => line(&mut text, format_args!("height none")),
    }
    last_lines(&mut text, figures::wind(job), figures::wind_moment(job), figures::column_tenths(job));
    text
}

/// Check, verdict and figure of each check from 1 to 12.
pub fn check_lines(check: impl Fn(usize) -> Check) -> String {
    let mut text = String::with_capacity(200);
    for number in 1..=12 {
        let check = check(number);
        line(&mut text, format_args!("{} {} {}", number, check.verdict(), check.figure));
    }
    text
}

/// "wind", wk and Mw; "column" and Z in tenths.
pub fn last_lines(text: &mut String, wk: Fraction, moment: i128, tenths: i128) {
    line(text, format_args!("wind {} {}", wk.up(), moment));
    line(text, format_args!("column {}", tenths));
}

// Every line, the last too, ends in one byte 0A.
fn line(text: &mut String, parts: std::fmt::Arguments) {
    text.write_fmt(parts).expect("a string takes any text");
    text.push('\n');
}
