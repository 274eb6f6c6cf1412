//! What the turns need of a job of either kind, scaffold or support.

use super::jobs;
use crate::call::Call;
use crate::paper::checks::{Check, check};
use crate::paper::job::{self, Job};
use crate::paper::refusal::Refusal;
use crate::paper::sheet::Sheet;
use crate::paper::support::{self, Support};
use crate::paper::{figures, report};

pub trait AnyJob {
    /// No file is longer, and no report.
    const FILE_MOST: u32;
    const REPORT_MOST: u32;

    fn accept(&self) -> Result<(), Refusal>;
    /// The least and the greatest value that keep an accepted job accepted, the other fields as they are.
    fn bounds(&self, field: usize) -> (u32, u32);
    fn check(&self, number: usize, sheet: &Sheet) -> Check;
    fn pole_force(&self) -> i128;
    /// The slenderness at which the sheet is read, in tenths.
    fn tenths(&self) -> u32;
    fn report(&self, sheet: &Sheet) -> String;
    /// The call that writes the job into so many bytes.
    fn write(&self, file: usize, fill: u64) -> Call;
}

impl AnyJob for Job {
    const FILE_MOST: u32 = 42;
    const REPORT_MOST: u32 = 178;

    fn accept(&self) -> Result<(), Refusal> {
        job::accept(self)
    }

    fn bounds(&self, field: usize) -> (u32, u32) {
        jobs::bounds(self, field)
    }

    fn check(&self, number: usize, sheet: &Sheet) -> Check {
        check(number, self, sheet, self.field(7))
    }

    fn pole_force(&self) -> i128 {
        figures::pole_force(self, self.field(7))
    }

    fn tenths(&self) -> u32 {
        figures::column_tenths(self) as u32
    }

    fn report(&self, sheet: &Sheet) -> String {
        report::report(self, sheet)
    }

    fn write(&self, file: usize, fill: u64) -> Call {
        Call::Write { numbers: self.0, file, fill }
    }
}

impl AnyJob for Support {
    const FILE_MOST: u32 = 24;
    const REPORT_MOST: u32 = 127;

    fn accept(&self) -> Result<(), Refusal> {
        support::accept(self)
    }

    fn bounds(&self, field: usize) -> (u32, u32) {
        let range = support::range(field);
        (*range.start(), *range.end())
    }

    fn check(&self, number: usize, sheet: &Sheet) -> Check {
        support::check(number, self, sheet)
    }

    fn pole_force(&self) -> i128 {
        support::pole_force(self)
    }

    fn tenths(&self) -> u32 {
        support::tenths(self) as u32
    }

    fn report(&self, sheet: &Sheet) -> String {
        support::report(self, sheet)
    }

    fn write(&self, file: usize, fill: u64) -> Call {
        Call::WriteSupport { numbers: self.0, file, fill }
    }
}
