//! What request 6/14 promises of the jobs between two ends, tried on the library's own answers and reports.

use crate::call::Call;
use crate::compare::Answer;
use crate::coverage::{Cell, cell};
use crate::demand3::in_order;
use crate::paper::between::{FAILS_THROUGHOUT, PASSES_THROUGHOUT, UNDECIDED, height};
use crate::reading::Report;

/// The 14 numbers with which the call on two ends was answered.
pub fn told(call: &Call, answer: &Answer) -> Option<[u32; 14]> {
    match call {
        Call::Between { .. } if answer.refusal() == 0 => answer.numbers().try_into().ok(),
        _ => None,
    }
}

/// What is broken, if anything; the reports are the mild end's, the harsh end's and those of jobs between them.
pub fn fault(told: &[u32; 14], reports: &[(&Call, Report)]) -> Option<String> {
    let [(mild, _), (harsh, _), ..] = reports else {
        return Some("between: the reports of both ends are missing".to_string());
    };
    // The mission's order at both sides.
    let outside = reports.iter().find(|(call, _)| !(in_order(mild, call) && in_order(call, harsh)));
    if let Some((call, _)) = outside {
        return Some(format!("between: a job does not lie between the ends: {call}"));
    }
    let reports: Vec<Report> = reports.iter().map(|(_, report)| *report).collect();
    let check = (1..=12).find(|&check| !holds(told[check - 1], &verdicts(check, &reports)));
    match check {
        Some(check) => Some(format!(
            "between: check {check} is told as {}, and the verdicts are {:?}",
            told[check - 1],
            verdicts(check, &reports)
        )),
        None => heights_fault([told[12], told[13]], &reports),
    }
}

fn verdicts(check: usize, reports: &[Report]) -> Vec<u8> {
    reports.iter().map(|report| report.verdict(check)).collect()
}

/// Whether what is told of a check holds; the mild end's verdict stands first and the harsh end's second.
fn holds(told: u32, verdicts: &[u8]) -> bool {
    match told {
        PASSES_THROUGHOUT => verdicts.iter().all(|&verdict| verdict != 2),
        FAILS_THROUGHOUT => verdicts.iter().all(|&verdict| verdict == 2),
        UNDECIDED => verdicts[0] != 2 && verdicts[1] == 2,
        _ => false,
    }
}

/// The heights are those of the ends' own reports, and bound those between.
fn heights_fault(told: [u32; 2], reports: &[Report]) -> Option<String> {
    let [mild, harsh] = [reports[0].stability, reports[1].stability];
    // None counts as below 0, and stands so in the order of options.
    let beyond = reports.iter().find(|report| !(harsh..=mild).contains(&report.stability));
    if told != [mild, harsh].map(height) {
        return Some(format!("between: heights {told:?} are told, and the ends report {mild:?} and {harsh:?}"));
    }
    beyond.map(|report| format!("between: height {:?} between {mild:?} and {harsh:?}", report.stability))
}

/// The cells of an answer that held for jobs between: what was told of each check, and how the heights stand.
pub fn cells(told: &[u32; 14]) -> impl Iterator<Item = Cell> {
    let heights = match (told[12] == height(None), told[13] == height(None), told[12] == told[13]) {
        (true, ..) => 4,
        (_, true, _) => 3,
        (_, _, true) => 2,
        _ => 1,
    };
    (1..=12).map(|check| throughout_cell(check, told[check - 1])).chain([throughout_cell(13, heights)])
}

/// Checks 1 to 12 with what was told; 13 with 1 for heights that fall, 2 equal, 3 none at the harsh end, 4 at both.
pub fn throughout_cell(check: usize, told: u32) -> Cell {
    cell("told of jobs between", [check as u32, told, 0, 0])
}
