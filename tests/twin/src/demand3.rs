//! Demand 3 with request 5/14, on the library's own reports: pairs of jobs of either kind, one job at several heights.

use crate::call::Call;
use crate::paper::file::{self, Content};
use crate::paper::job::Job;
use crate::paper::order;
use crate::reading::Report;

/// What a pair breaks, if anything: what fails for the first has to fail for the second.
/// Of supports this is request 2/14's; of scaffold jobs it is the first half of demand 3, which adds the heights.
pub fn pair_fault((call, first): &(&Call, Report), (other, second): &(&Call, Report)) -> Option<String> {
    if !first.is_support && !in_order(call, other) {
        return Some("pair: the second job is not the first or a harsher one".to_string());
    }
    let check = (1..=12).find(|&check| first.verdict(check) == 2 && second.verdict(check) != 2);
    if let Some(check) = check {
        return Some(format!("pair: check {check} fails for the first and not for the second"));
    }
    let stability = ("stability", first.stability, second.stability);
    let permitted = ("permitted", first.permitted, second.permitted);
    // None counts as below 0, and stands so in the order of options.
    let greater = [stability, permitted].into_iter().find(|(_, one, other)| other > one);
    greater
        .map(|(named, one, other)| format!("pair: {named} height {one:?} for the first job, {other:?} for the second"))
}

/// What the second half breaks, if anything: the pole checks pass exactly at the heights up to the stability height.
/// Both heights are the same at each height, and check 12 passes exactly at those up to the permitted height.
pub fn heights_fault(calls: &[(&Call, Report)]) -> Option<String> {
    let Report { stability, permitted, .. } = calls.first()?.1;
    calls.iter().find_map(|(call, report)| {
        let height = job(call)?.field(7);
        let up_to = |greatest: Option<u32>| greatest.is_some_and(|greatest| height <= greatest);
        let same = (report.stability, report.permitted) == (stability, permitted);
        let holds = same && report.poles_pass() == up_to(stability) && report.height_passes() == up_to(permitted);
        (!holds).then(|| {
            let heights = format!("stability height {stability:?}, permitted height {permitted:?}");
            format!("heights: {heights}, yet the report at height {height} is {report:?}")
        })
    })
}

/// Whether the scaffold jobs of two verdict calls are in the order of a pair.
pub fn in_order(first: &Call, second: &Call) -> bool {
    matches!((job(first), job(second)), (Some(first), Some(second)) if order::fault(&first, &second).is_none())
}

/// The scaffold job of a verdict call.
pub fn job(call: &Call) -> Option<Job> {
    match call {
        Call::Verdict { file, .. } => match file::read(file) {
            Ok(Content::Job(job)) => Some(job),
            _ => None,
        },
        _ => None,
    }
}
