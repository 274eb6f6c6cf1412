//! The turns on stability height, permitted height and check 12, and the cells that the library's reports fill there.

use super::jobs::bounds;
use super::kinds::{Cells, judged, plain};
use super::slender::in_turn;
use super::tuned::{at_stability, both_at_stability};
use super::{Lists, Planned, Relation, Turn};
use crate::coverage::{Cell, Expect, cell};
use crate::paper::heights::{before_caps, permitted};
use crate::paper::job::{Fields, Job};
use crate::random::Random;
use crate::reading::Report;
use std::collections::{BTreeMap, BTreeSet};

/// The stability heights that are aimed at beside none: the ends of each rule and of each cap are among them.
const HEIGHTS: [u32; 20] = [
    0, 1, 1_500, 2_399, 2_400, 2_401, 2_533, 2_534, 2_535, 2_536, 2_598, 2_599, 2_600, 2_601, 4_000, 5_263, 5_264,
    5_265, 5_999, 6_000,
];

/// As many turns as there are heights to aim at, none among them, and in both families.
const OF_A_FAMILY: u64 = 1 + HEIGHTS.len() as u64;
pub const AIMED: u64 = 2 * OF_A_FAMILY;

pub fn aimed(turn: u64) -> (u32, Option<u32>) {
    let place = (turn % OF_A_FAMILY) as usize;
    (1 + (turn / OF_A_FAMILY % 2) as u32, place.checked_sub(1).map(|place| HEIGHTS[place]))
}

/// A job of every stability height that is aimed at, about as high as permitted.
pub fn stability(random: &mut Random, _: &Lists, turn: u64) -> Turn {
    let (family, stability) = aimed(turn);
    let height = random.pick(&own_heights(family, &[stability]));
    let cells = vec![(stability_cell(family, stability), Expect::Height(stability))];
    standing_at(random, family, (stability, height), cells)
}

fn standing_at(random: &mut Random, family: u32, (stability, height): Way, cells: Cells) -> Turn {
    let planned = match at_stability(random, family, stability) {
        Some((job, sheet)) => judged(random, &job.with(7, height), &sheet.0, cells),
        None => plain(random),
    };
    Turn { calls: vec![planned], relation: Relation::Nothing }
}

pub fn stability_cell(family: u32, height: Option<u32>) -> Cell {
    cell("stability height", [family, u32::from(height.is_some()), height.unwrap_or(0), 0])
}

/// A job's stability height and its own height.
pub type Way = (Option<u32>, u32);

/// What to aim at for a cell: a family and one or two jobs.
pub type Ways<T> = BTreeMap<Cell, Vec<(u32, T)>>;

/// A job on every side of its permitted height.
pub fn alone(random: &mut Random, lists: &Lists, turn: u64) -> Turn {
    let (family, way) = random.pick(in_turn(&lists.alone, turn).1);
    standing_at(random, family, way, Vec::new())
}

/// Two jobs that demand 3 orders, in every way in which their permitted heights and check 12 can stand together.
pub fn pair(random: &mut Random, lists: &Lists, turn: u64) -> Turn {
    let (family, [first, second]) = random.pick(in_turn(&lists.together, turn).1);
    let Some((jobs, sheet)) = both_at_stability(random, family, [first.0, second.0]) else {
        return Turn { calls: vec![plain(random), plain(random)], relation: Relation::Nothing };
    };
    let jobs = [jobs[0].with(7, first.1), jobs[1].with(7, second.1)];
    let calls: Vec<Planned> = jobs.iter().map(|job| judged(random, job, &sheet.0, Vec::new())).collect();
    Turn { calls, relation: Relation::Pair }
}

/// The cell of a scaffold job's report.
pub fn report_cell(job: &Job, report: &Report) -> Cell {
    alone_cell(job.field(1), job.field(7), [report.stability, report.permitted], report.verdict(12))
}

/// Family and range of the stability height, whether a cap is at work, the height against the permitted, the verdict.
fn alone_cell(family: u32, height: u32, [stability, permitted]: [Option<u32>; 2], verdict: u8) -> Cell {
    let capped = stability.map(before_caps) > permitted;
    let key = [10 * family + range(stability), u32::from(capped), standing(height, permitted), u32::from(verdict)];
    cell("height against the permitted", key)
}

/// The cell of the reports of two scaffold jobs that demand 3 orders.
pub fn pair_cell(first: &Job, [one, other]: [&Report; 2]) -> Cell {
    let [one, other] = [one, other].map(|report| ([report.stability, report.permitted], report.verdict(12)));
    together_cell(first.field(1), one, other)
}

/// Family, ranges of both stability heights, both verdicts, and what becomes of the permitted height.
fn together_cell(family: u32, one: ([Option<u32>; 2], u8), other: ([Option<u32>; 2], u8)) -> Cell {
    let (ranges, verdicts) = (10 * range(one.0[0]) + range(other.0[0]), 10 * one.1 + other.1);
    cell("pair by permitted height", [family, ranges, u32::from(verdicts), change(one.0[1], other.0[1])])
}

/// Where a stability height lies: 0 none, 1 at 0, 2 up to 2,534, 3 from 2,535 to 2,599, 4 above.
pub fn range(stability: Option<u32>) -> u32 {
    match stability {
        None => 0,
        Some(0) => 1,
        Some(..2_535) => 2,
        Some(2_535..2_600) => 3,
        Some(_) => 4,
    }
}

/// How a job stands to its permitted height: 0 lower, 1 as high, 2 one centimetre higher, 3 higher, 4 without one.
fn standing(height: u32, permitted: Option<u32>) -> u32 {
    permitted.map_or(4, |permitted| (height + 1).saturating_sub(permitted).min(3))
}

/// What becomes of the permitted height from one job to the other: 0 equal, 1 falls, 2 vanishes, 3 rises.
pub fn change(one: Option<u32>, other: Option<u32>) -> u32 {
    match (one, other) {
        _ if one == other => 0,
        (Some(_), None) => 2,
        _ if one > other => 1,
        _ => 3,
    }
}

/// The permitted height of a stability height, and the verdict of check 12 at a job's own.
fn judgement(family: u32, (stability, height): Way) -> ([Option<u32>; 2], u8) {
    let permitted = stability.map(|stability| permitted(&of_family(family), stability));
    let passes = permitted.is_some_and(|permitted| height <= permitted);
    ([stability, permitted], if passes { 1 } else { 2 })
}

fn of_family(family: u32) -> Job {
    Fields([1; 25]).with(1, family)
}

/// Heights of a job beside what each stability height permits, and the ends of its range.
fn own_heights(family: u32, stability: &[Option<u32>]) -> Vec<u32> {
    let (least, most) = bounds(&of_family(family), 7);
    let permitted = stability.iter().filter_map(|&stability| judgement(family, (stability, 0)).0[1]);
    let beside = permitted.flat_map(|permitted| permitted.saturating_sub(2)..=permitted + 2);
    let heights: BTreeSet<u32> = beside.chain([least, most]).filter(|height| (least..=most).contains(height)).collect();
    heights.into_iter().collect()
}

/// Every cell of one job that can be filled, with what to aim at.
pub fn ways_alone() -> Ways<Way> {
    let mut ways = Ways::new();
    for (family, stability) in (0..AIMED).map(aimed) {
        for height in own_heights(family, &[stability]) {
            let (heights, verdict) = judgement(family, (stability, height));
            let cell = alone_cell(family, height, heights, verdict);
            ways.entry(cell).or_insert_with(Vec::new).push((family, (stability, height)));
        }
    }
    ways
}

/// Every cell of two jobs that can be filled, with what to aim at: the second is no lower, its stability no greater.
pub fn ways_together() -> Ways<[Way; 2]> {
    let mut ways = Ways::new();
    for (family, one) in (0..AIMED).map(aimed) {
        for (_, other) in (0..OF_A_FAMILY).map(aimed).filter(|&(_, other)| other <= one) {
            for jobs in ordered(&own_heights(family, &[one, other])).map(|[low, high]| [(one, low), (other, high)]) {
                let [first, second] = jobs.map(|job| judgement(family, job));
                ways.entry(together_cell(family, first, second)).or_insert_with(Vec::new).push((family, jobs));
            }
        }
    }
    ways
}

/// Each two of the heights, the second no lower.
fn ordered(heights: &[u32]) -> impl Iterator<Item = [u32; 2]> {
    (0..heights.len()).flat_map(move |low| heights[low..].iter().map(move |&high| [heights[low], high]))
}
