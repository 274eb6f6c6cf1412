//! The turns on what is told of two ends: each check at its limit, check 8 where it becomes due, the heights, and jobs
//! between the ends.

use super::any_job::AnyJob;
use super::between::{Pair, inside, judged, plain, shifted, turn};
use super::heights::{AIMED, aimed, change, range};
use super::jobs::{accepted, any_accepted, heavier};
use super::kinds::{self, Cells};
use super::sheets::valid;
use super::slender::in_turn;
use super::tuned::{Aim, Edge, around, bearing, bisect, both_at_stability, edge};
use super::{Lists, Planned, Relation, Turn};
use crate::coverage::{Cell, Expect, cell};
use crate::paper::between::{FAILS_THROUGHOUT, PASSES_THROUGHOUT, UNDECIDED, height};
use crate::paper::figures::pole_force_in_wind;
use crate::paper::job::Job;
use crate::paper::sheet::Sheet;
use crate::random::Random;
use std::collections::BTreeMap;

fn plain_turn(random: &mut Random, calls: usize) -> Turn {
    Turn { calls: (0..calls).map(|_| plain(random)).collect(), relation: Relation::Nothing }
}

/// A check that passes at both ends of a pair, at one, at none: each end a step of one field from the limit, and the
/// same limit between a milder and a heavier job.
pub fn limit(random: &mut Random, _: &Lists, number: u64) -> Turn {
    let aim = Aim::number(number);
    let Some(edge) = edge(random, aim) else {
        return plain_turn(random, 4);
    };
    let wide = [shifted(random, &edge.passing, false, 6, &[]), heavier(random, &edge.failing)];
    let told = [PASSES_THROUGHOUT, UNDECIDED, FAILS_THROUGHOUT, UNDECIDED];
    let of_limit = told.map(|told| (limit_cell(aim, told), Expect::Told(aim.check, told)));
    on_steps(random, &edge, wide, of_limit.map(|cell| vec![cell]))
}

/// The calls on the steps around an edge, one after another, and on a pair around all of them.
fn on_steps(random: &mut Random, edge: &Edge, wide: Pair, cells: [Cells; 4]) -> Turn {
    let [before, passing, failing, behind] = around(edge);
    let pairs = [[before, passing], [passing, failing], [failing, behind], wide];
    let calls = pairs.iter().zip(cells).map(|(pair, mut cells)| {
        cells.push(both_ends_cell(pair, &edge.sheet));
        judged(random, pair, &edge.sheet.0, cells)
    });
    Turn { calls: calls.collect(), relation: Relation::Nothing }
}

pub fn limit_cell(aim: Aim, told: u32) -> Cell {
    cell("told at a limit", [aim.check as u32, aim.family, aim.tube, told])
}

/// The verdicts of check 8 at the ends that can stand together: once due it is due at every harsher job.
pub const OF_8: [(u8, u8); 6] = [(0, 0), (0, 1), (0, 2), (1, 1), (1, 2), (2, 2)];

/// Check 8's verdict at each end, with what has to be told of them.
fn both_ends_cell(pair: &Pair, sheet: &Sheet) -> (Cell, Expect) {
    let [mild, harsh] = pair.map(|job| job.check(8, sheet).verdict());
    let told = match (mild, harsh) {
        (2, _) => FAILS_THROUGHOUT,
        (_, 2) => UNDECIDED,
        _ => PASSES_THROUGHOUT,
    };
    (of_8_cell(pair[0].field(1), pair[0].field(2), (mild, harsh)), Expect::Told(8, told))
}

pub fn of_8_cell(family: u32, tube: u32, (mild, harsh): (u8, u8)) -> Cell {
    cell("check 8 at both ends", [family, tube, u32::from(mild), u32::from(harsh)])
}

/// As many turns as there are fields by which check 8 becomes due, verdicts where it does, families and tubes.
pub const DUE: u64 = 24;

/// The field, the verdict at the harsh end, family and tube.
pub fn due_key(number: u64) -> [u32; 4] {
    let number = number as u32;
    [[15, 4, 5][number as usize % 3], 1 + number / 3 % 2, 1 + number / 6 % 2, 1 + number / 12 % 2]
}

/// Check 8 not due at the mild end and due at the harsh, one step of wind, bay or step away: it passes or fails there.
pub fn due(random: &mut Random, _: &Lists, number: u64) -> Turn {
    let key @ [_, verdict, ..] = due_key(number);
    let Some(edge) = due_edge(random, key) else {
        return plain_turn(random, 4);
    };
    let wide = [shifted(random, &edge.passing, false, 6, &[]), edge.failing];
    let told = if verdict == 2 { UNDECIDED } else { PASSES_THROUGHOUT };
    let becomes = vec![(due_cell(key), Expect::Told(8, told))];
    on_steps(random, &edge, wide, [Vec::new(), becomes, Vec::new(), Vec::new()])
}

pub fn due_cell(key: [u32; 4]) -> Cell {
    cell("check 8 becomes due", key)
}

/// Two jobs a step of the field apart, of which the second has check 8 due; the sheet decides its verdict.
fn due_edge(random: &mut Random, [field, verdict, family, tube]: [u32; 4]) -> Option<Edge> {
    let shares = if verdict == 2 { (400, 1_000) } else { (1_000, 2_500) };
    (0..300).find_map(|_| {
        let job = accepted(random, family, tube, 1);
        let job = if field == 15 { job } else { with_wide_face(random, &job, field) };
        let edge = bisect(&job, Sheet(valid(random)), field as usize, |job, sheet| job.check(8, sheet).due)?;
        let (force, share) = (pole_force_in_wind(&edge.failing, job.field(7)), random.within(shares.0, shares.1));
        let sheet = bearing(random, &edge.failing, force, share)?;
        let is_wanted = u32::from(edge.failing.check(8, &sheet).verdict()) == verdict;
        is_wanted.then_some(Edge { sheet, ..edge })
    })
}

/// In light wind, with a face beside 30 m² that the bay or the step decides: 9 × h × la.
fn with_wide_face(random: &mut Random, job: &Job, field: u32) -> Job {
    let (other, wind) = (if field == 4 { 5 } else { 4 }, random.within(0, 350));
    job.with(6, 3).with(15, wind).with(other, random.within(167, 200))
}

/// What to aim at for a cell of two stability heights: a family and the heights.
pub type Heights = BTreeMap<Cell, Vec<(u32, [Option<u32>; 2])>>;

/// Every cell that can be filled: the harsh end's height is no greater.
pub fn height_pairs() -> Heights {
    let mut pairs = Heights::new();
    for (family, mild) in (0..AIMED).map(aimed) {
        for (_, harsh) in (0..AIMED / 2).map(aimed).filter(|&(_, harsh)| harsh <= mild) {
            let key = [family, range(mild), range(harsh), change(mild, harsh)];
            pairs.entry(cell("heights of two ends", key)).or_insert_with(Vec::new).push((family, [mild, harsh]));
        }
    }
    pairs
}

/// Ends of given stability heights: none at both, at the harsh end alone, equal, falling from one rule to another.
pub fn ends_of_heights(random: &mut Random, lists: &Lists, number: u64) -> Turn {
    let (key, pairs) = in_turn(&lists.end_heights, number);
    let (family, heights) = random.pick(pairs);
    match both_at_stability(random, family, heights) {
        Some((pair, sheet)) => {
            let cells = vec![(key, Expect::Ends(heights.map(height)))];
            Turn { calls: vec![judged(random, &pair, &sheet.0, cells)], relation: Relation::Nothing }
        }
        None => plain_turn(random, 1),
    }
}

/// As many turns as there are families, tubes, boards, enclosures and walls.
pub const BANDS: u64 = 72;

/// Family and tube, boards, enclosure and wall behind.
pub fn band_key(number: u64) -> [u32; 4] {
    let number = number as u32;
    let (family, tube) = (1 + number % 2, 1 + number / 2 % 2);
    [10 * family + tube, 1 + number / 4 % 3, 1 + number / 12 % 3, 1 + number / 36 % 2]
}

/// Ends apart in several fields, and in free ones.
pub fn band(random: &mut Random, _: &Lists, number: u64) -> Turn {
    let key @ [family_and_tube, boards, enclosure, wall] = band_key(number);
    let mild = accepted(random, family_and_tube / 10, family_and_tube % 10, enclosure).with(8, boards).with(19, wall);
    let harsh = heavier(random, &mild);
    turn(random, &[mild, harsh], vec![(band_cell(key), Expect::Length(14))])
}

pub fn band_cell(key: [u32; 4]) -> Cell {
    cell("band", key)
}

/// How many jobs between two ends are tried in a turn.
const BETWEEN: usize = 4;

/// What is told of two ends, against the verdicts on both and on jobs between them; most ends stand beside a limit.
pub fn promised(random: &mut Random, _: &Lists, number: u64) -> Turn {
    let (pair, sheet) = match edge(random, Aim::number(number)) {
        Some(edge) => (beside_limit(random, &edge), edge.sheet),
        None => {
            let mild = any_accepted(random);
            ([mild, heavier(random, &mild)], Sheet(valid(random)))
        }
    };
    with_jobs_between(random, &pair, &sheet, Vec::new())
}

/// The call on two ends, with its cells, then verdicts on both and on jobs between them.
pub fn with_jobs_between(random: &mut Random, pair: &Pair, sheet: &Sheet, cells: Cells) -> Turn {
    let mut jobs = pair.to_vec();
    jobs.extend((0..BETWEEN).map(|_| inside(random, pair)));
    let mut calls: Vec<Planned> = vec![judged(random, pair, &sheet.0, cells)];
    calls.extend(jobs.iter().map(|job| kinds::judged(random, job, &sheet.0, Vec::new())));
    Turn { calls, relation: Relation::Between }
}

/// Both ends on one side of the limit, or one on each.
fn beside_limit(random: &mut Random, edge: &Edge) -> Pair {
    let often = random.pick(&[3, 6, 12]);
    match random.below(4) {
        0 => [shifted(random, &edge.passing, false, often, &[]), edge.passing],
        1 => [edge.failing, heavier(random, &edge.failing)],
        _ => [shifted(random, &edge.passing, false, often, &[]), heavier(random, &edge.failing)],
    }
}
