//! The turns on accepted jobs: uniform, tuned, and demand 3's pairs and heights.

use super::any_job::AnyJob;
use super::exact::at_limit as job_at_limit;
use super::jobs::{accepted, any_accepted, bounds, heavier};
use super::sheets::{Entries, valid};
use super::shields::share_cell;
use super::tuned::{AIMS, Aim, Edge, around, bisect, edge, is_between, near_capacity};
use super::{Lists, Planned, Relation, Turn, files, verdict};
use crate::call::Call;
use crate::coverage::{Cell, Expect, cell};
use crate::paper::checks::check;
use crate::paper::heights::reported;
use crate::paper::job::{Fields, Job};
use crate::paper::sheet::Sheet;
use crate::random::Random;

pub type Cells = Vec<(Cell, Expect)>;

pub fn single(call: Call, cells: Cells) -> Turn {
    Turn { calls: vec![Planned { call, cells }], relation: Relation::Nothing }
}

pub fn judged<const N: usize>(random: &mut Random, job: &Fields<N>, sheet: &Entries, cells: Cells) -> Planned
where
    Fields<N>: AnyJob,
{
    Planned { call: verdict(random, job, sheet), cells }
}

/// A job through one of the three calls: 0 verdict, 1 write, 2 read.
pub fn through<const N: usize>(random: &mut Random, kind: u64, job: &Fields<N>) -> Call
where
    Fields<N>: AnyJob,
{
    let most = Fields::<N>::FILE_MOST;
    let fill = random.next();
    match kind {
        0 => {
            let sheet = valid(random);
            verdict(random, job, &sheet)
        }
        1 => job.write(random.within(most, most + 6) as usize, fill),
        _ => Call::Read { file: files::whole(job), fill },
    }
}

pub fn uniform(random: &mut Random, _: &Lists, turn: u64) -> Turn {
    let job = any_accepted(random);
    let kind = [0, 0, 0, 1, 2][turn as usize % 5];
    let of_kind = cell("accepted", [kind as u32, job.field(1), job.field(2), job.field(17)]);
    let cells = std::iter::once(of_kind).chain(share_cell(kind as u32, &job));
    single(through(random, kind, &job), cells.map(|cell| (cell, Expect::Success)).collect())
}

/// The sides of a limit.
pub const LAST_PASS: u32 = 1;
pub const FIRST_FAIL: u32 = 2;
pub const EQUAL: u32 = 0;

pub fn limit_cell(aim: Aim, side: u32) -> Cell {
    cell("check at its limit", [aim.check as u32, aim.family, aim.tube, side])
}

/// The last job that passes, the first that fails, and one step to each side.
pub fn tuned(random: &mut Random, _: &Lists, turn: u64) -> Turn {
    let aim = Aim::number(turn);
    match edge(random, aim) {
        Some(edge) => around_limit(random, aim, &edge),
        None => Turn { calls: (0..4).map(|_| plain(random)).collect(), relation: Relation::Nothing },
    }
}

/// The calls on the four jobs around an edge.
pub fn around_limit<const N: usize>(random: &mut Random, aim: Aim, edge: &Edge<N>) -> Turn
where
    Fields<N>: AnyJob,
{
    let jobs = around(edge);
    let passes = Expect::Verdict(aim.check, 1);
    let fails = Expect::Verdict(aim.check, 2);
    let mut last = vec![(limit_cell(aim, LAST_PASS), passes)];
    let first = vec![(limit_cell(aim, FIRST_FAIL), fails)];
    if aim.stands_at_limit(&edge.passing, &edge.sheet) {
        last.push((limit_cell(aim, EQUAL), passes));
    }
    let cells = [Vec::new(), last, first, Vec::new()];
    let calls = jobs.iter().zip(cells).map(|(job, cells)| judged(random, job, &edge.sheet.0, cells)).collect();
    Turn { calls, relation: Relation::Nothing }
}

/// The last job that passes and the first that fails, each with its cell.
pub fn both_sides<const N: usize>(random: &mut Random, edge: &Edge<N>, check: usize, cell: impl Fn(u32) -> Cell) -> Turn
where
    Fields<N>: AnyJob,
{
    let sides = [(&edge.passing, LAST_PASS, 1), (&edge.failing, FIRST_FAIL, 2)];
    let calls = sides.map(|(job, side, verdict)| {
        judged(random, job, &edge.sheet.0, vec![(cell(side), Expect::Verdict(check, verdict))])
    });
    Turn { calls: calls.into(), relation: Relation::Nothing }
}

/// Check, family and what governs: 150 where the span over 150 does, 10 where 10 mm do.
/// In a single row check 2 is never governed by 10 mm: a spacing of at most 150 cm over 150 is at most 10 mm.
pub const DEFLECTIONS: [(usize, u32, u32); 7] =
    [(2, 1, 150), (2, 1, 10), (2, 2, 150), (4, 1, 150), (4, 1, 10), (4, 2, 150), (4, 2, 10)];

/// The last live load that passes a deflection check and the first that fails, under each of its two limits.
pub fn deflection(random: &mut Random, _: &Lists, turn: u64) -> Turn {
    let (number, family, governs) = DEFLECTIONS[turn as usize % 7];
    let aim = Aim { check: number, family, tube: random.within(1, 2) };
    let edge = (0..200).find_map(|_| {
        let job = accepted(random, family, aim.tube, 1).with(12, 30_000);
        let span = if number == 2 { job.field(3) } else { job.field(4) };
        let wanted = if governs == 10 { span > 150 } else { span < 150 };
        if wanted { bisect(&job, Sheet(valid(random)), 11, |job, sheet| aim.fails(job, sheet)) } else { None }
    });
    let Some(edge) = edge else {
        return Turn { calls: vec![plain(random), plain(random)], relation: Relation::Nothing };
    };
    both_sides(random, &edge, number, |side| deflection_cell(number, family, governs, side))
}

pub fn deflection_cell(check: usize, family: u32, governs: u32, side: u32) -> Cell {
    cell("deflection limit", [check as u32, family, governs, side])
}

pub fn plain(random: &mut Random) -> Planned {
    let (job, sheet) = (any_accepted(random), valid(random));
    judged(random, &job, &sheet, Vec::new())
}

/// A job whose compared quantities are equal.
pub fn at_limit(random: &mut Random, _: &Lists, turn: u64) -> Turn {
    let aim = Aim::number(turn);
    let planned = match job_at_limit(random, aim) {
        Some((job, sheet)) => equal(random, aim, &job, &sheet),
        None => plain(random),
    };
    Turn { calls: vec![planned], relation: Relation::Nothing }
}

/// The call on a job that stands at the very limit.
pub fn equal<const N: usize>(random: &mut Random, aim: Aim, job: &Fields<N>, sheet: &Sheet) -> Planned
where
    Fields<N>: AnyJob,
{
    let passes = Expect::Verdict(aim.check, 1);
    let mut cells = vec![(limit_cell(aim, EQUAL), passes)];
    if is_between(job, sheet) {
        cells.push((between_cell(aim), passes));
    }
    judged(random, job, &sheet.0, cells)
}

/// The compared quantities are equal and φ lies between two unequal entries.
pub fn between_cell(aim: Aim) -> Cell {
    cell("equality between entries", [aim.check as u32, aim.family, aim.tube, 0])
}

/// A job from the searches, or one at the limit of check 8 in wind.
pub fn exact(random: &mut Random, lists: &Lists, turn: u64) -> Turn {
    if turn.is_multiple_of(10) {
        let (fine, job, sheet) = &lists.atlas.windy[turn as usize / 10 % lists.atlas.windy.len()];
        let cells = vec![(windy_cell(job.field(1), job.field(2), *fine), Expect::Verdict(8, 1))];
        return Turn { calls: vec![judged(random, job, &sheet.0, cells)], relation: Relation::Nothing };
    }
    let number = (turn - turn / 10) % AIMS;
    let (jobs, aim) = (&lists.atlas.exact[number as usize], Aim::number(number));
    if jobs.is_empty() {
        return Turn { calls: vec![plain(random)], relation: Relation::Nothing };
    }
    let (job, sheet) = (jobs[random.below(jobs.len())], valid(random));
    let planned = judged(random, &job, &sheet, vec![(exact_cell(aim), Expect::Verdict(aim.check, 1))]);
    Turn { calls: vec![planned], relation: Relation::Nothing }
}

pub fn windy_cell(family: u32, tube: u32, fine: bool) -> Cell {
    cell("equality in wind", [family, tube, u32::from(fine), 0])
}

pub fn exact_cell(aim: Aim) -> Cell {
    cell("equality before rounding", [aim.check as u32, aim.family, aim.tube, 0])
}

/// Check 8's due boundary: wind, enclosure and the face of a tie, each on both sides.
pub fn due(random: &mut Random, lists: &Lists, turn: u64) -> Turn {
    let (wind, enclosure, wide) = (350 + (turn % 2) as u32, 1 + (turn / 2 % 3) as u32, (turn / 6 % 2) as usize);
    let (family, tube) = (random.within(1, 2), random.within(1, 2));
    let (step, bay) = lists.atlas.faces[wide];
    let job = accepted(random, family, tube, enclosure).with(15, wind).with(6, 3).with(5, step).with(4, bay);
    let sheet = Sheet(valid(random));
    let verdict = check(8, &job, &sheet, job.field(7)).verdict();
    let cells = vec![(cell("due boundary", [wind, enclosure, wide as u32, 0]), Expect::Verdict(8, verdict))];
    Turn { calls: vec![judged(random, &job, &sheet.0, cells)], relation: Relation::Nothing }
}

/// Demand 3: the first job stands just beyond a limit in most turns, the second is no lighter.
pub fn pair(random: &mut Random, _: &Lists, turn: u64) -> Turn {
    let aim = Aim::number(turn);
    let edge = edge(random, aim);
    let (first, sheet) = match edge {
        Some(edge) => (if random.once_in(4) { edge.passing } else { edge.failing }, edge.sheet),
        None => (any_accepted(random), Sheet(valid(random))),
    };
    let second = heavier(random, &first);
    let cells = vec![(limit_pair_cell(aim, 0), Expect::Verdict(aim.check, 2))];
    let calls = vec![judged(random, &first, &sheet.0, Vec::new()), judged(random, &second, &sheet.0, cells)];
    Turn { calls, relation: Relation::Pair }
}

/// The order of a pair is demand 3's where it is 0.
pub fn limit_pair_cell(aim: Aim, order: u32) -> Cell {
    cell("pair at a limit", [aim.check as u32, aim.family, aim.tube, order])
}

/// Demand 3: a job at its stability height and one above it, and at any height or at the permitted height or one above
/// it, where field 7 allows them.
pub fn heights(random: &mut Random, _: &Lists, turn: u64) -> Turn {
    let (family, tube, enclosure) = (1 + (turn % 2) as u32, random.within(1, 2), random.within(1, 3));
    let job = accepted(random, family, tube, enclosure);
    let (height, share) = (job.field(7), random.within(1_000, 1_200));
    let sheet = near_capacity(random, &job, height, share).unwrap_or_else(|| Sheet(valid(random)));
    at_heights(random, turn, job, &sheet, |above| cell("own height", [family, above, 0, 0]))
}

/// The calls on a job at these heights; the cell with 0 is that of the stability height, with 1 of the one above it.
pub fn at_heights(random: &mut Random, turn: u64, job: Job, sheet: &Sheet, cell: impl Fn(u32) -> Cell) -> Turn {
    let heights = reported(&job, sheet);
    let (greatest, permitted) =
        (heights.map(|(stability, _)| stability), heights.map_or(0, |(_, permitted)| permitted));
    let highest = bounds(&job, 7).1;
    let first = [random.within(1, highest), permitted, permitted + 1][turn as usize / 2 % 3];
    let at = greatest.filter(|height| (1..=highest).contains(height));
    let above = greatest.map_or(1, |height| height + 1);
    let mut calls = vec![judged(random, &job.with(7, first.clamp(1, highest)), &sheet.0, Vec::new())];
    let cells = at.map(|_| (cell(0), Expect::Poles(true))).into_iter().collect();
    calls.push(judged(random, &job.with(7, at.unwrap_or(highest)), &sheet.0, cells));
    let allowed = above <= highest;
    let cells = allowed.then(|| (cell(1), Expect::Poles(false))).into_iter().collect();
    calls.push(judged(random, &job.with(7, if allowed { above } else { 1 }), &sheet.0, cells));
    Turn { calls, relation: Relation::Heights }
}
