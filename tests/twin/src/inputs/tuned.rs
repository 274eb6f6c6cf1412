//! Tuned jobs: a check at its limit, found by bisecting one field with the twin.

use super::any_job::AnyJob;
use super::columns::{Column, place_at, with_column};
use super::jobs::accepted;
use super::sheets::{neighbours, through, valid};
use crate::paper::figures::pole_force;
use crate::paper::heights::{pole_checks_pass, stability};
use crate::paper::job::{Fields, Job};
use crate::paper::sheet::Sheet;
use crate::random::Random;

/// The fields by which each check is brought to its limit.
const FIELDS: [&[usize]; 12] = [
    &[11, 4, 3],
    &[11, 4, 3],
    &[11, 4, 3],
    &[11, 4, 3],
    &[11, 4, 3],
    &[5, 5, 6],
    &[13, 7, 14, 12, 4, 5, 9, 10, 3],
    &[13, 7, 14, 12, 15, 16, 18, 4, 5],
    &[22, 15, 16, 18, 4, 5],
    &[13, 7, 14, 12, 4, 9, 10, 3],
    &[24, 25, 13, 7, 14, 12, 4],
    &[7, 7, 13, 14, 12, 15, 4, 5, 9, 10],
];

/// As many aims as there are of scaffold jobs: each check in each family and tube.
pub const AIMS: u64 = 48;

/// Two jobs a single step of one field apart: the check passes for one and fails for the other.
pub struct Edge<const N: usize = 25> {
    pub sheet: Sheet,
    pub passing: Fields<N>,
    pub failing: Fields<N>,
    pub field: usize,
}

/// What is tuned: a check in a family and a tube; supports are family 3.
#[derive(Clone, Copy)]
pub struct Aim {
    pub check: usize,
    pub family: u32,
    pub tube: u32,
}

impl Aim {
    /// The aims of scaffold jobs in turn.
    pub fn number(turn: u64) -> Aim {
        let (check, rest) = (turn % 12, turn / 12);
        Aim { check: 1 + check as usize, family: 1 + (rest % 2) as u32, tube: 1 + (rest / 2 % 2) as u32 }
    }

    pub fn fails(&self, job: &impl AnyJob, sheet: &Sheet) -> bool {
        job.check(self.check, sheet).verdict() == 2
    }

    pub fn stands_at_limit(&self, job: &impl AnyJob, sheet: &Sheet) -> bool {
        let check = job.check(self.check, sheet);
        check.due && check.left == check.right
    }
}

/// An edge of the aim's check; none where forty jobs have none.
pub fn edge(random: &mut Random, aim: Aim) -> Option<Edge> {
    (0..40).find_map(|_| {
        let enclosure = random.within(1, 3);
        let job = accepted(random, aim.family, aim.tube, enclosure);
        let sheet = sheet_for(random, &job, aim.check);
        let field = random.pick(FIELDS[aim.check - 1]);
        let is_gapped = field == 3 && job.is_double_row();
        if is_gapped { None } else { bisect(&job, sheet, field, |job, sheet| aim.fails(job, sheet)) }
    })
}

/// An edge of check 7 or 8 on a column; none where sixty jobs have none.
pub fn edge_on(random: &mut Random, aim: Aim, column: Column, sheet: SheetFor<25>) -> Option<Edge> {
    (0..60).find_map(|_| {
        let enclosure = random.within(1, 3);
        let job = with_column(&accepted(random, aim.family, aim.tube, enclosure), column);
        let (sheet, field) = (sheet(random, &job, aim.check), random.pick(&[13, 7, 14, 12]));
        bisect(&job, sheet, field, |job, sheet| aim.fails(job, sheet))
    })
}

/// Gives a sheet for a job and a check.
pub type SheetFor<const N: usize> = fn(&mut Random, &Fields<N>, usize) -> Sheet;

/// The edge along one field, where the verdict differs between its ends.
pub fn bisect<const N: usize>(
    job: &Fields<N>,
    sheet: Sheet,
    field: usize,
    fails: impl Fn(&Fields<N>, &Sheet) -> bool,
) -> Option<Edge<N>>
where
    Fields<N>: AnyJob,
{
    let (mut low, mut high) = job.bounds(field);
    let fails_low = fails(&job.with(field, low), &sheet);
    if fails_low == fails(&job.with(field, high), &sheet) {
        return None;
    }
    while high - low > 1 {
        let middle = low + (high - low) / 2;
        if fails(&job.with(field, middle), &sheet) == fails_low {
            low = middle;
        } else {
            high = middle;
        }
    }
    let (passes, fails) = if fails_low { (high, low) } else { (low, high) };
    Some(Edge { sheet, passing: job.with(field, passes), failing: job.with(field, fails), field })
}

/// The edge's two jobs and the next one on each side of them, where the field goes so far.
pub fn around<const N: usize>(edge: &Edge<N>) -> [Fields<N>; 4]
where
    Fields<N>: AnyJob,
{
    let (passes, fails) = (edge.passing.field(edge.field), edge.failing.field(edge.field));
    let (low, high) = edge.passing.bounds(edge.field);
    let beside =
        |value: u32, other: u32| if value > other { (value + 1).min(high) } else { value.saturating_sub(1).max(low) };
    let (before, behind) = (beside(passes, fails), beside(fails, passes));
    [edge.passing.with(edge.field, before), edge.passing, edge.failing, edge.failing.with(edge.field, behind)]
}

// Checks 7, 8 and 12 need a sheet under which the job stands near what its pole bears.
pub fn sheet_for<const N: usize>(random: &mut Random, job: &Fields<N>, check: usize) -> Sheet
where
    Fields<N>: AnyJob,
{
    let share = random.within(900, 1500);
    match check {
        7 | 8 | 12 => bearing(random, job, job.pole_force(), share).unwrap_or_else(|| Sheet(valid(random))),
        _ => Sheet(valid(random)),
    }
}

/// Ten-thousandths of φ by which φAf is a whole number of newtons are multiples of these.
const WHOLE_CAPACITY: [u32; 2] = [2_000, 500];

/// Ten-thousandths of φ that lie so many tenths past an entry are multiples of these.
const ON_A_LINE: [u32; 10] = [10, 1, 2, 1, 2, 5, 2, 1, 2, 1];

/// A sheet under which N at the height is about φAf; `share` is φAf in thousandths of N.
pub fn near_capacity(random: &mut Random, job: &Job, height: u32, share: u32) -> Option<Sheet> {
    bearing(random, job, pole_force(job, height), share)
}

/// A sheet under which the job's pole bears about the force.
pub fn bearing<const N: usize>(random: &mut Random, job: &Fields<N>, force: i128, share: u32) -> Option<Sheet>
where
    Fields<N>: AnyJob,
{
    let (k, tenths) = place_at(job.tenths())?;
    let plain = [489, 452][job.field(2) as usize - 1] * 205;
    let factor = (force * i128::from(share) * 10 / plain) as u32;
    let step = if random.once_in(2) { WHOLE_CAPACITY[job.field(2) as usize - 1] } else { ON_A_LINE[tenths as usize] };
    let entries = neighbours(random, tenths, factor.div_ceil(step) * step)?;
    Some(Sheet(through(random, k, entries)))
}

/// Whether φ lies between two unequal entries.
pub fn is_between(job: &impl AnyJob, sheet: &Sheet) -> bool {
    place_at(job.tenths()).is_some_and(|(k, tenths)| tenths != 0 && sheet.0[k] != sheet.0[k + 1])
}

/// A job whose stability height is the given one, tuned by the nets S.
pub fn at_stability(random: &mut Random, family: u32, height: Option<u32>) -> Option<(Job, Sheet)> {
    (0..60).find_map(|_| {
        let (tube, enclosure) = (random.within(1, 2), random.within(1, 3));
        let job = accepted(random, family, tube, enclosure);
        let share = random.within(1000, 1300);
        let sheet = near_capacity(random, &job.with(13, 2_500), height.unwrap_or(0), share)?;
        Some((with_stability(&job, &sheet, height)?, sheet))
    })
}

/// Two jobs alike but for the nets S, of the given stability heights, of which the second is no greater.
pub fn both_at_stability(random: &mut Random, family: u32, heights: [Option<u32>; 2]) -> Option<([Job; 2], Sheet)> {
    let [first, second] = heights.map(|height| height.unwrap_or(0));
    (0..200).find_map(|_| {
        let (tube, enclosure) = (random.within(1, 2), random.within(1, 3));
        // So light a structure that nets of 5,000 N outweigh the whole fall.
        let structure = random.within(50, 400_000 / (first - second).max(800));
        let job = accepted(random, family, tube, enclosure).with(14, structure).with(13, random.within(0, 500));
        let share = random.within(1000, 1050);
        let sheet = near_capacity(random, &job, first, share)?;
        let [first, second] = heights.map(|height| with_stability(&job, &sheet, height));
        Some(([first?, second?], sheet))
    })
}

/// The job with nets by which its stability height is the given one.
fn with_stability(job: &Job, sheet: &Sheet, height: Option<u32>) -> Option<Job> {
    let fails = |job: &Job, sheet: &Sheet| !pole_checks_pass(job, sheet, height.unwrap_or(0));
    let edge = bisect(job, sheet.clone(), 13, fails)?;
    let job = if height.is_some() { edge.passing } else { edge.failing };
    (stability(&job, sheet) == height).then_some(job)
}
