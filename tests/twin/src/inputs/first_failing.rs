//! Books for the call on the first failing row: rows that pass every check under a sheet, rows that fail one alone.

use super::books::whole;
use super::jobs::{accepted, any_accepted, leaning, with_any_wall};
use super::kinds::{Cells, single};
use super::sheets::{Entries, to_bytes, valid};
use super::tuned::{AIMS, Aim, Edge, bearing, bisect};
use super::{Turn, any_job::AnyJob};
use crate::call::Call;
use crate::coverage::Expect;
use crate::paper::checks::check;
use crate::paper::job::{Job, range};
use crate::paper::refusal::NONE;
use crate::paper::sheet::Sheet;
use crate::random::Random;

pub fn call(random: &mut Random, sheet: Vec<u8>, book: Vec<u8>) -> Call {
    Call::FirstFailing { sheet, book, fill: random.next() }
}

/// The turn of one call on rows under a sheet.
pub fn turn(random: &mut Random, sheet: &Entries, rows: &[Job], cells: Cells) -> Turn {
    single(call(random, to_bytes(sheet), whole(rows)), cells)
}

/// A turn on any rows.
pub fn plain(random: &mut Random) -> Turn {
    let (rows, sheet) = ([any_accepted(random), any_accepted(random)], valid(random));
    turn(random, &sheet, &rows, Vec::new())
}

/// What is answered where a row is the first that fails, or none of so many.
pub fn told(place: Option<usize>, rows: usize) -> Expect {
    Expect::First(match place {
        Some(place) => [place as u32, place as u32 + 1],
        None => [NONE, rows as u32],
    })
}

fn fails(number: usize, job: &Job, sheet: &Sheet) -> bool {
    check(number, job, sheet, job.field(7)).verdict() == 2
}

/// The checks that fail for a job.
pub fn failed(job: &Job, sheet: &Sheet) -> Vec<usize> {
    (1..=12).filter(|&number| fails(number, job, sheet)).collect()
}

pub fn passes(job: &Job, sheet: &Sheet) -> bool {
    !(1..=12).any(|number| fails(number, job, sheet))
}

/// A job that most sheets let pass: its height, loads and wind lean to the low end, tie and ground are strong.
fn leaning_low(random: &mut Random, family: u32) -> Job {
    let (tube, enclosure) = (random.within(1, 2), random.within(1, 3));
    let job = accepted(random, family, tube, enclosure);
    let job = [(7, 2), (9, 3), (11, 4), (12, 4), (13, 3), (15, 3), (16, 2)]
        .into_iter()
        .fold(job, |job, (field, power)| job.with(field, leaning(random, range(&job, field), power)));
    let job = job.with(10, job.field(10).min(job.field(9))).with(12, job.field(12).max(job.field(11)));
    job.with(22, random.within(30_000, 100_000))
        .with(24, random.within(300, 2_000))
        .with(25, random.within(3_000, 10_000))
}

/// A job that every sheet lets pass: 1,300 N at most on a pole that bears 10,000.
fn light(random: &mut Random, family: u32) -> Job {
    let job = leaning_low(random, family)
        .with(4, 60)
        .with(5, random.within(60, 80))
        .with(6, 2)
        .with(7, random.within(1, 100));
    let job =
        job.with(9, 1).with(10, 1).with(11, random.within(0, 500)).with(12, random.within(500, 1_000)).with(13, 0);
    job.with(14, random.within(50, 100)).with(15, random.within(0, 100)).with(16, random.within(100, 1_000))
}

/// A job that passes every check under a sheet.
pub fn passing(random: &mut Random, family: u32, sheet: &Sheet) -> Job {
    let found = (0..40).find_map(|_| Some(leaning_low(random, family)).filter(|job| passes(job, sheet)));
    found.unwrap_or_else(|| light(random, family))
}

/// A job that passes every check, check 8 not being due.
pub fn passing_not_due(random: &mut Random, family: u32, sheet: &Sheet) -> Job {
    let in_light_wind = |job: Job, wind| job.with(17, 1).with(15, wind).with(6, 2);
    let found = (0..40).find_map(|_| {
        let (job, wind) = (leaning_low(random, family), random.within(0, 350));
        Some(in_light_wind(job, wind)).filter(|job| passes(job, sheet) && is_not_due(job, sheet))
    });
    found.unwrap_or_else(|| in_light_wind(light(random, family), 100))
}

/// Check 8 is not due.
pub fn is_not_due(job: &Job, sheet: &Sheet) -> bool {
    job.check(8, sheet).verdict() == 0
}

/// So many rows are unlike in more than their wall.
const UNLIKE: usize = 12;

/// Rows of any family that pass, now and then one of them twice. Beyond a dozen they are earlier ones before other
/// walls, which no check looks at.
pub fn passing_rows(random: &mut Random, sheet: &Sheet, count: usize) -> Vec<Job> {
    let mut rows = Vec::with_capacity(count);
    for place in 0..count {
        rows.push(match place.min(UNLIKE) {
            earlier @ 1.. if random.once_in(8) => rows[random.below(earlier)],
            UNLIKE => {
                let earlier = rows[random.below(UNLIKE)];
                with_any_wall(random, earlier)
            }
            _ => {
                let family = random.within(1, 2);
                passing(random, family, sheet)
            }
        });
    }
    rows
}

/// A job that fails some check under a sheet; nets of 5,000 N are too much for the weakest ground.
pub fn failing(random: &mut Random, sheet: &Sheet) -> Job {
    let found = (0..20).find_map(|_| Some(any_accepted(random)).filter(|job| !passes(job, sheet)));
    found.unwrap_or_else(|| any_accepted(random).with(13, 5_000).with(24, 10).with(25, 100))
}

/// The checks that fail wherever a check fails, itself among them: see the searches in marked_first_failing/.
pub fn failing_with(number: usize) -> &'static [usize] {
    match number {
        1 => &[1],
        2 => &[1, 2, 5],
        3 => &[3],
        4 => &[3, 4],
        5 => &[5],
        6 => &[6],
        7 => &[7, 12],
        8 => &[8, 12],
        9 => &[9],
        10 => &[10],
        11 => &[11],
        _ => &[12],
    }
}

/// Each check in each family and tube, but for check 12 in single rows, where 7 or 8 fails with it.
pub fn aims() -> Vec<Aim> {
    (0..AIMS).map(Aim::number).filter(|aim| (aim.check, aim.family) != (12, 2)).collect()
}

/// A job that fails a check and only what fails with it, and the job one step of a field away; none where many tries
/// find none.
pub fn failing_alone(random: &mut Random, aim: Aim) -> Option<Edge> {
    (0..600).find_map(|_| {
        let (job, field) = beside(random, aim);
        let sheet = sheet_beside(random, &job, aim.check);
        let edge = bisect(&job, sheet, field, |job, sheet| aim.fails(job, sheet))?;
        (failed(&edge.failing, &edge.sheet) == failing_with(aim.check)).then_some(edge)
    })
}

/// A job of which the check may fail before others, and the field that brings it there.
fn beside(random: &mut Random, Aim { check, family, tube }: Aim) -> (Job, usize) {
    let job = leaning_low(random, family).with(2, tube);
    let [wide, narrow] = if family == 1 { [155, 105] } else { [random.within(135, 150), random.within(75, 118)] };
    match check {
        1 => (job.with(3, wide).with(4, random.within(60, 150)).with(12, 10_000), 11),
        2 => (job.with(3, wide).with(4, random.within(65, 130)).with(12, 10_000), 11),
        3 => (job.with(4, random.within(145, 200)).with(12, 10_000), 11),
        4 => (job.with(4, random.within(190, 200)).with(12, 10_000), 11),
        5 => (job.with(3, narrow).with(4, random.within(100, 140)).with(12, 10_000), 11),
        6 => (light(random, family).with(2, tube).with(3, wide).with(6, 3).with(13, random.within(0, 3_000)), 5),
        7 => (job.with(15, random.within(0, 200)), random.pick(&[7, 12, 13, 14])),
        8 => (job.with(15, random.within(500, 2_000)).with(22, 100_000), random.pick(&[7, 13, 14, 15, 16])),
        9 => (job.with(15, random.within(200, 2_000)), random.pick(&[22, 22, 15])),
        10 => (job.with(4, random.within(150, 200)).with(14, random.within(300, 500)), random.pick(&[12, 12, 7, 13])),
        11 => (job, random.pick(&[24, 25])),
        _ => (job.with(7, random.within(2_535, 5_200)).with(14, random.within(250, 500)), 7),
    }
}

/// A sheet under which the pole stands at its limit by 7, 8 or 12, and bears enough by the others.
fn sheet_beside(random: &mut Random, job: &Job, check: usize) -> Sheet {
    let (force, least, most) = match check {
        7 | 8 => (job.pole_force(), 1_000, 1_500),
        12 => (job.pole_force(), 1_000, 1_010),
        10 => (45_000, 1_000, 1_800),
        _ => (job.pole_force(), 1_200, 3_000),
    };
    let share = random.within(least, most);
    bearing(random, job, force, share).unwrap_or_else(|| Sheet(valid(random)))
}
