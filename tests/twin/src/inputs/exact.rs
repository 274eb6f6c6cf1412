//! Jobs at which a check's compared quantities are equal, and exhaustive searches for those that can't be.

use super::columns::{self, Column, Found, job_of, place, spacings};
use super::jobs::accepted;
use super::sheets::{neighbours, through, valid};
use super::tuned::{AIMS, Aim, bisect, near_capacity, sheet_for};
use crate::paper::checks::check;
use crate::paper::constants::{STRENGTH, Tube, tube};
use crate::paper::figures;
use crate::paper::fraction::{Fraction, d};
use crate::paper::heights::reported;
use crate::paper::job::{Fields, Job};
use crate::paper::sheet::Sheet;
use crate::random::Random;

/// What the searches found once, before any call is made.
pub struct Atlas {
    /// For each aim of checks 1 to 5, jobs whose unrounded figure is exactly the limit.
    pub exact: Vec<Vec<Job>>,
    /// Family, tube and feature: the columns whose slenderness shows it.
    pub featured: Found<Column>,
    /// Family, tube and side of 250: the columns nearest to it.
    pub joint: Found<Column>,
    /// Family, tube and relation: pairs of columns, the second no milder.
    pub pairs: Found<(Column, Column)>,
    /// For each family and tube, jobs and sheets at the very limit of check 8 in wind; true where φ is no thousandth.
    pub windy: Vec<(bool, Job, Sheet)>,
    /// Step and bay, t = 3, with the greatest face of at most 30 m² and the least beyond it.
    pub faces: [(u32, u32); 2],
}

/// Searches everything; check 6 and a face of exactly 30 m² are shown to have no equality.
pub fn search() -> Atlas {
    let exact = (0..AIMS).map(|turn| exact_jobs(Aim::number(turn))).collect();
    let (featured, joint, pairs) = (columns::featured(), columns::beside_joint(), columns::pairs());
    Atlas { exact, featured, joint, pairs, windy: windy(), faces: faces() }
}

/// Whether any column stands exactly at the limit of check 6: 210 × 15.8 and the like are no whole factor × step.
pub fn check_6_has_equality() -> bool {
    let sheet = Sheet([1000; 251]);
    columns::all().iter().any(|&column| {
        let check = check(6, &job_of(column), &sheet, 0);
        check.left == check.right
    })
}

/// Whether any t × h × 3la is exactly 30 m²: t = 2 gives at most 24, and t = 3 would need h × la = 100,000/3 cm².
pub fn face_has_equality() -> bool {
    face_jobs().any(|(_, face)| face == Fraction::whole(30))
}

fn face_jobs() -> impl Iterator<Item = (Job, Fraction)> {
    (2..=3).flat_map(|interval| (60..=200).flat_map(move |step| (60..=200).map(move |bay| (interval, step, bay)))).map(
        |(interval, step, bay)| {
            let job = Fields([1; 25]).with(6, interval).with(5, step).with(4, bay);
            (job, figures::tie_face(&job))
        },
    )
}

fn faces() -> [(u32, u32); 2] {
    let wide: Vec<(i128, Job)> = face_jobs()
        .filter(|(job, _)| job.field(6) == 3)
        .map(|(job, face)| ((face * Fraction::whole(10_000)).up(), job))
        .collect();
    let below = wide.iter().filter(|(face, _)| *face <= 300_000).max_by_key(|(face, _)| *face);
    let above = wide.iter().filter(|(face, _)| *face > 300_000).min_by_key(|(face, _)| *face);
    [below, above].map(|found| found.map_or((60, 60), |(_, job)| (job.field(5), job.field(4))))
}

/// The unrounded figure of checks 1 to 5; each is linear in q.
fn unrounded(check: usize, job: &Job) -> Fraction {
    match check {
        1 => figures::transom_moment(job),
        2 => figures::transom_deflection(job),
        3 => figures::ledger_moment(job),
        4 => figures::ledger_deflection(job),
        _ => figures::slip(job),
    }
}

/// The q at which a check's unrounded figure reaches its limit.
fn live_load_at_limit(check_number: usize, job: &Job) -> Option<Fraction> {
    let limit = check(check_number, job, &Sheet([1000; 251]), 0).right;
    let start = unrounded(check_number, &job.with(11, 0));
    let slope = unrounded(check_number, &job.with(11, 1)) - start;
    let q = (limit - start) / slope;
    (q >= Fraction::whole(0) && q <= Fraction::whole(10_000)).then_some(q)
}

// Bays, spacings and boards tried one and all; timber weighs what bamboo does.
fn exact_jobs(aim: Aim) -> Vec<Job> {
    let mut jobs = Vec::new();
    if aim.check > 5 {
        return jobs;
    }
    let base = accepted(&mut Random::new(0, 0), aim.family, aim.tube, 1).with(12, 30_000);
    for spacing in spacings(aim.family) {
        for bay in 60..=200 {
            for boards in [1, 2] {
                let job = base.with(3, spacing).with(4, bay).with(8, boards);
                let q = live_load_at_limit(aim.check, &job).filter(|q| q.is_whole());
                jobs.extend(q.map(|q| job.with(11, q.up() as u32)));
                if jobs.len() == 16 {
                    return jobs;
                }
            }
        }
    }
    jobs
}

/// A job whose compared quantities are equal in the aim's check; none where a search of this length finds none.
pub fn at_limit(random: &mut Random, aim: Aim) -> Option<(Job, Sheet)> {
    (0..3_000).find_map(|_| {
        let (job, sheet) = match aim.check {
            1 | 3 | 5 => by_live_load(random, aim),
            7 | 8 | 10 | 11 => by_nets(random, aim),
            9 => by_tie_capacity(random, aim),
            12 => by_height(random, aim),
            _ => None,
        }?;
        aim.stands_at_limit(&job, &sheet).then_some((job, sheet))
    })
}

fn by_live_load(random: &mut Random, aim: Aim) -> Option<(Job, Sheet)> {
    let enclosure = random.within(1, 3);
    let job = accepted(random, aim.family, aim.tube, enclosure).with(12, 30_000);
    let q = live_load_at_limit(aim.check, &job)?.down() as u32;
    Some((job.with(11, q), Sheet(valid(random))))
}

fn by_nets(random: &mut Random, aim: Aim) -> Option<(Job, Sheet)> {
    let enclosure = if aim.check == 8 { random.within(2, 3) } else { random.within(1, 3) };
    let mut job = accepted(random, aim.family, aim.tube, enclosure);
    if aim.check == 8 {
        job = job.with(15, 0);
    }
    let sheet = match aim.check {
        7 | 8 => near_capacity(random, &job, job.field(7), 1000)?,
        _ => Sheet(valid(random)),
    };
    let edge = bisect(&job, sheet, 13, |job, sheet| aim.fails(job, sheet))?;
    Some((edge.passing, edge.sheet))
}

fn by_tie_capacity(random: &mut Random, aim: Aim) -> Option<(Job, Sheet)> {
    let enclosure = random.within(1, 3);
    let job = accepted(random, aim.family, aim.tube, enclosure);
    let force = u32::try_from(figures::tie_force(&job)).ok()?;
    (8_000..=100_000).contains(&force).then(|| (job.with(22, force), Sheet(valid(random))))
}

fn by_height(random: &mut Random, aim: Aim) -> Option<(Job, Sheet)> {
    let enclosure = random.within(1, 3);
    let job = accepted(random, aim.family, aim.tube, enclosure);
    let sheet = sheet_for(random, &job, aim.check);
    let (_, permitted) = reported(&job, &sheet)?;
    (permitted > 0).then(|| (job.with(7, permitted), sheet))
}

fn windy() -> Vec<(bool, Job, Sheet)> {
    let mut random = Random::new(0, 1);
    let mut found = Vec::new();
    for number in 0..16 {
        let aim = Aim { check: 8, family: 1 + number % 2, tube: 1 + number / 2 % 2 };
        let fine = number / 4 % 2 == 1;
        found.extend(at_limit_in_wind(&mut random, aim, fine).map(|(job, sheet)| (fine, job, sheet)));
    }
    found
}

/// A job at the very limit of check 8 in wind, Mw above 0; `fine` asks for a φ that is no whole thousandth.
fn at_limit_in_wind(random: &mut Random, aim: Aim, fine: bool) -> Option<(Job, Sheet)> {
    (0..3_000).find_map(|_| {
        let calm = accepted(random, aim.family, aim.tube, 3);
        let (k, tenths) = place(&calm)?;
        let (job, factor) = (0..200).find_map(|_| {
            let job = calm.with(15, random.within(1, 2_000));
            let factor = whole_in_wind(&job).filter(|factor| factor.is_multiple_of(10) != fine)?;
            Some((job, factor))
        })?;
        let entries = neighbours(random, tenths, factor)?;
        let edge = bisect(&job, Sheet(through(random, k, entries)), 13, |job, sheet| aim.fails(job, sheet))?;
        aim.stands_at_limit(&edge.passing, &edge.sheet).then_some((edge.passing, edge.sheet))
    })
}

/// The least φ in ten-thousandths that bears the job without nets, φA(f − Mw/W) being a whole number of newtons.
fn whole_in_wind(job: &Job) -> Option<u32> {
    let least = figures::pole_force_in_wind(&job.with(13, 0), job.field(7));
    whole_factor(tube(job), figures::wind_moment(job), least)
}

/// The least φ in ten-thousandths that bears the force beside the moment, φA(f − Mw/W) being a whole number of newtons.
pub fn whole_factor(tube: Tube, moment: i128, force: i128) -> Option<u32> {
    let left = STRENGTH - Fraction::whole(moment) / tube.modulus;
    if moment == 0 || left <= d!(0) {
        return None;
    }
    let each = tube.area * left / d!(10_000);
    let step = Fraction::whole(each.least_multiplier());
    let factor = Fraction::whole((Fraction::whole(force) / each / step).up()) * step;
    (factor <= d!(10_000)).then(|| factor.up() as u32)
}
