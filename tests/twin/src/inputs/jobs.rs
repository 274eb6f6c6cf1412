//! Jobs: accepted ones, heavier ones for demand 3, and ones of any numbers.

use crate::paper::constants::soil_factor;
use crate::paper::job::{Fields, Job, range};
use crate::random::Random;
use std::ops::RangeInclusive;

const SPACINGS: [u32; 3] = [105, 130, 155];

/// An accepted job of a family, a tube and an enclosure; its fields lean to the low end at times.
pub fn accepted(random: &mut Random, family: u32, tube: u32, enclosure: u32) -> Job {
    let lean = random.pick(&[1, 1, 2, 4]);
    let mut job = Fields([0; 25]).with(1, family).with(2, tube).with(17, enclosure);
    for field in (3..=25).filter(|&field| field != 17) {
        job = job.with(field, leaning(random, range(&job, field), lean));
    }
    repaired(random, job)
}

/// A value of a range, the nearer to its low end the greater the power; uniform where that is 1.
pub fn leaning(random: &mut Random, range: RangeInclusive<u32>, power: i32) -> u32 {
    let span = f64::from(range.end() - range.start()) + 0.999;
    let share = (random.next() >> 11) as f64 / (1u64 << 53) as f64;
    range.start() + (span * share.powi(power)) as u32
}

/// An accepted job of any family, tube and enclosure.
pub fn any_accepted(random: &mut Random) -> Job {
    let (family, tube, enclosure) = (random.within(1, 2), random.within(1, 2), random.within(1, 3));
    accepted(random, family, tube, enclosure)
}

// The spacings of a double row, the two contradictions and the wall of a single row.
fn repaired(random: &mut Random, mut job: Job) -> Job {
    if job.is_double_row() {
        job = job.with(3, random.pick(&SPACINGS));
    } else {
        job = job.with(20, job.field(20).max(181)).with(21, 1);
    }
    job = job.with(10, job.field(10).min(job.field(9)));
    job.with(12, job.field(12).max(job.field(11)))
}

/// The job with one, two or many numbers of any size, now and then in range.
pub fn wild<const N: usize>(random: &mut Random, job: Fields<N>) -> Fields<N> {
    let many = random.pick(&[1, 2, N]);
    (0..many).fold(job, |job, _| {
        let width = random.within(1, 32);
        job.with(random.within(1, N as u32) as usize, (random.next() as u32) >> (32 - width))
    })
}

/// The least and the greatest value that keep an accepted job accepted, the other fields as they are.
pub fn bounds(job: &Job, field: usize) -> (u32, u32) {
    let range = range(job, field);
    match field {
        9 => (job.field(10), 10),
        10 => (1, job.field(9).min(9)),
        11 => (0, job.field(12).min(10_000)),
        12 => (job.field(11), 30_000),
        20 if !job.is_double_row() => (181, 2_000),
        21 if !job.is_double_row() => (1, 1),
        _ => (*range.start(), *range.end()),
    }
}

/// A second job for demand 3: no smaller in 3 to 7, 9 to 16 and 18, no greater in 22, 24, 25 and the soil factor.
pub fn heavier(random: &mut Random, first: &Job) -> Job {
    let mut job = *first;
    let often = random.pick(&[3, 6, 12, 25]);
    for field in [4, 5, 6, 7, 9, 10, 12, 11, 13, 14, 15, 16, 18] {
        if random.once_in(often) {
            let (value, most) = (job.field(field), bounds(&job, field).1);
            job = job.with(field, farther(random, value, most));
        }
    }
    for field in [22, 24, 25] {
        if random.once_in(often) {
            let (value, least) = (job.field(field), bounds(&job, field).0);
            job = job.with(field, value - (farther(random, 0, value - least)));
        }
    }
    if job.is_double_row() && random.once_in(often) {
        job = job.with(3, SPACINGS[SPACINGS.partition_point(|&spacing| spacing <= job.field(3)).min(2)]);
    } else if !job.is_double_row() && random.once_in(often) {
        job = job.with(3, farther(random, job.field(3), 150));
    }
    with_free_fields(random, job, first)
}

fn with_free_fields(random: &mut Random, job: Job, first: &Job) -> Job {
    let soil = random.within(1, 5);
    let weaker = soil_factor(soil) <= soil_factor(first.field(23));
    with_any_wall(random, if weaker { job.with(23, soil) } else { job })
}

/// The job with another thickness and make of its wall.
pub fn with_any_wall(random: &mut Random, job: Job) -> Job {
    let (thinnest, thickest) = bounds(&job, 20);
    let (lowest, highest) = bounds(&job, 21);
    job.with(20, random.within(thinnest, thickest)).with(21, random.within(lowest, highest))
}

// One step in most cases, so that pairs stay near a limit.
pub fn farther(random: &mut Random, value: u32, most: u32) -> u32 {
    match random.once_in(4) {
        true => random.within(value, most),
        false => (value + 1).min(most),
    }
}
