//! Pairs for the call on two ends: fields moved either way, jobs harsher or milder than another, jobs between the ends.

use super::columns::spacings;
use super::ends::suited;
use super::jobs::{accepted, any_accepted, bounds, heavier, with_any_wall};
use super::kinds::{Cells, single};
use super::sheets::{Entries, to_bytes, valid};
use super::{Planned, Turn};
use crate::call::Call;
use crate::coverage::Expect;
use crate::paper::between;
use crate::paper::constants::soil_factor;
use crate::paper::job::{Job, accept};
use crate::paper::order::{Way, stands, way};
use crate::random::Random;

/// The mild end and the harsh end.
pub type Pair = [Job; 2];

pub fn call(random: &mut Random, sheet: Vec<u8>, [mild, harsh]: &Pair) -> Call {
    Call::Between { sheet, mild: mild.0, harsh: harsh.0, fill: random.next() }
}

/// The call on a pair under a sheet.
pub fn judged(random: &mut Random, pair: &Pair, sheet: &Entries, cells: Cells) -> Planned {
    Planned { call: call(random, to_bytes(sheet), pair), cells }
}

/// The turn of one call on a pair under any sheet.
pub fn turn(random: &mut Random, pair: &Pair, cells: Cells) -> Turn {
    let sheet = to_bytes(&valid(random));
    single(call(random, sheet, pair), cells)
}

/// A call on any pair in order.
pub fn plain(random: &mut Random) -> Planned {
    let (mild, sheet) = (any_accepted(random), valid(random));
    let harsh = heavier(random, &mild);
    judged(random, &[mild, harsh], &sheet, Vec::new())
}

/// What the call has to answer under a sheet that stands.
pub fn expected([mild, harsh]: &Pair) -> Expect {
    match between::accept(mild, harsh) {
        Ok(()) => Expect::Length(14),
        Err(refusal) => Expect::Refusal(refusal.number, refusal.place),
    }
}

/// A field and where it goes from the mild to the harsh job; a soil goes by its factor.
#[derive(Clone, Copy, Debug)]
pub struct Move {
    pub field: usize,
    pub up: bool,
}

impl Move {
    /// The move that makes a job harsher, or milder; none of a field that is equal or free.
    pub fn towards(field: usize, harsher: bool) -> Option<Move> {
        match way(field) {
            Way::NoSmaller => Some(Move { field, up: harsher }),
            Way::NoGreater => Some(Move { field, up: !harsher }),
            Way::Equal | Way::Free => None,
        }
    }

    /// The move the wrong way; either way where the order has none.
    pub fn wrong(random: &mut Random, field: usize) -> Move {
        Move::towards(field, false).unwrap_or(Move { field, up: random.once_in(2) })
    }
}

/// The job with a field moved, by a step or farther; none where it has no room. The other fields have to allow it.
pub fn moved(random: &mut Random, job: &Job, Move { field, up }: Move, far: bool) -> Option<Job> {
    let (now, (least, most)) = (job.field(field), bounds(job, field));
    let value = match (field, up) {
        (3, true) => picked(random, spacings(job.field(1)).into_iter().filter(|&spacing| spacing > now), far),
        (3, false) => picked(random, spacings(job.field(1)).into_iter().rev().filter(|&spacing| spacing < now), far),
        (23, true) => picked(random, (1..=5).filter(|&soil| soil_factor(soil) > soil_factor(now)), true),
        (23, false) => picked(random, (1..=5).filter(|&soil| soil_factor(soil) < soil_factor(now)), true),
        (_, true) => (now < most).then(|| if far { random.within(now + 1, most) } else { now + 1 }),
        (_, false) => (now > least).then(|| if far { random.within(least, now - 1) } else { now - 1 }),
    };
    value.map(|value| job.with(field, value))
}

/// The first of some values, or any of them.
fn picked(random: &mut Random, values: impl Iterator<Item = u32>, any: bool) -> Option<u32> {
    let values: Vec<u32> = values.collect();
    if any && !values.is_empty() { Some(random.pick(&values)) } else { values.first().copied() }
}

/// Two accepted jobs alike but for the moves, the mild one of a family; none where three hundred jobs have no room.
pub fn pair_moved(
    random: &mut Random,
    family: u32,
    far: bool,
    moves: impl Fn(&mut Random) -> Vec<Move>,
) -> Option<Pair> {
    (0..300).find_map(|_| {
        let (tube, enclosure, moves) = (random.within(1, 2), random.within(1, 3), moves(random));
        let any = accepted(random, family, tube, enclosure);
        // Another family or enclosure allows less in other fields.
        let gated = moves.iter().map(|step| step.field).filter(|field| matches!(field, 1 | 17));
        let mild = gated.fold(any, |job, field| suited(random, job, field));
        let harsh = moves.iter().try_fold(mild, |job, &step| moved(random, &job, step, far))?;
        [mild, harsh].iter().all(|job| accept(job).is_ok()).then_some([mild, harsh])
    })
}

/// The ordered fields in a sequence in which each leaves the next its room as they get harsher: layers boarded go
/// before layers worked on, loads summed before the greatest. Getting milder they go the other way about.
const ORDERED: [usize; 18] = [3, 4, 5, 6, 7, 9, 10, 12, 11, 13, 14, 15, 16, 18, 22, 23, 24, 25];

/// The job with ordered fields harsher or milder, each once in so many times, but for some of them.
pub fn shifted(random: &mut Random, job: &Job, harsher: bool, often: usize, but: &[usize]) -> Job {
    let mut fields = ORDERED;
    if !harsher {
        fields.reverse();
    }
    fields.into_iter().filter(|field| !but.contains(field)).fold(*job, |job, field| {
        let (moves, far) = (random.once_in(often), random.once_in(4));
        let step = Move::towards(field, harsher).filter(|_| moves);
        step.and_then(|step| moved(random, &job, step, far)).unwrap_or(job)
    })
}

/// A job between the ends: each ordered field at either or anywhere between, walls and soils alike as they come.
pub fn inside(random: &mut Random, [mild, harsh]: &Pair) -> Job {
    let job = ORDERED.into_iter().fold(*mild, |job, field| {
        let (one, other) = (mild.field(field), harsh.field(field));
        let (low, high) = (one.min(other), one.max(other));
        let value = match (random.below(3), field) {
            (0, _) => Some(one),
            (1, _) => Some(other),
            (_, 3) => picked(random, spacings(job.field(1)).into_iter().filter(|at| (low..=high).contains(at)), true),
            (_, 23) => picked(random, (1..=5).filter(|&soil| is_soil_between(soil, mild, harsh)), true),
            _ => Some(random.within(low, high)),
        };
        job.with(field, allowed(&job, field, value.unwrap_or(one)))
    });
    with_any_wall(random, job)
}

fn is_soil_between(soil: u32, mild: &Job, harsh: &Job) -> bool {
    let job = mild.with(23, soil);
    stands(23, mild, &job) && stands(23, &job, harsh)
}

/// No more layers worked on than boarded, no greatest load above the sum; the mild end's are within both.
fn allowed(job: &Job, field: usize, value: u32) -> u32 {
    match field {
        10 => value.min(job.field(9)),
        11 => value.min(job.field(12)),
        _ => value,
    }
}
