//! Several faults in one call, so that the order of the refusals shows.

use super::files::whole;
use super::jobs::accepted;
use super::sheets::{damaged, to_bytes};
use crate::call::Call;
use crate::paper::job::{Fields, Job};
use crate::random::Random;

/// The refusals in the order of the whole call; reading and writing keep this order for those they know.
pub const ORDER: [u64; 8] = [1, 2, 6, 7, 3, 4, 5, 8];

/// The refusals that each call can give: verdict, write, read.
pub const KNOWN: [&[u64]; 3] = [&[1, 2, 6, 7, 3, 4, 5, 8], &[3, 4, 5, 8], &[6, 7, 3, 4, 5]];

/// The faults of a set of bits, one for each place in an order; bytes after a broken number are no fault of their own.
pub fn chosen(order: &[u64], set: u64) -> Vec<u64> {
    let faults: Vec<u64> = (0..order.len()).filter(|place| set >> place & 1 == 1).map(|place| order[place]).collect();
    let broken = faults.contains(&6);
    faults.into_iter().filter(|&fault| !(broken && fault == 7)).collect()
}

/// A call with the faults.
pub fn call(random: &mut Random, kind: usize, faults: &[u64]) -> Call {
    let has = |fault: u64| faults.contains(&fault);
    let job = job(random, has(3), has(4), has(5));
    let fill = random.next();
    let room = if has(8) { random.below(20) } else { 180 };
    match kind {
        0 => {
            Call::Verdict { sheet: sheet(random, has(1), has(2)), file: file(random, &job, faults), report: room, fill }
        }
        1 => Call::Write { numbers: job.0, file: room, fill },
        _ => Call::Read { file: file(random, &job, faults), fill },
    }
}

fn job(random: &mut Random, outside: bool, contradicts: bool, bad_wall: bool) -> Job {
    let (family, tube, enclosure) =
        (if bad_wall { 2 } else { random.within(1, 2) }, random.within(1, 2), random.within(1, 3));
    let job = accepted(random, family, tube, enclosure);
    spoiled(random, job, [outside, contradicts, bad_wall])
}

/// An accepted job with the faults; only a single row can have the last.
pub fn spoiled(random: &mut Random, mut job: Job, [outside, contradicts, bad_wall]: [bool; 3]) -> Job {
    if bad_wall {
        job = if random.once_in(2) { job.with(20, random.within(0, 180)) } else { job.with(21, random.within(2, 3)) };
    }
    if contradicts && random.once_in(2) {
        job = job.with(9, 1).with(10, random.within(2, 9));
    } else if contradicts {
        job = job.with(12, 0).with(11, random.within(1, 10_000));
    }
    // These fields take no part in the other faults, and 0 is in no range of theirs.
    if outside { job.with(random.pick(&[2, 4, 5, 6, 8, 14, 16, 19, 22, 23, 24, 25]), 0) } else { job }
}

pub fn sheet(random: &mut Random, wrong_length: bool, bad_entry: bool) -> Vec<u8> {
    let k = random.within(1, 100) as usize;
    let fault = if bad_entry { random.below(3) } else { 3 };
    let mut bytes = match bad_entry {
        true => to_bytes(&damaged(random, k, fault)),
        false => to_bytes(&super::sheets::valid(random)),
    };
    if wrong_length {
        bytes.resize(random.pick(&[500, 501, 503, 504, 300]), 0);
    }
    bytes
}

pub fn file<const N: usize>(random: &mut Random, job: &Fields<N>, faults: &[u64]) -> Vec<u8> {
    let number = random.below(N);
    let way = random.below(5);
    let mut bytes = match faults.contains(&6) {
        true => super::files::broken(random, &job.0, number, way).0,
        false => whole(job),
    };
    if faults.contains(&7) {
        bytes.extend_from_slice(&random.next().to_le_bytes()[..1 + random.below(5)]);
    }
    bytes
}
