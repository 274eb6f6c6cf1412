//! The turns on two ends that are refused or nearly so: sheets, ends of ranges in either job or in both, a first number
//! of 3, several faults, numbers of any size.

use super::between::{Move, Pair, call, expected, pair_moved, shifted, turn};
use super::damage::{entry_cell, entry_fault, length_cell, long_sheet, order_cell};
use super::ends::numbered;
use super::faults::{chosen, sheet as faulty_sheet, spoiled};
use super::jobs::{any_accepted, heavier, wild as wild_job};
use super::kinds::single;
use super::sheets::{damaged, to_bytes};
use super::{Lists, Turn, supports};
use crate::coverage::{Cell, Expect, cell};
use crate::paper::job::{Job, accept};
use crate::random::Random;

/// The kind of calls, by which cells count the call on two ends.
pub const KIND: u32 = 8;

/// The same for ends of ranges and contradictions in the mild job, in the harsh job and in both.
pub const KINDS: [u32; 3] = [8, 9, 10];

/// Turns go through long lists in strides of so many, so that the first few reach all kinds of faults.
const STRIDE: u64 = 37;

/// Two jobs in order, or such as are refused behind a sheet.
fn any_pair(random: &mut Random, lists: &Lists) -> Pair {
    let (number, any) = (random.next(), any_accepted(random));
    let job = numbered(random, &lists.ends, number, KIND).0;
    match random.below(4) {
        0 => [job, any],
        1 => [any, job],
        _ => [any, heavier(random, &any)],
    }
}

/// Every entry with every fault that it can have.
pub fn damaged_sheet(random: &mut Random, lists: &Lists, number: u64) -> Turn {
    let (k, fault) = entry_fault(number as usize);
    let (sheet, pair) = (damaged(random, k, fault), any_pair(random, lists));
    let cells = vec![(entry_cell(k, fault, KIND), Expect::Refusal(2, k as u64))];
    single(call(random, to_bytes(&sheet), &pair), cells)
}

/// Every length of a sheet from 0 to 510, and longer ones.
pub fn sheet_length(random: &mut Random, lists: &Lists, number: u64) -> Turn {
    let (sheet, expect) = long_sheet(random, number);
    let stands = expect == Expect::Success;
    let pair = if stands { [any_accepted(random); 2] } else { any_pair(random, lists) };
    let cells = vec![(length_cell(sheet.len(), KIND), expect)];
    single(call(random, sheet, &pair), cells)
}

/// Every end of a range, contradiction and wall in the mild job, in the harsh one, and one in each.
pub fn end(random: &mut Random, lists: &Lists, number: u64) -> Turn {
    let (which, number) = ((number % 3) as usize, number / 3 * STRIDE);
    let (job, key) = numbered(random, &lists.ends, number, KINDS[which]);
    let stands = accept(&job).is_ok();
    let pair = match which {
        0 => [job, if stands { heavier(random, &job) } else { any_accepted(random) }],
        1 => [if stands { shifted(random, &job, false, 6, &[]) } else { any_accepted(random) }, job],
        _ => {
            let other = random.next();
            [job, numbered(random, &lists.ends, other, KIND).0]
        }
    };
    turn(random, &pair, vec![(key, expected(&pair))])
}

/// As many turns as there are jobs that begin with 3 and numbers behind it.
pub const THREES: u64 = 6;

/// Whether the mild job begins with 3, the harsh one or both, and whether a support's numbers stand behind it.
pub fn three_key(number: u64) -> [u32; 2] {
    [(number % 3) as u32, (number / 3 % 2) as u32]
}

/// A first number of 3 is no scaffold job's, whatever stands behind it.
pub fn three(random: &mut Random, _: &Lists, number: u64) -> Turn {
    let key @ [which, support] = three_key(number);
    let job = any_accepted(random);
    let begins_with_3 = if support == 1 { with_support(random, &job) } else { job.with(1, 3) };
    let (pair, place) = match which {
        0 => ([begins_with_3, job], 1),
        1 => ([job, begins_with_3], 26),
        _ => ([begins_with_3; 2], 1),
    };
    turn(random, &pair, vec![(three_cell(key), Expect::Refusal(3, place))])
}

fn with_support(random: &mut Random, job: &Job) -> Job {
    let (mut job, support) = (*job, supports::any_accepted(random));
    job.0[..13].copy_from_slice(&support.0);
    job
}

pub fn three_cell([which, support]: [u32; 2]) -> Cell {
    cell("first number 3 at an end", [which, support, 0, 0])
}

/// The refusals in order: those of the sheet, of the mild job, of the harsh job 25 higher, and of the order.
pub const ORDER: [u64; 9] = [1, 2, 3, 4, 5, 28, 29, 30, 12];

/// Sets of faults; the first in order has to be the one refused, at its own place.
pub fn faults(random: &mut Random, _: &Lists, number: u64) -> Turn {
    let faults = chosen(&ORDER, 1 + number * STRIDE % 511);
    let has = |fault: u64| faults.contains(&fault);
    let family = if has(5) || has(30) { 2 } else { random.within(1, 2) };
    let wrong = has(12);
    let pair = pair_moved(random, family, true, |random| {
        let field = random.pick(&[4, 5, 7, 13, 14, 15, 16, 22, 24, 25]);
        if wrong { vec![Move::wrong(random, field)] } else { Vec::new() }
    });
    let [mild, harsh] = pair.unwrap_or([any_accepted(random); 2]);
    let pair = [spoiled(random, mild, [has(3), has(4), has(5)]), spoiled(random, harsh, [has(28), has(29), has(30)])];
    let sheet = faulty_sheet(random, has(1), has(2));
    let expect = if has(1) || has(2) { Expect::Number(faults[0]) } else { expected(&pair) };
    let cells = faults[1..].iter().map(|&later| (order_cell(KIND as usize, faults[0], later), expect)).collect();
    single(call(random, sheet, &pair), cells)
}

/// Numbers of any size in the mild job, in the harsh one and in both.
pub fn wild(random: &mut Random, _: &Lists, number: u64) -> Turn {
    let mild = any_accepted(random);
    let harsh = heavier(random, &mild);
    let pair = match number % 3 {
        0 => [wild_job(random, mild), harsh],
        1 => [mild, wild_job(random, harsh)],
        _ => [wild_job(random, mild), wild_job(random, harsh)],
    };
    turn(random, &pair, Vec::new())
}
