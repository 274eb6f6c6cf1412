//! The turns on the order of two ends: one field moved, two wrong ones, all moved but one, every pair of small values.

use super::between::{Move, Pair, expected, pair_moved, plain, shifted, turn};
use super::ends::suited;
use super::jobs::{accepted, any_accepted};
use super::{Lists, Relation, Turn};
use crate::coverage::{Cell, Expect, cell};
use crate::paper::job::Job;
use crate::paper::order::{Way, way};
use crate::random::Random;

/// What the turns go through.
pub struct Keys {
    pub one: Vec<[u32; 4]>,
    pub wrong: Vec<[usize; 2]>,
    pub values: Vec<[u32; 4]>,
}

impl Keys {
    pub fn new() -> Keys {
        Keys { one: one_field_keys(), wrong: wrong_keys(), values: value_keys() }
    }
}

/// Field, whether it goes up, whether farther than a step, and the mild job's family; the wrong way before the other.
/// A single row's wall is of one make, and a family goes up from a double row and down from a single one.
fn one_field_keys() -> Vec<[u32; 4]> {
    let key = |number: u32| {
        let field = 1 + number % 25;
        let wrong = Move::towards(field as usize, false).is_some_and(|step| step.up);
        [field, (number / 25 + u32::from(wrong)) % 2, number / 100, 1 + number / 50 % 2]
    };
    let exists = |&[field, up, _, family]: &[u32; 4]| match field {
        1 => (up == 1) == (family == 1),
        21 => family == 1,
        _ => true,
    };
    (0..200).map(key).filter(exists).collect()
}

/// One field moved in either way: in order, unlike, or the wrong way.
pub fn one_field(random: &mut Random, lists: &Lists, number: u64) -> Turn {
    let keys = &lists.order.one;
    let key @ [field, up, far, family] = keys[number as usize % keys.len()];
    let step = Move { field: field as usize, up: up == 1 };
    let pair = pair_moved(random, family, far == 1, |_| vec![step]);
    taken(random, pair, one_field_cell(key), expected)
}

pub fn one_field_cell(key: [u32; 4]) -> Cell {
    cell("one field moved", key)
}

/// The call on a pair where there is one, with what it has to answer.
fn taken(random: &mut Random, pair: Option<Pair>, cell: Cell, expect: impl Fn(&Pair) -> Expect) -> Turn {
    match pair {
        Some(pair) => turn(random, &pair, vec![(cell, expect(&pair))]),
        None => Turn { calls: vec![plain(random)], relation: Relation::Nothing },
    }
}

/// Each two of the fields that can be wrong, the lower first.
fn wrong_keys() -> Vec<[usize; 2]> {
    let fields: Vec<usize> = (1..=25).filter(|&field| way(field) != Way::Free).collect();
    let below = |&later: &usize| fields.iter().filter(move |&&field| field < later).map(move |&field| [field, later]);
    fields.iter().flat_map(below).collect()
}

/// Two fields the wrong way, the lower one to be named; others are harsher in every second turn.
pub fn two_wrong(random: &mut Random, lists: &Lists, number: u64) -> Turn {
    let keys = &lists.order.wrong;
    let fields = keys[number as usize % keys.len()];
    let (family, far, others) = (random.within(1, 2), random.once_in(2), random.once_in(2));
    let pair = pair_moved(random, family, far, |random| fields.map(|field| Move::wrong(random, field)).into());
    let pair = pair.map(|[mild, harsh]| [mild, if others { shifted(random, &harsh, true, 3, &fields) } else { harsh }]);
    taken(random, pair, wrong_cell(fields), |_| Expect::Refusal(12, fields[0] as u64))
}

pub fn wrong_cell([lower, higher]: [usize; 2]) -> Cell {
    cell("two fields wrong", [lower as u32, higher as u32, 0, 0])
}

/// As many turns as there are fields, each equal and each moved.
pub const BUT_ONE: u64 = 50;

pub fn but_one_key(number: u64) -> [u32; 2] {
    [1 + (number % 25) as u32, (number / 25 % 2) as u32]
}

/// Every field harsher that has room, but one: that is equal, or goes the wrong way, or either way where it is free.
pub fn but_one(random: &mut Random, _: &Lists, number: u64) -> Turn {
    let key @ [field, moves] = but_one_key(number);
    let (field, far) = (field as usize, random.once_in(2));
    let pair = match moves {
        0 => Some([any_accepted(random); 2]),
        _ => {
            let family = if field == 21 { 1 } else { random.within(1, 2) };
            pair_moved(random, family, far, |random| vec![Move::wrong(random, field)])
        }
    };
    let pair = pair.map(|[mild, harsh]| [mild, shifted(random, &harsh, true, 1, &[field])]);
    let is_wrong = moves == 1 && way(field) != Way::Free;
    let expect = if is_wrong { Expect::Refusal(12, field as u64) } else { Expect::Length(14) };
    taken(random, pair, but_one_cell(key), |_| expect)
}

pub fn but_one_cell([field, moves]: [u32; 2]) -> Cell {
    cell("all harsher but one", [field, moves, 0, 0])
}

/// Field, mild value, harsh value and family: each two values of the fields that have few, and ends of field 20.
fn value_keys() -> Vec<[u32; 4]> {
    let of_double: [(u32, &[u32]); 10] = [
        (1, &[1, 2]),
        (2, &[1, 2]),
        (3, &[105, 130, 155]),
        (6, &[2, 3]),
        (8, &[1, 2, 3]),
        (17, &[1, 2, 3]),
        (19, &[1, 2]),
        (20, &[0, 180, 181, 2_000]),
        (21, &[1, 2, 3]),
        (23, &[1, 2, 3, 4, 5]),
    ];
    let of_single = of_double.into_iter().filter(|(field, _)| !matches!(field, 1 | 3 | 20 | 21));
    let of_single = of_single.chain([(20, &[181, 182, 2_000][..])]);
    let with_family = |family: u32| move |(field, values)| (family, field, values);
    let all = of_double.into_iter().map(with_family(1)).chain(of_single.map(with_family(2)));
    all.flat_map(|(family, field, values)| each_two(values).map(move |[one, other]| [field, one, other, family]))
        .collect()
}

/// Each two of some values, in either order, and each beside itself.
fn each_two(values: &[u32]) -> impl Iterator<Item = [u32; 2]> {
    values.iter().flat_map(|&one| values.iter().map(move |&other| [one, other]))
}

/// Each two values of a field that has few.
pub fn values(random: &mut Random, lists: &Lists, number: u64) -> Turn {
    let keys = &lists.order.values;
    let key @ [field, one, other, family] = keys[number as usize % keys.len()];
    let (tube, enclosure) = (random.within(1, 2), random.within(1, 3));
    let job = accepted(random, family, tube, enclosure);
    let job = if matches!(field, 1 | 17) { suited(random, job, field as usize) } else { job };
    let pair = [one, other].map(|value| job.with(field as usize, value));
    taken(random, Some(pair), values_cell(key), expected)
}

pub fn values_cell(key: [u32; 4]) -> Cell {
    cell("two values of a field", key)
}

/// Family, tube and enclosure of one job at both ends.
pub fn same_key(number: u64) -> [u32; 3] {
    let number = number as u32;
    [1 + number % 2, 1 + number / 2 % 2, 1 + number / 4 % 3]
}

/// As many turns as there are keys of one job at both ends.
pub const SAME: u64 = 12;

/// The same job at both ends.
pub fn same(random: &mut Random, _: &Lists, number: u64) -> Turn {
    let key @ [family, tube, enclosure] = same_key(number);
    let job: Job = accepted(random, family, tube, enclosure);
    turn(random, &[job, job], vec![(same_cell(key), Expect::Length(14))])
}

pub fn same_cell([family, tube, enclosure]: [u32; 3]) -> Cell {
    cell("one job at both ends", [family, tube, enclosure, 0])
}
