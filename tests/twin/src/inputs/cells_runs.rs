//! The turns on load cells that are answered: every w beside every length, runs of every shape, the longest.

use super::cells::*;
use super::kinds::single;
use super::{Lists, Turn};
use crate::call::Call;
use crate::coverage::{Cell, Expect, cell};
use crate::random::Random;

/// Any records of a short run.
pub fn uniform(random: &mut Random, _: &Lists, _: u64) -> Turn {
    let (length, w) = (random.below(40), some_w(random));
    let run = some_run(random, length);
    turn(random, &run, w, Vec::new())
}

/// A w in range, among them such as a byte cannot hold.
pub const INSIDE: [u32; 10] = [500, 1, 2, 256, 3, 499, 257, 7, 255, 498];

/// How long a run is beside w: one less, w, one more, one less than twice, twice, one more.
pub const RELATIONS: u64 = 6;

fn length_beside(w: u32, relation: u64) -> usize {
    let w = w as usize;
    [w - 1, w, w + 1, 2 * w - 1, 2 * w, 2 * w + 1][relation as usize]
}

/// Each of these w with runs of each length beside it.
pub fn inside(random: &mut Random, _: &Lists, number: u64) -> Turn {
    let (w, relation) = (INSIDE[(number % 10) as usize], (number / 10 + number) % RELATIONS);
    let length = length_beside(w, relation);
    let run = peaks(random, length, w as usize);
    turn(random, &run, w, vec![(inside_cell(w, relation), Expect::Length(4 * length as u64))])
}

pub fn inside_cell(w: u32, relation: u64) -> Cell {
    cell("w beside the length of a run", [w, relation as u32, 0, 0])
}

/// A w out of range: 0, 501, and such as are in range when cut to fewer bits.
pub const OUTSIDE: [u32; 16] = [
    0,
    501,
    4_294_967_295,
    2_147_483_649,
    502,
    511,
    512,
    513,
    756,
    1_000,
    8_000,
    65_535,
    65_536,
    65_537,
    66_036,
    2_147_483_648,
];

pub fn outside(random: &mut Random, _: &Lists, number: u64) -> Turn {
    let w = OUTSIDE[(number % 16) as usize];
    let length = random.below(12);
    let run = some_run(random, length);
    turn(random, &run, w, vec![(outside_cell(w), Expect::Refusal(13, u64::from(w)))])
}

pub fn outside_cell(w: u32) -> Cell {
    cell("w out of range", [w, 0, 0, 0])
}

/// The w of short runs: small ones, those about the length (7 to 9), and the longest.
pub const SHORT_W: u64 = 8;
pub const SHORT: u64 = 21 * SHORT_W;

/// The length, 0 to 20, and which w.
pub fn short_key(number: u64) -> [u32; 2] {
    [(number * 8 % 21) as u32, (number % SHORT_W) as u32]
}

pub fn short(random: &mut Random, _: &Lists, number: u64) -> Turn {
    let key @ [length, which] = short_key(number % SHORT);
    let w = [1, 2, 3, 5, length.max(2) - 1, length.max(1), length + 1, 500][which as usize];
    let run = some_run(random, length as usize);
    turn(random, &run, w, vec![(short_cell(key), Expect::Length(4 * u64::from(length)))])
}

pub fn short_cell([length, which]: [u32; 2]) -> Cell {
    cell("short run", [length, which, 0, 0])
}

pub const SHAPES: u64 = 11;

/// Runs of each shape and each length beside w; w is small in most.
pub fn shape(random: &mut Random, _: &Lists, number: u64) -> Turn {
    let (shape, relation) = (number % SHAPES, number / SHAPES % RELATIONS);
    let w = if random.once_in(20) { random.within(100, 500) } else { random.within(2, 12) };
    let length = length_beside(w, relation);
    let run = shaped(random, shape, length, w as usize);
    turn(random, &run, w, vec![(shape_cell(shape, relation), Expect::Length(4 * length as u64))])
}

pub fn shape_cell(shape: u64, relation: u64) -> Cell {
    cell("shape of a run", [shape as u32, relation as u32, 0, 0])
}

fn pushes(newtons: impl Iterator<Item = u32>) -> Vec<Record> {
    newtons.map(|newtons| record(PUSH, newtons)).collect()
}

/// Newtons that rise from record to record.
fn rising(random: &mut Random, length: usize) -> Vec<u32> {
    let step = random.within(1, (HUNDRED_THOUSAND - ONE) / (length as u32 + 1));
    let first = random.within(ONE, HUNDRED_THOUSAND - step * length as u32);
    (0..length as u32).map(|place| first + step * place).collect()
}

/// 0 any pushes, 1 rising, 2 falling, 3 constant, 4 one peak, 5 to 7 peaks w - 1, w and w + 1 apart, 8 any kinds,
/// 9 great pulls among small pushes, 10 silence and pulls alone.
fn shaped(random: &mut Random, shape: u64, length: usize, w: usize) -> Vec<Record> {
    match shape {
        0 => pushes((0..length).map(|_| some_newtons(random))),
        1 => pushes(rising(random, length).into_iter()),
        2 => pushes(rising(random, length).into_iter().rev()),
        3 => {
            let newtons = some_newtons(random);
            pushes((0..length).map(|_| newtons))
        }
        4 => {
            let (first, apart) = (random.below(length), length);
            peaks_from(random, length, first, apart)
        }
        5..=7 => {
            let first = random.below(w.min(length));
            peaks_from(random, length, first, (w + shape as usize).max(7) - 6)
        }
        8 => some_run(random, length),
        9 => (0..length).map(|_| pull_or_push(random)).collect(),
        _ => (0..length).map(|_| if random.once_in(2) { record(SILENCE, 0) } else { great_pull(random) }).collect(),
    }
}

fn great_pull(random: &mut Random) -> Record {
    record(PULL, whole(random.within(50_000, 100_000)))
}

fn pull_or_push(random: &mut Random) -> Record {
    if random.once_in(3) { great_pull(random) } else { record(PUSH, whole(random.within(1, 1_000))) }
}

/// Peaks about w apart.
fn peaks(random: &mut Random, length: usize, w: usize) -> Vec<Record> {
    let (first, apart) = (random.below(w), (w + random.below(3)).max(2) - 1);
    peaks_from(random, length, first, apart)
}

/// Low pushes with peaks so far apart that fall, rise or are alike.
fn peaks_from(random: &mut Random, length: usize, first: usize, apart: usize) -> Vec<Record> {
    let (low, way) = (random.pick(&[1, 300, 900]), random.below(3));
    let mut run = pushes((0..length).map(|_| whole(random.within(1, low))));
    for (number, place) in (first..length).step_by(apart).enumerate() {
        let height = [90_000 - number as u32, 1_000 + number as u32, 50_000][way];
        run[place] = record(PUSH, whole(height));
    }
    run
}

/// The longest runs, some beyond 8,000 records and some of 65,536 bytes or about that, and their w.
pub const LONG: [(usize, u32); 14] = [
    (8_000, 500),
    (8_001, 1),
    (8_000, 1),
    (8_192, 2),
    (7_999, 3),
    (8_001, 500),
    (4_097, 256),
    (8_000, 2),
    (8_193, 1),
    (7_999, 500),
    (2_048, 499),
    (8_191, 1),
    (8_000, 499),
    (8_002, 2),
];

/// The longest runs with room for just their numbers, any of them in order.
pub fn long(random: &mut Random, _: &Lists, number: u64) -> Turn {
    let (length, w) = LONG[(number % 14) as usize];
    let (shape, bytes) = (random.below(11) as u64, 8 * length as u64);
    let run = shaped(random, shape, length, w as usize);
    let expect = if length > 8_000 { Expect::Refusal(15, bytes) } else { Expect::Length(bytes / 2) };
    let out = 4 * length + random.pick(&[0, 0, 1, 4]);
    let call = Call::Cells { records: run.concat(), w, out, fill: random.next() };
    single(call, vec![(long_cell((length, w)), expect)])
}

pub fn long_cell((length, w): (usize, u32)) -> Cell {
    cell("long run", [length as u32, w, 0, 0])
}
