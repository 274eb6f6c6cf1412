//! The turns on half closed faces by their shield, request 8/14: each shield through each call, rows, and two ends.

use super::between::{Pair, expected as expected_of_ends, shifted, turn};
use super::books::{self, expected as expected_of_book};
use super::damage::expected;
use super::jobs::{accepted, any_accepted};
use super::kinds::{single, through};
use super::{Lists, Turn};
use crate::coverage::{Cell, Expect, cell};
use crate::paper::job::Job;
use crate::random::Random;

/// Shields of half closed faces: the ends of the range, of the one before request 8/14, of groups and of bytes.
pub const SHIELDS: [u32; 12] = [1, 2, 127, 128, 255, 256, 298, 299, 300, 301, 699, 700];

/// A half closed job, accepted where the shield is in its range.
pub fn half_closed(random: &mut Random, family: u32, wall: u32, shield: u32) -> Job {
    let tube = random.within(1, 2);
    accepted(random, family, tube, 2).with(19, wall).with(18, shield)
}

/// The job in so much wind that each thousandth of its shield shows: 0.7 × 1.5 × 1.2 × 0.001 × 1,000 is above 1 N/m².
pub fn windy(random: &mut Random, job: Job) -> Job {
    job.with(15, random.within(1_000, 2_000)).with(16, random.within(1_500, 4_000))
}

/// The cell of a half closed job by its shield in hundreds, the last hundred being 601 to 700.
pub fn share_cell(kind: u32, job: &Job) -> Option<Cell> {
    let [family, enclosure, shield, wall] = [1, 17, 18, 19].map(|field| job.field(field));
    (enclosure == 2).then(|| cell("half closed by hundreds", [kind, family, wall, shield.div_ceil(100)]))
}

/// As many turns as there are shields, families, walls behind, and calls on one job.
pub const ALONE: u64 = 144;

/// Shield, family, wall behind, and the call: 0 verdict, 1 write, 2 read.
pub fn alone_key(number: u64) -> [u32; 4] {
    let number = number as u32;
    let shield = SHIELDS[number as usize / 3 % SHIELDS.len()];
    [shield, 1 + number / 36 % 2, 1 + number / 72 % 2, number % 3]
}

/// A job of each shield through each call on one job, in much wind at times.
pub fn alone(random: &mut Random, _: &Lists, number: u64) -> Turn {
    let key @ [shield, family, wall, kind] = alone_key(number);
    let job = half_closed(random, family, wall, shield);
    let job = if random.once_in(2) { windy(random, job) } else { job };
    single(through(random, kind.into(), &job), vec![(alone_cell(key), expected(kind.into(), &job))])
}

pub fn alone_cell(key: [u32; 4]) -> Cell {
    cell("half closed job", key)
}

/// Three half closed rows of any shields.
fn rows(random: &mut Random) -> Vec<Job> {
    let row = |_| {
        let (family, tube) = (random.within(1, 2), random.within(1, 2));
        accepted(random, family, tube, 2)
    };
    (0..3).map(row).collect()
}

/// As many turns as there are shields, families, and ways to call.
pub const ROW: u64 = 48;

/// Shield, family, and whether the book is read.
pub fn row_key(number: u64) -> [u32; 3] {
    let number = number as u32;
    [SHIELDS[number as usize / 2 % SHIELDS.len()], 1 + number / 24 % 2, number % 2]
}

/// A row of each shield in a book of half closed ones.
pub fn row(random: &mut Random, _: &Lists, number: u64) -> Turn {
    let key @ [shield, family, reads] = row_key(number);
    let (mut rows, place, wall) = (rows(random), random.below(3), random.within(1, 2));
    rows[place] = half_closed(random, family, wall, shield);
    let cells = vec![(row_cell(key), expected_of_book(reads == 1, &rows))];
    single(books::through(random, reads == 1, &rows), cells)
}

pub fn row_cell([shield, family, reads]: [u32; 3]) -> Cell {
    cell("half closed row", [shield, family, reads, 0])
}

/// As many turns as there are shields out of range, rows and ways to call.
pub const BAD_ROW: u64 = 12;

/// Shield, row, and whether the book is read.
pub fn bad_row_key(number: u64) -> [u32; 3] {
    let number = number as u32;
    [[0, 701][number as usize / 6 % 2], number / 2 % 3, number % 2]
}

/// One bad row among half closed ones of less than 300.
pub fn bad_row(random: &mut Random, _: &Lists, number: u64) -> Turn {
    let key @ [shield, row, reads] = bad_row_key(number);
    let mut rows: Vec<Job> = rows(random).into_iter().map(|job| job.with(18, random.within(1, 299))).collect();
    rows[row as usize] = rows[row as usize].with(18, shield);
    let cells = vec![(bad_row_cell(key), Expect::Refusal(11, row.into()))];
    single(books::through(random, reads == 1, &rows), cells)
}

pub fn bad_row_cell([shield, row, reads]: [u32; 3]) -> Cell {
    cell("bad half closed row", [shield, row, reads, 0])
}

/// Shields of a mild and a harsh half closed end: in order, the wrong way, and out of range.
const ENDS: [[u32; 2]; 25] = [
    [1, 1],
    [1, 2],
    [1, 299],
    [1, 300],
    [1, 700],
    [127, 128],
    [150, 299],
    [298, 299],
    [299, 299],
    [299, 300],
    [299, 301],
    [299, 700],
    [300, 300],
    [2, 1],
    [300, 299],
    [301, 299],
    [300, 1],
    [700, 1],
    [700, 299],
    [0, 0],
    [0, 299],
    [299, 0],
    [299, 701],
    [701, 299],
    [701, 701],
];

/// As many turns as there are such shields, families and walls behind.
pub const ENDS_TURNS: u64 = 100;

/// Mild shield, harsh shield, family, and wall behind.
pub fn ends_key(number: u64) -> [u32; 4] {
    let [mild, harsh] = ENDS[number as usize % ENDS.len()];
    let number = number as u32 / ENDS.len() as u32;
    [mild, harsh, 1 + number % 2, 1 + number / 2 % 2]
}

/// Two half closed ends of each pair of shields, alike in all else or harsher in other fields too.
pub fn ends(random: &mut Random, _: &Lists, number: u64) -> Turn {
    let key @ [shield, other, family, wall] = ends_key(number);
    let mild = half_closed(random, family, wall, shield);
    let harsh = if random.once_in(2) { shifted(random, &mild, true, 3, &[18]) } else { mild };
    ends_turn(random, [mild, harsh.with(18, other)], ends_cell(key))
}

/// The call on two ends, with what it has to answer.
fn ends_turn(random: &mut Random, pair: Pair, cell: Cell) -> Turn {
    turn(random, &pair, vec![(cell, expected_of_ends(&pair))])
}

pub fn ends_cell(key: [u32; 4]) -> Cell {
    cell("half closed ends", key)
}

/// Unlike enclosures of a mild and a harsh end, one of them half closed; 4 is none.
const UNLIKE: [[u32; 2]; 6] = [[1, 2], [2, 1], [2, 3], [3, 2], [2, 4], [4, 2]];

/// Shields of both ends, the first out of every range, the last where half closed alone.
const SHARED: [u32; 6] = [0, 1, 299, 300, 700, 701];

/// As many turns as there are unlike enclosures and shields of both ends.
pub const UNLIKE_TURNS: u64 = 36;

/// Mild enclosure, harsh enclosure, and the shield of both.
pub fn unlike_key(number: u64) -> [u32; 3] {
    let ([mild, harsh], shield) = (UNLIKE[number as usize % 6], SHARED[number as usize / 6 % 6]);
    [mild, harsh, shield]
}

/// Two ends of one shield in unlike enclosures.
pub fn unlike(random: &mut Random, _: &Lists, number: u64) -> Turn {
    let key @ [enclosure, other, shield] = unlike_key(number);
    let job = any_accepted(random).with(18, shield);
    ends_turn(random, [job.with(17, enclosure), job.with(17, other)], unlike_cell(key))
}

pub fn unlike_cell([mild, harsh, shield]: [u32; 3]) -> Cell {
    cell("unlike enclosures of one shield", [mild, harsh, shield, 0])
}
