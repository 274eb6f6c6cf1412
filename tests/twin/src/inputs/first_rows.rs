//! The turns on books that are judged: where the first failing row stands, which check fails there, what is around it.

use super::books::{accepted, some_rows};
use super::first_failing::*;
use super::jobs::any_accepted;
use super::sheets::{SHAPES, of_shape, valid};
use super::tuned::Aim;
use super::{Lists, Turn};
use crate::coverage::{Cell, cell};
use crate::paper::job::Job;
use crate::paper::sheet::Sheet;
use crate::random::Random;

/// Any rows under any sheet.
pub fn uniform(random: &mut Random, _: &Lists, _: u64) -> Turn {
    let (count, sheet) = (some_rows(random).min(40), valid(random));
    let rows = accepted(random, count);
    turn(random, &sheet, &rows, Vec::new())
}

/// Rows that pass and then any rows.
pub fn mixed(random: &mut Random, _: &Lists, _: u64) -> Turn {
    let sheet = Sheet(valid(random));
    let (count, behind) = (random.below(16), random.below(4));
    let rows = [passing_rows(random, &sheet, count), accepted(random, behind)].concat();
    turn(random, &sheet.0, &rows, Vec::new())
}

/// Numbers of rows: none, few, and about 127 and 200.
const SIZES: [usize; 10] = [200, 0, 1, 128, 2, 199, 3, 127, 5, 40];

/// Which rows fail: none, the first, the one in the middle, the last, several behind rows that pass, all.
const PATTERNS: usize = 6;

/// Turns go through the 49 keys in strides of so many, so that the first few reach all patterns; 7 does not divide it.
const STRIDE: usize = 10;

/// Number of rows and which of them fail, where there are rows enough to tell the patterns apart.
pub fn sized_keys() -> Vec<[usize; 2]> {
    let enough = [0, 1, 3, 2, 3, 2];
    let keys = (0..PATTERNS).flat_map(|pattern| SIZES.map(|size| [size, pattern]));
    keys.filter(|&[size, pattern]| size >= enough[pattern]).collect()
}

/// A book of each size with each pattern of rows that fail.
pub fn sized(random: &mut Random, _: &Lists, number: u64) -> Turn {
    let keys = sized_keys();
    let key @ [size, pattern] = keys[number as usize * STRIDE % keys.len()];
    let sheet = Sheet(valid(random));
    let first = match pattern {
        0 => None,
        1 | 5 => Some(0),
        2 => Some(size / 2),
        3 => Some(size - 1),
        _ => Some(1 + random.below(size - 2)),
    };
    let mut rows = passing_rows(random, &sheet, size);
    if let Some(first) = first {
        let last = if pattern < 4 { first } else { size - 1 };
        fail_between(random, &mut rows, first, last, &sheet);
    }
    turn(random, &sheet.0, &rows, vec![(sized_cell(key), told(first, size))])
}

/// Puts failing rows at both places and in between; a few are there several times.
fn fail_between(random: &mut Random, rows: &mut [Job], first: usize, last: usize, sheet: &Sheet) {
    let some: Vec<Job> = (0..6).map(|_| failing(random, sheet)).collect();
    rows[first..=last].fill_with(|| random.pick(&some));
}

pub fn sized_cell([size, pattern]: [usize; 2]) -> Cell {
    cell("rows that fail", [size as u32, pattern as u32, 0, 0])
}

/// First failing rows far down in a book of 200, other ones behind them or not.
pub const FAR: [usize; 5] = [199, 127, 128, 63, 198];

pub fn far_down(random: &mut Random, _: &Lists, number: u64) -> Turn {
    let (first, sheet) = (FAR[number as usize % 5], Sheet(valid(random)));
    let mut rows = passing_rows(random, &sheet, 200);
    let last = if random.once_in(2) { first } else { 199 };
    fail_between(random, &mut rows, first, last, &sheet);
    turn(random, &sheet.0, &rows, vec![(far_cell(first), told(Some(first), 200))])
}

pub fn far_cell(first: usize) -> Cell {
    cell("first failing row far down", [first as u32, 0, 0, 0])
}

/// A check, and where the row stands that fails it alone: first, between others, or last.
pub fn alone_key(number: u64) -> (Aim, u32) {
    let aims = aims();
    let (place, round) = (number as usize % aims.len(), number as usize / aims.len());
    (aims[place], ((place + round) % 3) as u32)
}

/// As many turns as there are such keys.
pub const ALONE: u64 = 138;

/// The first failing row fails one check, and only what fails with it; those before pass, the last one by a step.
pub fn alone(random: &mut Random, _: &Lists, number: u64) -> Turn {
    let key @ (aim, standing) = alone_key(number);
    let Some(edge) = failing_alone(random, aim) else {
        return plain(random);
    };
    let (before, behind) = (1 + random.below(4), 1 + random.below(4));
    let mut rows = passing_rows(random, &edge.sheet, if standing == 0 { 0 } else { before });
    if let Some(last) = rows.last_mut().filter(|_| passes(&edge.passing, &edge.sheet)) {
        *last = edge.passing;
    }
    let place = rows.len();
    rows.push(edge.failing);
    if standing < 2 {
        rows.extend(around(random, &edge.sheet, behind));
    }
    turn(random, &edge.sheet.0, &rows, vec![(alone_cell(key), told(Some(place), rows.len()))])
}

/// Rows of which some pass and some fail.
fn around(random: &mut Random, sheet: &Sheet, count: usize) -> Vec<Job> {
    let mut rows = passing_rows(random, sheet, count);
    for row in rows.iter_mut() {
        if random.once_in(2) {
            *row = any_accepted(random);
        }
    }
    rows
}

pub fn alone_cell((aim, standing): (Aim, u32)) -> Cell {
    cell("first failing row by one check", [aim.check as u32, aim.family, aim.tube, standing])
}

/// As many turns as there are families before and at the failing row, and tubes there.
pub const FAMILIES: u64 = 8;

/// The family of the rows before, that of the failing one, and its tube.
pub fn families_key(number: u64) -> [u32; 3] {
    [0, 1, 2].map(|bit| 1 + (number >> bit & 1) as u32)
}

/// Double rows before single ones, and the other way about.
pub fn families(random: &mut Random, _: &Lists, number: u64) -> Turn {
    let key @ [before, family, tube] = families_key(number);
    let check = random.pick(&[1, 3, 5, 7, 9, 10, 11]);
    let Some(edge) = failing_alone(random, Aim { check, family, tube }) else {
        return plain(random);
    };
    let count = 1 + random.below(4);
    let mut rows: Vec<Job> = (0..count).map(|_| passing(random, before, &edge.sheet)).collect();
    rows.extend([edge.failing, any_accepted(random)]);
    turn(random, &edge.sheet.0, &rows, vec![(families_cell(key), told(Some(count), rows.len()))])
}

pub fn families_cell([before, family, tube]: [u32; 3]) -> Cell {
    cell("families around the first failing row", [before, family, tube, 0])
}

/// As many turns as there are families and ways in which check 8 is not due.
pub const NOT_DUE: u64 = 6;

/// The family, and where check 8 is not due: in every row, none failing (0), in the failing row too (1), in all before
/// a row that fails it (2).
pub fn not_due_key(number: u64) -> [u32; 2] {
    [1 + (number % 2) as u32, (number / 2 % 3) as u32]
}

/// Check 8 not due is no failure.
pub fn not_due(random: &mut Random, _: &Lists, number: u64) -> Turn {
    let key @ [family, way] = not_due_key(number);
    let found = (0..60).find_map(|_| {
        let (check, tube) = (if way == 2 { 8 } else { random.pick(&[1, 5, 11]) }, random.within(1, 2));
        failing_alone(random, Aim { check, family, tube })
            .filter(|edge| way != 1 || is_not_due(&edge.failing, &edge.sheet))
    });
    let Some(edge) = found else {
        return plain(random);
    };
    let count = 1 + random.below(4);
    let mut rows: Vec<Job> = (0..count).map(|_| passing_not_due(random, family, &edge.sheet)).collect();
    if way > 0 {
        rows.push(edge.failing);
    }
    let place = if way > 0 { Some(count) } else { None };
    turn(random, &edge.sheet.0, &rows, vec![(not_due_cell(key), told(place, rows.len()))])
}

pub fn not_due_cell([family, way]: [u32; 2]) -> Cell {
    cell("check 8 not due in a book", [family, way, 0, 0])
}

/// A shape of the sheet, and whether a row fails.
pub fn shape_key(number: u64) -> [u32; 2] {
    [(number / 2 % u64::from(SHAPES)) as u32, (number % 2) as u32]
}

/// Every shape of a sheet.
pub fn shape(random: &mut Random, _: &Lists, number: u64) -> Turn {
    let key @ [shape, fails] = shape_key(number);
    let sheet = Sheet(of_shape(random, shape));
    let count = 1 + random.below(4);
    let mut rows = passing_rows(random, &sheet, count);
    if fails == 1 {
        rows.push(failing(random, &sheet));
    }
    let place = if fails == 1 { Some(count) } else { None };
    turn(random, &sheet.0, &rows, vec![(shape_cell(key), told(place, rows.len()))])
}

pub fn shape_cell([shape, fails]: [u32; 2]) -> Cell {
    cell("shape of a book's sheet", [shape, fails, 0, 0])
}
