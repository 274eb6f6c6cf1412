//! The turns on books that are refused for a row: every field, contradictions, walls, supports, and several such rows.

use super::books::{accepted, expected, through, whole};
use super::jobs::{self, any_accepted};
use super::kinds::single;
use super::{Lists, Turn, ends, supports};
use crate::call::Call;
use crate::coverage::{Cell, Expect, cell};
use crate::paper::job::{Job, range};
use crate::random::Random;

/// What makes a row bad: 25 fields out of range, 4 and 5 at either place, a first number of 3, a support's numbers.
pub const FAULTS: usize = 31;

/// A row that has the fault.
pub fn bad_row(random: &mut Random, fault: usize) -> Job {
    let job = any_accepted(random);
    match fault {
        0..=24 => outside(random, job, fault + 1),
        25..=28 => ends::contradiction(random, [1, 3, 5, 6][fault - 25]),
        29 => job.with(1, 3),
        _ => {
            let (mut job, support) = (job, supports::any_accepted(random));
            job.0[..13].copy_from_slice(&support.0);
            job
        }
    }
}

// First number 3 is a fault of its own.
fn outside(random: &mut Random, job: Job, field: usize) -> Job {
    let (least, most) = (*range(&job, field).start(), *range(&job, field).end());
    let beyond = most + random.pick(&[1, 2, 3, 65_536]) + u32::from(field == 1);
    let below = least.checked_sub(1).filter(|_| random.once_in(2));
    job.with(field, below.unwrap_or(if random.once_in(8) { u32::MAX } else { beyond }))
}

/// Makes one of the rows bad, in any way, and gives its place.
pub fn with_bad_row(random: &mut Random, rows: &mut [Job]) -> usize {
    let (row, fault) = (random.below(rows.len()), random.below(FAULTS));
    rows[row] = bad_row(random, fault);
    row
}

/// As many turns as there are faults, rows of a small book and calls.
pub const BAD_ROWS: u64 = 186;

/// The fault, the row, 0 to 2, and whether the book is read; the faults that are no field's range come first.
pub fn bad_row_key(turn: u64) -> [u32; 3] {
    let number = (turn % BAD_ROWS) as u32;
    [(number + 25) % 31, number / 31 % 3, number / 93]
}

/// Every fault in each of three rows.
pub fn one_bad(random: &mut Random, _: &Lists, turn: u64) -> Turn {
    let key @ [fault, row, reads] = bad_row_key(turn);
    let mut rows = accepted(random, 3);
    rows[row as usize] = bad_row(random, fault as usize);
    row_turn(random, &rows, reads == 1, bad_row_cell(key))
}

/// The call on rows, with its cell.
fn row_turn(random: &mut Random, rows: &[Job], reads: bool, cell: Cell) -> Turn {
    single(through(random, reads, rows), vec![(cell, expected(reads, rows))])
}

pub fn bad_row_cell([fault, row, reads]: [u32; 3]) -> Cell {
    cell("bad row", [fault, row, reads, 0])
}

/// Rows far down in a book of 200 that are bad alone.
pub const FAR: [usize; 5] = [63, 127, 128, 198, 199];

pub fn far_down(random: &mut Random, _: &Lists, turn: u64) -> Turn {
    let (row, reads, fault) = (FAR[turn as usize % 5], turn / 5 % 2 == 1, random.below(FAULTS));
    let mut rows = accepted(random, 200);
    rows[row] = bad_row(random, fault);
    row_turn(random, &rows, reads, far_cell(row, reads))
}

pub fn far_cell(row: usize, reads: bool) -> Cell {
    cell("bad row far down", [row as u32, u32::from(reads), 0, 0])
}

/// As many turns as there are bad rows and rooms, of which each is too short for four rows.
pub const BAD_IN_SHORT: u64 = 16;

/// A bad row that fits into the room, or stands beyond it: it goes before the room either way.
pub fn bad_in_short(random: &mut Random, _: &Lists, turn: u64) -> Turn {
    let (row, room, fault) = (turn as usize % 4, turn as usize / 4 % 4, random.below(FAULTS));
    let mut rows = accepted(random, 4);
    rows[row] = bad_row(random, fault);
    let numbers = room * 25 + random.below(25);
    let call = Call::ReadBook { book: whole(&rows), numbers, fill: random.next() };
    single(call, vec![(bad_in_short_cell(row, room), Expect::Refusal(11, row as u64))])
}

pub fn bad_in_short_cell(row: usize, room: usize) -> Cell {
    cell("bad row and short room", [row as u32, room as u32, 0, 0])
}

/// The pairs among four rows.
pub const PAIRS: [(usize, usize); 6] = [(0, 1), (0, 2), (0, 3), (1, 2), (1, 3), (2, 3)];

/// The pairs, and all four rows.
pub const ALIKE: usize = 7;

/// Rows that are alike number by number, two of four or all: nothing is wrong with that.
pub fn alike(random: &mut Random, _: &Lists, turn: u64) -> Turn {
    let (which, reads) = (turn as usize % ALIKE, turn as usize / ALIKE % 2 == 1);
    let mut rows = accepted(random, 4);
    match PAIRS.get(which) {
        Some(&(row, later)) => rows[later] = rows[row],
        None => rows = vec![rows[0]; 4],
    }
    row_turn(random, &rows, reads, alike_cell(which, reads))
}

pub fn alike_cell(which: usize, reads: bool) -> Cell {
    cell("rows alike", [which as u32, u32::from(reads), 0, 0])
}

/// Two bad rows; what is wrong with the later one stands in earlier columns, or is tried first.
pub fn two_bad(random: &mut Random, _: &Lists, turn: u64) -> Turn {
    let ((row, later), reads) = (PAIRS[turn as usize % 6], turn / 6 % 2 == 1);
    let (fault, met_first) = (random.within(20, 28) as usize, random.pick(&[0, 1, 2, 3, 4, 5, 6, 7, 8, 29]));
    let mut rows = accepted(random, 4);
    rows[row] = bad_row(random, fault);
    rows[later] = bad_row(random, met_first);
    row_turn(random, &rows, reads, two_bad_cell((row, later), reads))
}

pub fn two_bad_cell((row, later): (usize, usize), reads: bool) -> Cell {
    cell("two bad rows", [row as u32, later as u32, u32::from(reads), 0])
}

/// The kinds of calls, by which cells of ends count a written book and a read one.
pub const KINDS: [u32; 2] = [6, 7];

/// Every end of a range, and the contradictions and walls beside them, in a row of a small book.
pub fn end(random: &mut Random, lists: &Lists, turn: u64) -> Turn {
    let reads = turn / ends::count(&lists.ends) % 2 == 1;
    let (job, key) = ends::numbered(random, &lists.ends, turn, KINDS[usize::from(reads)]);
    let size = random.within(1, 3) as usize;
    let mut rows = accepted(random, size);
    rows[random.below(size)] = job;
    row_turn(random, &rows, reads, key)
}

/// A row with numbers of any size.
pub fn wild(random: &mut Random, _: &Lists, turn: u64) -> Turn {
    let size = random.within(1, 5) as usize;
    let mut rows = accepted(random, size);
    let row = random.below(size);
    rows[row] = jobs::wild(random, rows[row]);
    single(through(random, turn % 2 == 1, &rows), Vec::new())
}
