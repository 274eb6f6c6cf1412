//! The turns on books that are judged and refused, or nearly so: damage, bad rows and several faults, with rows before
//! them that fail.

use super::book_damage::{self, BAD_ROW, DAMAGED, DAMAGED_COUNT, TOO_MANY, TRAILED, damaged_book};
use super::book_rows::{FAULTS, PAIRS, bad_row};
use super::books::{accepted, in_columns, whole};
use super::first_failing::{call, failing, passing_rows};
use super::jobs::wild as wild_job;
use super::kinds::single;
use super::sheets::{to_bytes, valid};
use super::{Lists, Planned, Relation, Turn, ends, faults as faulty, files};
use crate::call::Call;
use crate::coverage::{Cell, Expect, cell};
use crate::paper::job::{Job, accept};
use crate::paper::sheet::Sheet;
use crate::random::Random;
use std::cmp::Reverse;

/// The kind of calls, by which cells count the call on the first failing row.
pub const KIND: u32 = 12;

/// A turn on books that are read, made to the call that judges them.
fn judged(random: &mut Random, turn: Turn) -> Turn {
    let calls = turn.calls.into_iter().map(|planned| of_judged(random, planned)).collect();
    Turn { calls, relation: Relation::Nothing }
}

/// What is refused in reading is refused alike, and what is read is judged.
fn of_judged(random: &mut Random, planned: Planned) -> Planned {
    let Call::ReadBook { book, .. } = planned.call else {
        panic!("a book is read in this turn");
    };
    let of = |expect| if matches!(expect, Expect::Length(_)) { Expect::Length(2) } else { expect };
    let cells = planned.cells.into_iter().map(|(cell, expect)| (judged_cell(cell), of(expect))).collect();
    let sheet = to_bytes(&valid(random));
    Planned { call: call(random, sheet, book), cells }
}

/// The cell of a book that is read, where it is judged.
pub fn judged_cell(read: Cell) -> Cell {
    let [first, second, third, _] = read.key;
    Cell { key: [first, second, third, 1], ..read }
}

pub fn count(random: &mut Random, lists: &Lists, number: u64) -> Turn {
    let read = book_damage::count(random, lists, number);
    judged(random, read)
}

/// A count damaged in each way, and one above 200 in a longer form.
pub fn damaged_count(random: &mut Random, lists: &Lists, number: u64) -> Turn {
    let read = match number % 2 {
        0 => book_damage::damaged_count(random, lists, number / 2),
        _ => book_damage::high_count_damaged(random, lists, number / 2),
    };
    judged(random, read)
}

pub fn broken_number(random: &mut Random, lists: &Lists, number: u64) -> Turn {
    let read = book_damage::broken_number(random, lists, number);
    judged(random, read)
}

pub fn cut(random: &mut Random, lists: &Lists, number: u64) -> Turn {
    let read = book_damage::cut(random, lists, number);
    judged(random, read)
}

pub fn two_places(random: &mut Random, lists: &Lists, number: u64) -> Turn {
    let read = book_damage::two_places(random, lists, number);
    judged(random, read)
}

pub fn same_damage(random: &mut Random, lists: &Lists, number: u64) -> Turn {
    let read = book_damage::same_damage(random, lists, number);
    judged(random, read)
}

pub fn shaken(random: &mut Random, lists: &Lists, number: u64) -> Turn {
    let read = book_damage::shaken(random, lists, number);
    judged(random, read)
}

/// As many turns as there are ways of damage, those that cut the book among them, and thirds of the columns.
pub const BEHIND: u64 = 18;

/// The way, 5 for bytes after the last number, and the third of the columns in which a later row is damaged.
pub fn behind_key(number: u64) -> [u32; 2] {
    [(number % 6) as u32, (number / 6 % 3) as u32]
}

/// Damage to a row behind one that fails: the book is refused, whatever the rows before the damaged one would show.
pub fn behind(random: &mut Random, _: &Lists, number: u64) -> Turn {
    let key @ [way, third] = behind_key(number);
    let (sheet, size) = (Sheet(valid(random)), random.within(2, 4) as usize);
    let mut rows = passing_rows(random, &sheet, size);
    rows[0] = failing(random, &sheet);
    let (numbers, column) = (in_columns(&rows), third as usize * 8 + random.below(8));
    let damaged = 1 + column * size + 1 + random.below(size - 1);
    let (book, offset) = match way {
        5 => ([files::of(&numbers), vec![random.next() as u8]].concat(), files::of(&numbers).len()),
        _ => files::broken(random, &numbers, damaged, way as usize),
    };
    let cells = vec![(behind_cell(key), Expect::Refusal(9, offset as u64))];
    single(call(random, to_bytes(&sheet.0), book), cells)
}

pub fn behind_cell([way, third]: [u32; 2]) -> Cell {
    cell("damage behind a failing row", [way, third, 0, 0])
}

/// The turn of one call on rows under a valid sheet.
fn on_rows(random: &mut Random, rows: &[Job], cells: Vec<(Cell, Expect)>) -> Turn {
    let sheet = to_bytes(&valid(random));
    single(call(random, sheet, whole(rows)), cells)
}

/// What is answered under a valid sheet: the lowest bad row, or two numbers.
fn expected(rows: &[Job]) -> Expect {
    match rows.iter().position(|row| accept(row).is_err()) {
        Some(row) => Expect::Refusal(11, row as u64),
        None => Expect::Length(2),
    }
}

/// As many turns as there are faults of a row and orders.
pub const BAD_ROWS: u64 = 2 * FAULTS as u64;

/// The fault, those that are no field's range first, and whether the row that fails stands behind the bad one.
pub fn bad_row_key(number: u64) -> [u32; 2] {
    let (fault, round) = (number % FAULTS as u64, number / FAULTS as u64);
    [((fault + 25) % FAULTS as u64) as u32, ((fault + round) % 2) as u32]
}

/// A bad row behind one that fails, or before it: the book is refused either way.
pub fn one_bad(random: &mut Random, _: &Lists, number: u64) -> Turn {
    let key @ [fault, behind] = bad_row_key(number);
    let sheet = Sheet(valid(random));
    let (first, second) = random.pick(&PAIRS);
    let (bad, fails) = if behind == 1 { (first, second) } else { (second, first) };
    let mut rows = passing_rows(random, &sheet, 4);
    rows[fails] = failing(random, &sheet);
    rows[bad] = bad_row(random, fault as usize);
    let cells = vec![(bad_row_cell(key), Expect::Refusal(11, bad as u64))];
    single(call(random, to_bytes(&sheet.0), whole(&rows)), cells)
}

pub fn bad_row_cell([fault, behind]: [u32; 2]) -> Cell {
    cell("bad row and failing row", [fault, behind, 0, 0])
}

/// Two bad rows among four; what is wrong with the later one stands in earlier columns, or is tried first.
pub fn two_bad(random: &mut Random, _: &Lists, number: u64) -> Turn {
    let pair @ (row, later) = PAIRS[number as usize % PAIRS.len()];
    let (fault, met_first) = (random.within(20, 28) as usize, random.pick(&[0, 1, 2, 3, 4, 5, 6, 7, 8, 29]));
    let mut rows = accepted(random, 4);
    rows[row] = bad_row(random, fault);
    rows[later] = bad_row(random, met_first);
    on_rows(random, &rows, vec![(two_bad_cell(pair), Expect::Refusal(11, row as u64))])
}

pub fn two_bad_cell((row, later): (usize, usize)) -> Cell {
    cell("two bad rows of a judged book", [row as u32, later as u32, 0, 0])
}

/// The last row of so many is bad, and row 0 fails.
pub const FAR: [usize; 4] = [2, 128, 129, 200];

pub fn bad_far_down(random: &mut Random, _: &Lists, number: u64) -> Turn {
    let (size, fault) = (FAR[number as usize % FAR.len()], random.below(FAULTS));
    let sheet = Sheet(valid(random));
    let mut rows = passing_rows(random, &sheet, size);
    (rows[0], rows[size - 1]) = (failing(random, &sheet), bad_row(random, fault));
    let cells = vec![(bad_far_cell(size), Expect::Refusal(11, size as u64 - 1))];
    single(call(random, to_bytes(&sheet.0), whole(&rows)), cells)
}

pub fn bad_far_cell(size: usize) -> Cell {
    cell("bad row behind a failing one", [size as u32, 0, 0, 0])
}

/// Every end of a range, and the contradictions and walls beside them, in a row of a small book.
pub fn end(random: &mut Random, lists: &Lists, number: u64) -> Turn {
    let (job, key) = ends::numbered(random, &lists.ends, number, KIND);
    let size = random.within(1, 3) as usize;
    let mut rows = accepted(random, size);
    rows[random.below(size)] = job;
    let expect = expected(&rows);
    on_rows(random, &rows, vec![(key, expect)])
}

/// A row with numbers of any size.
pub fn wild(random: &mut Random, _: &Lists, _: u64) -> Turn {
    let size = random.within(1, 5) as usize;
    let mut rows = accepted(random, size);
    let row = random.below(size);
    rows[row] = wild_job(random, rows[row]);
    on_rows(random, &rows, Vec::new())
}

/// Every set of faults of a book's bytes and rows, and of the sheet's.
pub const SETS: u64 = 128;

// The sheet's faults, one bit each; those of a book go before them.
const WRONG_LENGTH: u64 = 32;
const BAD_ENTRY: u64 = 64;

/// Sets of faults, those of few first; the first fault in order has to be the one refused. Row 0 fails at times.
pub fn faults(random: &mut Random, _: &Lists, number: u64) -> Turn {
    let mut sets: Vec<u64> = (0..SETS).collect();
    sets.sort_by_key(|&set| (set.count_ones(), Reverse(set)));
    let set = sets[(number % SETS) as usize];
    let has = |fault: u64| set & fault != 0;
    let (size, fault) = (random.within(2, 5) as usize, random.below(FAULTS));
    let mut rows = accepted(random, size);
    let bad = random.below(size);
    if has(BAD_ROW) {
        rows[bad] = bad_row(random, fault);
    }
    let mut numbers = in_columns(&rows);
    if has(TOO_MANY) {
        numbers[0] = random.pick(&book_damage::COUNTS[6..]);
    }
    let (book, damaged) = damaged_book(random, &numbers, set);
    let sheet = faulty::sheet(random, has(WRONG_LENGTH), has(BAD_ENTRY));
    let expect = match set {
        _ if has(WRONG_LENGTH) => Expect::Refusal(1, sheet.len() as u64),
        _ if has(BAD_ENTRY) => Expect::Number(2),
        _ if has(DAMAGED_COUNT) => Expect::Refusal(9, 0),
        _ if has(TOO_MANY) => Expect::Refusal(10, u64::from(numbers[0])),
        _ if has(DAMAGED | TRAILED) => Expect::Refusal(9, damaged as u64),
        _ if has(BAD_ROW) => Expect::Refusal(11, bad as u64),
        _ => Expect::Length(2),
    };
    single(call(random, sheet, book), vec![(faults_cell(set), expect)])
}

pub fn faults_cell(set: u64) -> Cell {
    cell("faults of a judged book", [set as u32, 0, 0, 0])
}
