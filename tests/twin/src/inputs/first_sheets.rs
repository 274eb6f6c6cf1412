//! The turns on bad sheets before each kind of book, and on no bytes at all and books of no rows.

use super::book_damage::{COUNTS, DAMAGED, DAMAGED_COUNT, TRAILED, damaged_book};
use super::book_rows::{FAULTS, bad_row};
use super::books::{accepted, in_columns, whole};
use super::first_damage::KIND;
use super::first_failing::{call, passing_rows, told};
use super::jobs::any_accepted;
use super::kinds::single;
use super::sheets::{damaged, to_bytes, valid};
use super::{Lists, Turn, files};
use crate::call::Call;
use crate::coverage::{Cell, Expect, cell};
use crate::paper::sheet::Sheet;
use crate::random::Random;

/// The books that stand behind a bad sheet: any rows, rows that pass, no bytes, no rows, a damaged count, one above
/// 200, a damaged number, bytes too many, a bad row.
pub const BOOKS: u64 = 9;

fn some_book(random: &mut Random, which: u64) -> Vec<u8> {
    let size = random.within(1, 3) as usize;
    let mut rows = accepted(random, size);
    match which {
        1 => {
            let sheet = Sheet(valid(random));
            return whole(&passing_rows(random, &sheet, size));
        }
        2 => return Vec::new(),
        3 => return vec![0],
        8 => {
            let fault = random.below(FAULTS);
            rows[size - 1] = bad_row(random, fault);
        }
        _ => {}
    }
    let mut numbers = in_columns(&rows);
    if which == 5 {
        numbers[0] = random.pick(&COUNTS[6..]);
    }
    let set = match which {
        4 => DAMAGED_COUNT,
        6 => DAMAGED,
        7 => TRAILED,
        _ => 0,
    };
    damaged_book(random, &numbers, set).0
}

/// Lengths of a sheet, among them what 251 entries would be in one byte each, a byte or an entry more or less, and 502
/// in sixteen bits.
pub const LENGTHS: [usize; 18] =
    [0, 501, 503, 251, 250, 252, 500, 504, 1_004, 502 + 65_536, 1, 2, 255, 256, 257, 499, 505, 510];

/// What is wrong with the sheet, 0 for its length, else 1 more than the fault of an entry; and the book behind it.
pub fn bad_sheet_cell(what: u32, book: u64) -> Cell {
    cell("bad sheet before a book", [what, book as u32, 0, 0])
}

pub fn sheet_length(random: &mut Random, _: &Lists, number: u64) -> Turn {
    let length = LENGTHS[number as usize % LENGTHS.len()];
    let which = (number + number / LENGTHS.len() as u64) % BOOKS;
    let mut sheet = to_bytes(&valid(random));
    sheet.resize(length, 0);
    let expect = Expect::Refusal(1, length as u64);
    let cells = vec![(length_cell(length), expect), (bad_sheet_cell(0, which), expect)];
    let book = some_book(random, which);
    single(call(random, sheet, book), cells)
}

pub fn length_cell(length: usize) -> Cell {
    super::damage::length_cell(length, KIND)
}

/// The entry that is damaged, the fault, and the book behind the sheet; every tenth turn has the last entry below 117.
pub fn entry_key(number: u64) -> (usize, usize, u64) {
    let turn = number - number / 10;
    match (number % 10, (turn % 251) as usize) {
        (9, _) => (250, 3 + (number / 10 % 2) as usize, number / 10 % BOOKS),
        // No entry stands before entry 0 that it could be above.
        (_, 0) => (0, if turn % 3 == 1 { 0 } else { turn as usize % 3 }, turn / 3 % BOOKS),
        (_, k) => (k, turn as usize % 3, turn / 3 % BOOKS),
    }
}

/// Every entry damaged, in one of the ways.
pub fn damaged_sheet(random: &mut Random, _: &Lists, number: u64) -> Turn {
    let (k, fault, which) = entry_key(number);
    let sheet = damaged(random, k, fault);
    let expect = Expect::Refusal(2, k as u64);
    let cells = vec![(entry_cell(k), expect), (bad_sheet_cell(1 + fault as u32, which), expect)];
    let book = some_book(random, which);
    single(call(random, to_bytes(&sheet), book), cells)
}

pub fn entry_cell(k: usize) -> Cell {
    cell("damaged entry before a book", [k as u32, 0, 0, 0])
}

/// Numbers lent for the rows of no bytes, more than 200 rows among them.
pub const ROOMS: [usize; 6] = [5_050, 0, 1, 24, 25, 50];

/// No bytes at all; the count 0 with nothing, one byte or a row behind it; one byte of another count.
pub const EMPTY: u64 = 7;

/// No bytes at all and books of no rows, judged under any sheet; and no bytes read into each room.
pub fn no_rows(random: &mut Random, _: &Lists, number: u64) -> Turn {
    let which = number % (EMPTY + ROOMS.len() as u64);
    if let Some(room) = which.checked_sub(EMPTY) {
        let numbers = ROOMS[room as usize];
        let call = Call::ReadBook { book: Vec::new(), numbers, fill: random.next() };
        return single(call, vec![(no_bytes_cell(numbers), Expect::Length(0))]);
    }
    let row = any_accepted(random);
    let book = match which {
        0 => Vec::new(),
        1 => vec![0],
        2 => vec![0, random.pick(&[0, 0x0A, 0x80, 0xFF])],
        3 => [vec![0], files::of(&row.0)].concat(),
        4 => vec![0x0A],
        5 => vec![random.within(1, 0x7F) as u8],
        _ => vec![random.within(0x80, 0xFF) as u8],
    };
    let expect = match which {
        0 | 1 => told(None, 0),
        6 => Expect::Refusal(9, 0),
        _ => Expect::Refusal(9, 1),
    };
    let sheet = to_bytes(&valid(random));
    single(call(random, sheet, book), vec![(no_rows_cell(which), expect)])
}

pub fn no_rows_cell(which: u64) -> Cell {
    cell("no rows judged", [which as u32, 0, 0, 0])
}

pub fn no_bytes_cell(room: usize) -> Cell {
    cell("numbers lent for no bytes", [room as u32, 0, 0, 0])
}
