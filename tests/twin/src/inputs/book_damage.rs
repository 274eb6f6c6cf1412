//! The turns on books that are refused as bytes: counts, damaged numbers, cut or lengthened ones, several faults.

use super::book_rows::with_bad_row;
use super::books::{accepted, in_columns, in_rows, longest, read, some_rows, whole};
use super::files::{self, broken};
use super::kinds::single;
use super::{Lists, Turn};
use crate::call::Call;
use crate::coverage::{Cell, Expect, cell};
use crate::random::Random;
use std::cmp::Reverse;

/// The counts tried: up to 200 and above, in one byte and in more, and such as end in zeros.
pub const COUNTS: [u32; 12] = [0, 1, 127, 128, 199, 200, 201, 255, 256, 16_384, 65_536, 4_294_967_295];

/// Every count, followed by nothing (0), by a few bytes (1), or by rows (2), as many as it says up to 256.
pub fn count(random: &mut Random, _: &Lists, turn: u64) -> Turn {
    let (count, follows) = (COUNTS[turn as usize % 12], turn / 12 % 3);
    let mut book = files::of(&[count]);
    let begun = book.len();
    match follows {
        0 => {}
        1 => {
            let length = 1 + random.below(12);
            book.extend(random.bytes(length));
        }
        _ => {
            let rows = if count <= 256 { count as usize } else { random.below(4) };
            book.extend(files::of(&in_columns(&accepted(random, rows))[1..]));
        }
    }
    let expect = match (count, follows) {
        (201.., _) => Expect::Refusal(10, u64::from(count)),
        (0, 0 | 2) => Expect::Length(0),
        (0, _) => Expect::Refusal(9, 1),
        (_, 0) => Expect::Refusal(9, begun as u64),
        // Twelve bytes are too few for 25 numbers.
        (_, 1) => Expect::Number(9),
        _ => Expect::Length(u64::from(count)),
    };
    single(read(random, book, count.min(200) as usize), vec![(count_cell(count, follows), expect)])
}

pub fn count_cell(count: u32, follows: u64) -> Cell {
    cell("count of a book", [count, follows as u32, 0, 0])
}

/// As many turns as there are ways to damage a count, and rooms.
pub const DAMAGED_COUNTS: u64 = 8;

/// The way, which leaves a byte at least, for no bytes at all are an empty season; and whether there is no room.
pub fn damaged_count_key(turn: u64) -> (usize, u64) {
    (1 + turn as usize % 4, turn / 4 % 2)
}

/// A count damaged in each way, with room enough and with none; rows stand behind it where the way leaves them there.
pub fn damaged_count(random: &mut Random, _: &Lists, turn: u64) -> Turn {
    let key @ (way, short) = damaged_count_key(turn);
    let rows = some_rows(random);
    let mut numbers = in_columns(&accepted(random, rows));
    if random.once_in(4) {
        numbers[0] = random.pick(&COUNTS);
    }
    let book = broken(random, &numbers, 0, way).0;
    let call =
        if short == 1 { Call::ReadBook { book, numbers: 0, fill: random.next() } } else { read(random, book, rows) };
    single(call, vec![(damaged_count_cell(key), Expect::Refusal(9, 0))])
}

pub fn damaged_count_cell((way, short): (usize, u64)) -> Cell {
    cell("damaged count", [way as u32, short as u32, 0, 0])
}

/// A count above 200 with a last group of zero added: damaged, though its value is plain to see.
pub fn high_count_damaged(random: &mut Random, _: &Lists, turn: u64) -> Turn {
    let count = COUNTS[6 + turn as usize % 6];
    let rows = some_rows(random);
    let mut book = files::of(&[count]);
    let last = book.len() - 1;
    book[last] |= 0x80;
    book.push(0);
    book.extend(files::of(&in_columns(&accepted(random, rows))[1..]));
    single(read(random, book, rows), vec![(high_count_damaged_cell(count), Expect::Refusal(9, 0))])
}

pub fn high_count_damaged_cell(count: u32) -> Cell {
    cell("count above 200 in a longer form", [count, 0, 0, 0])
}

/// As many turns as there are numbers and ways to damage them in books of one row and of two.
pub const DAMAGES: u64 = 375;

/// The rows of the book, the number damaged, the count being number 0, and the way.
pub fn damage(turn: u64) -> (usize, usize, usize) {
    let (number, way) = ((turn % DAMAGES) as usize % 75, (turn % DAMAGES) as usize / 75);
    if number < 25 { (1, 1 + number, way) } else { (2, number - 24, way) }
}

/// Every number of a small book damaged in every way.
pub fn broken_number(random: &mut Random, _: &Lists, turn: u64) -> Turn {
    let (size, number, way) = damage(turn);
    let rows = accepted(random, size);
    let (book, offset) = broken(random, &in_columns(&rows), number, way);
    let cells = vec![(damage_cell(size, number, way), Expect::Refusal(9, offset as u64))];
    single(read(random, book, size), cells)
}

pub fn damage_cell(rows: usize, number: usize, way: usize) -> Cell {
    cell("broken number of a book", [rows as u32, number as u32, way as u32, 0])
}

/// Two rows of the longest have so many bytes with their count.
pub const CUTS: usize = 85;
/// Books of fewer rows than this are lengthened.
pub const LENGTHENED: usize = 5;

/// A book cut at every byte, or lengthened.
pub fn cut(random: &mut Random, _: &Lists, turn: u64) -> Turn {
    let number = turn as usize % (LENGTHENED + CUTS);
    let Some(cut) = number.checked_sub(LENGTHENED) else {
        return lengthened(random, number);
    };
    let numbers = in_columns(&longest(random, 2));
    let mut book = files::of(&numbers);
    book.truncate(cut);
    // The number cut off is the last that begins at the cut or before it; without a byte there is none.
    let offset = (0..numbers.len()).map(|before| files::of(&numbers[..before]).len()).filter(|&at| at <= cut).max();
    let expect = if cut == 0 { Expect::Length(0) } else { Expect::Refusal(9, offset.unwrap_or(0) as u64) };
    single(read(random, book, 2), vec![(cut_cell(cut), expect)])
}

pub fn cut_cell(number: usize) -> Cell {
    cell("cut book", [number as u32, 0, 0, 0])
}

/// Bytes after the last number, of any kind; a book without rows is among those lengthened.
fn lengthened(random: &mut Random, rows: usize) -> Turn {
    let mut book = whole(&accepted(random, rows));
    let end = book.len();
    book.extend(extra_bytes(random, 60));
    single(read(random, book, rows + 1), vec![(lengthened_cell(rows), Expect::Refusal(9, end as u64))])
}

pub fn lengthened_cell(rows: usize) -> Cell {
    cell("lengthened book", [rows as u32, 0, 0, 0])
}

/// A few bytes, often zeros or one line end: a reader may pass over those alone.
fn extra_bytes(random: &mut Random, most: usize) -> Vec<u8> {
    let length = 1 + random.below(most);
    match random.below(4) {
        0 => vec![0x0A],
        1 => random.bytes(length),
        _ => vec![0; length],
    }
}

/// Two damaged places: the lower number not cut off, the other in any way, or bytes after the last number.
pub fn two_places(random: &mut Random, _: &Lists, turn: u64) -> Turn {
    let (way, other) = (2 + turn as usize % 3, turn as usize / 3 % 6);
    let rows = 1 + random.below(3);
    let numbers = in_columns(&accepted(random, rows));
    let lower = 1 + random.below(numbers.len() - 2);
    let upper = lower + 1 + random.below(numbers.len() - lower - 1);
    let behind = match other {
        5 => [files::of(&numbers[lower + 1..]), extra_bytes(random, 5)].concat(),
        way => broken(random, &numbers[lower + 1..], upper - lower - 1, way).0,
    };
    let (before, offset) = broken(random, &numbers[..=lower], lower, way);
    let cells = vec![(two_places_cell(way, other), Expect::Refusal(9, offset as u64))];
    single(read(random, [before, behind].concat(), rows), cells)
}

pub fn two_places_cell(way: usize, other: usize) -> Cell {
    cell("book damaged in two places", [way as u32, other as u32, 0, 0])
}

/// The bytes of a damaged number: 0 in a longer form, one above 32 bits, one of six bytes.
const DAMAGED_NUMBERS: [&[u8]; 3] = [&[0x80, 0], &[0x80, 0x80, 0x80, 0x80, 0x10], &[0x81, 0x80, 0x80, 0x80, 0x80, 0]];

/// As many turns as there are such numbers and columns with another behind them.
pub const SAME_DAMAGES: u64 = 72;

/// The same damage in row 1 of a column and in row 0 of the next: the later row's stands first in the book.
pub fn same_damage(random: &mut Random, _: &Lists, turn: u64) -> Turn {
    let (way, column) = (turn as usize % 3, turn as usize / 3 % 24);
    let numbers = in_columns(&accepted(random, 2));
    let before = files::of(&numbers[..2 * column + 2]);
    let offset = before.len() as u64;
    let behind = files::of(&numbers[2 * column + 4..]);
    let book = [&before, DAMAGED_NUMBERS[way], DAMAGED_NUMBERS[way], &behind].concat();
    single(read(random, book, 2), vec![(same_damage_cell(way, column), Expect::Refusal(9, offset))])
}

pub fn same_damage_cell(way: usize, column: usize) -> Cell {
    cell("same damage in two columns", [way as u32, column as u32, 0, 0])
}

// The faults of reading a book, one bit each.
pub const DAMAGED_COUNT: u64 = 1;
pub const TOO_MANY: u64 = 2;
pub const DAMAGED: u64 = 4;
pub const TRAILED: u64 = 8;
pub const BAD_ROW: u64 = 16;
const SHORT: u64 = 32;

/// Every set of them, none among them.
pub const READING_SETS: u64 = 64;
/// The sets of faults in writing, of which there are three: more than 200 rows, a bad row, a buffer too short.
pub const WRITING_SETS: u64 = 8;

pub fn faults_cell(reads: bool, set: u64) -> Cell {
    cell("faults of a book", [u32::from(reads), set as u32, 0, 0])
}

/// Sets of faults in reading, those of few first; the first fault in order has to be the one refused.
pub fn faults(random: &mut Random, _: &Lists, turn: u64) -> Turn {
    let mut sets: Vec<u64> = (0..READING_SETS).collect();
    sets.sort_by_key(|&set| (set.count_ones(), Reverse(set)));
    let set = sets[(turn % READING_SETS) as usize];
    let has = |fault: u64| set & fault != 0;
    let size = random.within(1, 5) as usize;
    let mut rows = accepted(random, size);
    let bad = if has(BAD_ROW) { with_bad_row(random, &mut rows) } else { size };
    let mut numbers = in_columns(&rows);
    if has(TOO_MANY) {
        numbers[0] = random.pick(&COUNTS[6..]);
    }
    let (book, damaged) = damaged_book(random, &numbers, set);
    let expect = match set {
        _ if has(DAMAGED_COUNT) => Expect::Refusal(9, 0),
        _ if has(TOO_MANY) => Expect::Refusal(10, u64::from(numbers[0])),
        _ if has(DAMAGED | TRAILED) => Expect::Refusal(9, damaged as u64),
        _ if has(BAD_ROW) => Expect::Refusal(11, bad as u64),
        _ if has(SHORT) => Expect::Refusal(8, size as u64),
        _ => Expect::Length(size as u64),
    };
    let numbers = if has(SHORT) { random.below(size * 25) } else { size * 25 + random.below(26) };
    let call = Call::ReadBook { book, numbers, fill: random.next() };
    single(call, vec![(faults_cell(true, set), expect)])
}

/// A book with the faults that its bytes can have, and where what follows the count is damaged.
pub fn damaged_book(random: &mut Random, numbers: &[u32], set: u64) -> (Vec<u8>, usize) {
    let whole = files::of(numbers);
    let end = whole.len();
    // A number that is cut off would leave no place for bytes after the last.
    let (number, least) = (1 + random.below(numbers.len() - 1), if set & TRAILED != 0 { 2 } else { 0 });
    let (way, of_count) = (least + random.below(5 - least), 2 + random.below(3));
    let (mut book, offset) = if set & DAMAGED != 0 { broken(random, numbers, number, way) } else { (whole, end) };
    if set & TRAILED != 0 {
        book.extend(extra_bytes(random, 5));
    }
    if set & DAMAGED_COUNT != 0 {
        let behind = book.split_off(files::of(&numbers[..1]).len());
        book = [broken(random, &numbers[..1], 0, of_count).0, behind].concat();
    }
    (book, offset)
}

/// Sets of faults in writing; the first fault in order has to be the one refused.
pub fn writing_faults(random: &mut Random, _: &Lists, turn: u64) -> Turn {
    let set = turn % WRITING_SETS;
    let [too_many, bad_row, short] = [0, 1, 2].map(|fault| set >> fault & 1 == 1);
    let size = if too_many { random.within(201, 203) } else { random.within(1, 5) } as usize;
    let mut rows = accepted(random, size);
    let bad = if bad_row { with_bad_row(random, &mut rows) } else { size };
    let needed = whole(&rows).len();
    let book = if short { random.below(20) } else { needed + random.below(9) };
    let expect = match (too_many, bad_row, short) {
        (true, _, _) => Expect::Refusal(10, size as u64),
        (_, true, _) => Expect::Refusal(11, bad as u64),
        (_, _, true) => Expect::Refusal(8, needed as u64),
        _ => Expect::Length(needed as u64),
    };
    let call = Call::WriteBook { numbers: in_rows(&rows), book, fill: random.next() };
    single(call, vec![(faults_cell(false, set), expect)])
}

/// Other damage to books of a few rows.
pub fn shaken(random: &mut Random, _: &Lists, _: u64) -> Turn {
    let rows = random.below(4);
    let numbers = in_columns(&accepted(random, rows));
    let book = files::shaken(random, &numbers);
    single(read(random, book, rows + 1), Vec::new())
}
