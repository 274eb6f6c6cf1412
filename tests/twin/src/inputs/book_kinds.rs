//! The turns on books of accepted rows: every size, the longest, rows cut off behind the last, buffers of every length.

use super::books::{MOST, accepted, expected, in_rows, longest, some_rows, through, whole};
use super::kinds::single;
use super::{Lists, Turn, books};
use crate::call::Call;
use crate::coverage::{Cell, Expect, cell};
use crate::random::Random;

pub fn uniform(random: &mut Random, _: &Lists, turn: u64) -> Turn {
    let (rows, reads) = (some_rows(random), turn % 2 == 1);
    let rows = accepted(random, rows);
    single(through(random, reads, &rows), Vec::new())
}

/// Sizes up to the limit: without rows, few rows, and a count about to take another byte.
pub const SIZES: [usize; 10] = [0, 1, 2, 3, 5, 40, 127, 128, 199, 200];

pub fn sized(random: &mut Random, _: &Lists, turn: u64) -> Turn {
    let (size, reads) = (SIZES[turn as usize % 10], turn / 10 % 2 == 1);
    let rows = accepted(random, size);
    single(through(random, reads, &rows), vec![(size_cell(size, reads), expected(reads, &rows))])
}

pub fn size_cell(size: usize, reads: bool) -> Cell {
    cell("rows of a book", [size as u32, u32::from(reads), 0, 0])
}

/// Numbers lent to the writer: about 200 rows, and about 256, where a count of one byte would begin again.
pub const LIMITS: [usize; 13] =
    [4_975, 4_999, 5_000, 5_001, 5_024, 5_025, 5_026, 5_049, 6_375, 6_399, 6_400, 6_425, 11_400];

pub fn limit(random: &mut Random, _: &Lists, turn: u64) -> Turn {
    let lent = LIMITS[turn as usize % 13];
    let (rows, pattern) = (lent / 25, accepted(random, 201));
    let mut numbers = in_rows(&pattern);
    numbers.resize_with(lent.max(numbers.len()), || random.next() as u32);
    numbers.truncate(lent);
    let expect = match rows {
        0..=200 => expected(false, &pattern[..rows]),
        _ => Expect::Refusal(10, rows as u64),
    };
    single(books::write(random, numbers), vec![(numbers_cell(lent), expect)])
}

pub fn numbers_cell(lent: usize) -> Cell {
    cell("numbers written", [lent as u32, 0, 0, 0])
}

/// The ways in which the longest book is tried: twice written, four times read.
pub const LONGEST: u32 = 6;

pub fn most(random: &mut Random, _: &Lists, turn: u64) -> Turn {
    let (rows, number) = (longest(random, 200), turn as u32 % LONGEST);
    let (numbers, mut book, fill) = (in_rows(&rows), whole(&rows), random.next());
    let extra = random.next() as u8;
    book.extend((number == 5).then_some(extra));
    let (call, expect) = match number {
        0 => (Call::WriteBook { numbers, book: MOST, fill }, Expect::Length(8_402)),
        1 => (Call::WriteBook { numbers, book: MOST - 1, fill }, Expect::Refusal(8, 8_402)),
        2 => (Call::ReadBook { book, numbers: 5_000, fill }, Expect::Length(200)),
        3 => (Call::ReadBook { book, numbers: 4_999, fill }, Expect::Refusal(8, 200)),
        4 => (Call::ReadBook { book, numbers: 5_024, fill }, Expect::Length(200)),
        _ => (Call::ReadBook { book, numbers: 5_000, fill }, Expect::Refusal(9, 8_402)),
    };
    single(call, vec![(longest_cell(number), expect)])
}

pub fn longest_cell(number: u32) -> Cell {
    cell("longest book", [number, 0, 0, 0])
}

/// As many turns as there are rows and numbers after the last whole one.
pub const REMAINDERS: u64 = 72;

/// The rows, 0 to 2, and the numbers that stand after them, 1 to 24.
pub fn remainder(turn: u64) -> (usize, usize) {
    let number = (turn % REMAINDERS) as usize;
    (number % 3, 1 + number / 3)
}

/// What stands after the last whole row: of any size, or the beginning of one more row, good or bad.
pub fn cut_off(random: &mut Random, _: &Lists, turn: u64) -> Turn {
    let (rows, after) = remainder(turn);
    let all = accepted(random, rows + 1);
    let mut numbers = in_rows(&all);
    numbers.truncate(rows * 25 + after);
    if random.once_in(2) {
        numbers[rows * 25..].fill_with(|| random.next() as u32);
    }
    let cells = vec![(remainder_cell(rows, after), expected(false, &all[..rows]))];
    single(books::write(random, numbers), cells)
}

pub fn remainder_cell(rows: usize, after: usize) -> Cell {
    cell("numbers after the last row", [rows as u32, after as u32, 0, 0])
}

/// The number, taken from several runs one after another: which run it falls into, and where.
fn in_runs(runs: &[usize], turn: u64) -> (usize, usize) {
    let mut number = turn as usize % runs.iter().sum::<usize>();
    let mut run = 0;
    while number >= runs[run] {
        number -= runs[run];
        run += 1;
    }
    (run, number)
}

/// The lengths tried for books of no row, of one and of two; then how many turns fit just or fall one byte short.
pub const BUFFERS: [usize; 4] = [4, 46, 89, 10];

/// Buffers of every length, and books of up to four rows into just enough bytes and one less.
pub fn buffer(random: &mut Random, _: &Lists, turn: u64) -> Turn {
    let (run, number) = in_runs(&BUFFERS, turn);
    let size = if run == 3 { number / 2 } else { run };
    let rows = accepted(random, size);
    let needed = whole(&rows).len();
    let (length, key) = match run {
        3 => (needed - number % 2, fitting_cell(number)),
        _ => (number, buffer_cell(run, number)),
    };
    let expect = if length < needed { Expect::Refusal(8, needed as u64) } else { Expect::Length(needed as u64) };
    single(Call::WriteBook { numbers: in_rows(&rows), book: length, fill: random.next() }, vec![(key, expect)])
}

pub fn buffer_cell(rows: usize, length: usize) -> Cell {
    cell("bytes lent for a book", [rows as u32, length as u32, 0, 0])
}

pub fn fitting_cell(number: usize) -> Cell {
    cell("book that just fits", [number as u32 / 2, number as u32 % 2, 0, 0])
}

/// The counts of numbers tried for books of 0 to 3 rows.
pub const ROOMS: [usize; 4] = [31, 56, 81, 106];

/// Rooms of every number, those among them that are no whole rows.
pub fn room(random: &mut Random, _: &Lists, turn: u64) -> Turn {
    let (size, numbers) = in_runs(&ROOMS, turn);
    let rows = accepted(random, size);
    let expect = if numbers / 25 < size { Expect::Refusal(8, size as u64) } else { Expect::Length(size as u64) };
    let call = Call::ReadBook { book: whole(&rows), numbers, fill: random.next() };
    single(call, vec![(room_cell(size, numbers), expect)])
}

pub fn room_cell(rows: usize, numbers: usize) -> Cell {
    cell("numbers lent for a book", [rows as u32, numbers as u32, 0, 0])
}
