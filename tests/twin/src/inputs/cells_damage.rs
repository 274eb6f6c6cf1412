//! The turns on load cells that are refused as a whole or nearly so: lengths, outputs of every length, several faults.

use super::cells::*;
use super::cells_faults::{WAYS, wrong};
use super::cells_runs::OUTSIDE;
use super::damage::order_cell;
use super::faults::chosen;
use super::kinds::single;
use super::{Lists, Turn};
use crate::call::Call;
use crate::coverage::{Cell, Expect, cell};
use crate::random::Random;

/// The kind of calls, by which refusals of load cells are counted; 9 and 10 are ends of ranges at two ends.
pub const KIND: u32 = 11;

/// Whole records with 1 to 7 bytes after them.
pub const WHOLE: [usize; 5] = [0, 1, 5, 7_999, 8_000];
pub const LENGTHS: u64 = 35;

/// The whole records and the bytes after them.
pub fn length_key(number: u64) -> [u32; 2] {
    [WHOLE[(number % 5) as usize] as u32, 1 + (number / 5 + 3 * number) as u32 % 7]
}

/// Bytes that are not whole records; those after the last may be zeros, or the beginning of a good or a wrong record.
pub fn length(random: &mut Random, _: &Lists, number: u64) -> Turn {
    let key @ [whole, after] = length_key(number % LENGTHS);
    let mut records = some_run(random, whole as usize).concat();
    let last = [[0; 8], some_record(random), wrong(random, number % WAYS)][random.below(3)];
    records.extend_from_slice(&last[..after as usize]);
    let (out, w, bytes) = (4 * whole as usize + 4, some_w(random), records.len() as u64);
    let call = Call::Cells { records, w, out, fill: random.next() };
    single(call, vec![(length_cell(key), Expect::Refusal(15, bytes))])
}

pub fn length_cell([whole, after]: [u32; 2]) -> Cell {
    cell("bytes after whole records", [whole, after, 0, 0])
}

/// The lengths of output tried for runs of 0 to 3 records.
const ROOMS: [u64; 4] = [4, 8, 12, 16];
pub const ROOM_TURNS: u64 = 40;

/// The records of a run and the bytes lent for its output.
pub fn room_key(number: u64) -> [u32; 2] {
    let (mut length, mut room) = (0, number);
    while room >= ROOMS[length] {
        room -= ROOMS[length];
        length += 1;
    }
    [length as u32, room as u32]
}

/// Outputs of every length; of every other turn the output of any run is just long enough, or one byte short.
pub fn room(random: &mut Random, _: &Lists, number: u64) -> Turn {
    let key = room_key(number / 2 * 27 % ROOM_TURNS);
    let (any, short) = (1 + random.below(30), number / 2 % 2);
    let (length, out, key) = match number % 2 {
        0 => (key[0] as usize, key[1] as usize, room_cell(key)),
        _ => (any, 4 * any - short as usize, fitting_cell(short)),
    };
    let (run, w, needed) = (some_run(random, length), some_w(random), 4 * length as u64);
    let expect = if (out as u64) < needed { Expect::Refusal(8, needed) } else { Expect::Length(needed) };
    let call = Call::Cells { records: run.concat(), w, out, fill: random.next() };
    single(call, vec![(key, expect)])
}

pub fn room_cell([length, room]: [u32; 2]) -> Cell {
    cell("bytes lent for load cells", [length, room, 0, 0])
}

pub fn fitting_cell(short: u64) -> Cell {
    cell("output that just fits", [short as u32, 0, 0, 0])
}

/// The refusals in the order in which they are tried.
pub const ORDER: [u64; 4] = [13, 15, 14, 8];

/// Every set of them; the first has to be the one refused, with its place. Now and then 15 is due for too many records.
pub fn faults(random: &mut Random, _: &Lists, number: u64) -> Turn {
    let faults = chosen(&ORDER, 1 + number % 15);
    let has = |fault: u64| faults.contains(&fault);
    let too_many = has(15) && random.once_in(8);
    let length = if too_many { 8_001 } else { 1 + random.below(6) };
    let (mut run, at, way) = (some_run(random, length), random.below(length), random.next() % WAYS);
    if has(14) {
        run[at] = wrong(random, way);
    }
    let mut records = run.concat();
    if has(15) && !too_many {
        records.truncate(8 * length - 1 - random.below(7));
    }
    let w = if has(13) { random.pick(&OUTSIDE) } else { some_w(random) };
    let (bytes, needed) = (records.len() as u64, 4 * length);
    let out = if has(8) { random.below(needed) } else { needed + random.below(9) };
    let place = match faults[0] {
        13 => u64::from(w),
        15 => bytes,
        14 => at as u64,
        _ => needed as u64,
    };
    let expect = Expect::Refusal(faults[0], place);
    let cells = faults[1..].iter().map(|&later| (order_cell(KIND as usize, faults[0], later), expect)).collect();
    single(Call::Cells { records, w, out, fill: random.next() }, cells)
}
