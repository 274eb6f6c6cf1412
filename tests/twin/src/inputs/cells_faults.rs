//! The turns on load cells' records that are wrong by kind, zero bytes or silence, far down a run, and two of them.

use super::cells::*;
use super::{Lists, Turn};
use crate::coverage::{Cell, Expect, cell};
use crate::random::Random;

/// A run with one record changed, which has to be the one refused.
fn with_wrong(random: &mut Random, key: Cell, wrong: impl Fn(&mut Random) -> Record) -> Turn {
    let length = 1 + random.below(6);
    let mut run = some_run(random, length);
    let at = random.below(length);
    run[at] = wrong(random);
    let w = some_w(random);
    turn(random, &run, w, vec![(key, Expect::Refusal(14, at as u64))])
}

/// Every kind that there is and is not, each beside that with its top bit turned; first without newtons, like silence.
pub fn kind(random: &mut Random, _: &Lists, number: u64) -> Turn {
    let kind = (number / 2 % 128 + 128 * (number % 2)) as u8;
    let (key, silent) = (kind_cell(u32::from(kind)), number / 256 % 2 == 0);
    if !matches!(kind, PUSH | PULL | SILENCE) {
        return with_wrong(random, key, |random| record(kind, if silent { 0 } else { some_newtons(random) }));
    }
    let newtons = if kind == SILENCE { 0 } else { whole(77) };
    let expect = Expect::Greatest(0, if kind == PUSH { 77 } else { 0 });
    turn(random, &[record(kind, newtons)], 1, vec![(key, expect)])
}

pub fn kind_cell(kind: u32) -> Cell {
    cell("kind of a record", [kind, 0, 0, 0])
}

pub const ZERO_BYTES: u64 = 72;

/// The byte that is not zero, 1 to 3, the bit that it has, and the record's kind.
pub fn zero_byte_key(number: u64) -> [u32; 3] {
    [1 + (number % 3) as u32, (number / 9 % 8) as u32, 1 + (number / 3 % 3) as u32]
}

/// Each bit of each zero byte, alone or with others, in a record of each kind.
pub fn zero_byte(random: &mut Random, _: &Lists, number: u64) -> Turn {
    let key @ [byte, bit, kind] = zero_byte_key(number * 31 % ZERO_BYTES);
    with_wrong(random, zero_byte_cell(key), |random| {
        let newtons = if kind as u8 == SILENCE { 0 } else { some_newtons(random) };
        let mut wrong = record(kind as u8, newtons);
        wrong[byte as usize] = 1 << bit | if random.once_in(4) { random.next() as u8 } else { 0 };
        wrong
    })
}

pub fn zero_byte_cell([byte, bit, kind]: [u32; 3]) -> Cell {
    cell("zero byte of a record", [byte, bit, kind, 0])
}

pub const SILENT_BITS: u64 = 32;

/// Silence with each bit of its newtons, alone or with others; the last bit alone is minus zero.
pub fn silence(random: &mut Random, _: &Lists, number: u64) -> Turn {
    let bit = (number * 9 + 31) as u32 % 32;
    let others = if random.once_in(3) { some_newtons(random) } else { 0 };
    with_wrong(random, silence_cell(bit), |_| record(SILENCE, 1 << bit | others))
}

pub fn silence_cell(bit: u32) -> Cell {
    cell("newtons of silence", [bit, 0, 0, 0])
}

/// The ways in which a record can be wrong: kind, zero byte, newtons of a push or a pull, newtons of silence.
pub const WAYS: u64 = 4;

/// A record wrong in one of the ways.
pub fn wrong(random: &mut Random, way: u64) -> Record {
    let newtons = some_newtons(random);
    match way {
        0 => record(random.pick(&[0, 4, 5, 0x80, 0xFF]), newtons),
        1 => {
            let mut wrong = record(random.pick(&[PUSH, PULL]), newtons);
            wrong[1 + random.below(3)] = random.within(1, 255) as u8;
            wrong
        }
        2 => {
            let above = random.within(HUNDRED_THOUSAND + 1, 0x7FFF_FFFF);
            let negative = random.within(MINUS_ZERO + 1, 0xFFFF_FFFF);
            record(random.pick(&[PUSH, PULL]), random.pick(&[above, negative]))
        }
        _ => record(SILENCE, random.pick(&[1, MINUS_ZERO, newtons.max(1)])),
    }
}

/// Two wrong records, of which the first is named: 16 pairs of ways, next to one another or apart.
pub fn two_wrong(random: &mut Random, _: &Lists, number: u64) -> Turn {
    let (one, other) = (number % WAYS, number / WAYS % WAYS);
    let length = 2 + random.below(12);
    let mut run = some_run(random, length);
    let first = random.below(length - 1);
    let second = if random.once_in(2) { first + 1 } else { first + 1 + random.below(length - first - 1) };
    (run[first], run[second]) = (wrong(random, one), wrong(random, other));
    let w = some_w(random);
    turn(random, &run, w, vec![(two_wrong_cell(one, other), Expect::Refusal(14, first as u64))])
}

pub fn two_wrong_cell(one: u64, other: u64) -> Cell {
    cell("two wrong records", [one as u32, other as u32, 0, 0])
}

/// Wrong records far down: where a place of one byte begins again, about the longest stretch, and the last of all.
pub const FAR: [usize; 8] = [7_999, 255, 256, 257, 499, 500, 501, 4_096];

pub fn far_down(random: &mut Random, _: &Lists, number: u64) -> Turn {
    let at = FAR[(number % 8) as usize];
    let length = (at + 1 + random.below(3)).min(8_000);
    let mut run = some_run(random, length);
    let way = number / 8 % WAYS;
    run[at] = wrong(random, way);
    let w = some_w(random);
    turn(random, &run, w, vec![(far_cell(at), Expect::Refusal(14, at as u64))])
}

pub fn far_cell(at: usize) -> Cell {
    cell("wrong record far down", [at as u32, 0, 0, 0])
}
