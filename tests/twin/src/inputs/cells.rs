//! Load cells: records and their newtons, built by whole numbers alone, runs of them, and the calls on those.

use super::Turn;
use super::kinds::{Cells, single};
use crate::call::Call;
use crate::random::Random;

/// Eight bytes, as a load cell logs them.
pub type Record = [u8; 8];

pub const PUSH: u8 = 1;
pub const PULL: u8 = 2;
pub const SILENCE: u8 = 3;

/// Newtons of 1 and of 100,000 as 32 bits; those of numbers between rise as the numbers do.
pub const ONE: u32 = 0x3F80_0000;
pub const HUNDRED_THOUSAND: u32 = 0x47C3_5000;
pub const MINUS_ZERO: u32 = 0x8000_0000;

pub fn record(kind: u8, newtons: u32) -> Record {
    let [first, second, third, fourth] = newtons.to_le_bytes();
    [kind, 0, 0, 0, first, second, third, fourth]
}

/// Whether newtons of a push or a pull stand: numbers from 0 to 100,000, and minus zero.
pub fn stand(newtons: u32) -> bool {
    newtons <= HUNDRED_THOUSAND || newtons == MINUS_ZERO
}

/// A whole number from 1 to 16,777,215 as newtons.
pub fn whole(number: u32) -> u32 {
    let power = number.ilog2();
    ((127 + power) << 23) + (number << (23 - power)) - (1 << 23)
}

/// Newtons that stand: of every size from 1 on, whole ones, halves, ones below 1, and zero.
pub fn some_newtons(random: &mut Random) -> u32 {
    match random.below(10) {
        0 => random.pick(&[0, MINUS_ZERO]),
        1 => random.within(1, ONE),
        2 => whole(random.within(1, 100_000)),
        // Half the odd number, the exponent being one lower.
        3 => whole(2 * random.within(1, 99_999) + 1) - (1 << 23),
        _ => random.within(ONE, HUNDRED_THOUSAND),
    }
}

pub fn some_record(random: &mut Random) -> Record {
    match random.below(8) {
        0 => record(SILENCE, 0),
        1 | 2 => record(PULL, some_newtons(random)),
        _ => record(PUSH, some_newtons(random)),
    }
}

/// A record that counts as 0.
pub fn some_zero(random: &mut Random) -> Record {
    match random.below(4) {
        0 => record(SILENCE, 0),
        1 => record(PUSH, random.pick(&[0, MINUS_ZERO])),
        _ => record(PULL, some_newtons(random)),
    }
}

pub fn some_run(random: &mut Random, length: usize) -> Vec<Record> {
    (0..length).map(|_| some_record(random)).collect()
}

/// A w in range: small in most calls.
pub fn some_w(random: &mut Random) -> u32 {
    let most = random.pick(&[2, 4, 8, 16, 500]);
    random.within(1, most)
}

/// The call with room enough.
pub fn call(random: &mut Random, run: &[Record], w: u32) -> Call {
    let out = 4 * run.len() + random.below(12);
    Call::Cells { records: run.concat(), w, out, fill: random.next() }
}

pub fn turn(random: &mut Random, run: &[Record], w: u32, cells: Cells) -> Turn {
    single(call(random, run, w), cells)
}

/// Where a record stands in a run: first, in the middle or last; a run of three or more has all three.
pub fn place(position: u32, length: usize) -> usize {
    match position {
        0 => 0,
        1 => length / 2,
        _ => length - 1,
    }
}
