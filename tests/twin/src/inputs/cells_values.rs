//! The turns on what a load cell's record says: newtons by class, about whole numbers, by exponent, of any bits.

use super::cells::*;
use super::{Lists, Turn};
use crate::coverage::{Cell, Expect, cell};
use crate::random::Random;

/// The least and the most bits of a class of newtons, and the whole newtons of all that are of it; none where refused.
pub const VALUES: [(u32, u32, Option<u32>); 51] = [
    (0, 0, Some(0)),
    (MINUS_ZERO, MINUS_ZERO, Some(0)),
    // The smallest, those that are not normal, the least normal one, and up to a half.
    (0x0000_0001, 0x0000_0001, Some(1)),
    (0x0000_0002, 0x007F_FFFE, Some(1)),
    (0x007F_FFFF, 0x007F_FFFF, Some(1)),
    (0x0080_0000, 0x0080_0000, Some(1)),
    (0x0080_0001, 0x3EFF_FFFE, Some(1)),
    (0x3EFF_FFFF, 0x3EFF_FFFF, Some(1)),
    (0x3F00_0000, 0x3F00_0000, Some(1)),
    (0x3F00_0001, 0x3F7F_FFFE, Some(1)),
    // About 1 and 2.
    (0x3F7F_FFFF, 0x3F7F_FFFF, Some(1)),
    (0x3F80_0000, 0x3F80_0000, Some(1)),
    (0x3F80_0001, 0x3F80_0001, Some(2)),
    (0x3F80_0002, 0x3FFF_FFFF, Some(2)),
    (0x4000_0000, 0x4000_0000, Some(2)),
    (0x4000_0001, 0x403F_FFFF, Some(3)),
    // About 65,536, where a step grows from a 256th to a 128th.
    (0x477F_FF01, 0x477F_FFFE, Some(65_536)),
    (0x477F_FFFF, 0x477F_FFFF, Some(65_536)),
    (0x4780_0000, 0x4780_0000, Some(65_536)),
    (0x4780_0001, 0x4780_0001, Some(65_537)),
    // 99,999 and up to 100,000, by steps of a 128th; the last below it is the nearest to 99,999.99.
    (0x47C3_4F80, 0x47C3_4F80, Some(99_999)),
    (0x47C3_4F81, 0x47C3_4F81, Some(100_000)),
    (0x47C3_4F82, 0x47C3_4FFE, Some(100_000)),
    (0x47C3_4FFF, 0x47C3_4FFF, Some(100_000)),
    (HUNDRED_THOUSAND, HUNDRED_THOUSAND, Some(100_000)),
    // Above it, up to the greatest, and infinity of both signs.
    (0x47C3_5001, 0x47C3_5001, None),
    (0x47C3_5002, 0x47C3_507F, None),
    (0x47C3_5080, 0x47C3_5080, None),
    (0x47C3_5081, 0x4F7F_FFFF, None),
    (0x4F80_0000, 0x5F7F_FFFF, None),
    (0x5F80_0000, 0x7F7F_FFFE, None),
    (0x7F7F_FFFF, 0x7F7F_FFFF, None),
    (0x7F80_0000, 0x7F80_0000, None),
    (0xFF80_0000, 0xFF80_0000, None),
    // Not numbers: signalling and quiet, of both signs.
    (0x7F80_0001, 0x7F80_0001, None),
    (0x7F80_0002, 0x7FBF_FFFF, None),
    (0x7FC0_0000, 0x7FC0_0000, None),
    (0x7FC0_0001, 0x7FFF_FFFF, None),
    (0xFF80_0001, 0xFF80_0001, None),
    (0xFF80_0002, 0xFFBF_FFFF, None),
    (0xFFC0_0000, 0xFFC0_0000, None),
    (0xFFC0_0001, 0xFFFF_FFFF, None),
    // Negative: the nearest to zero, those that are not normal, about -1, -100,000, down to the least.
    (0x8000_0001, 0x8000_0001, None),
    (0x8000_0002, 0x807F_FFFF, None),
    (0x8080_0000, 0x8080_0000, None),
    (0x8080_0001, 0xBF7F_FFFF, None),
    (0xBF80_0000, 0xBF80_0000, None),
    (0xBF80_0001, 0xC7C3_4FFF, None),
    (0xC7C3_5000, 0xC7C3_5000, None),
    (0xC7C3_5001, 0xFF7F_FFFE, None),
    (0xFF7F_FFFF, 0xFF7F_FFFF, None),
];

/// As many turns as there are classes, kinds and places.
pub const VALUE_TURNS: u64 = 51 * 9;

/// The class, the kind, and whether it is the first record, one in the middle or the last.
pub fn value_key(turn: u64) -> [u32; 3] {
    let (class, round) = ((turn % 51) as u32, (turn / 51) as u32);
    [class, 1 + round % 3, (round / 3 + class) % 3]
}

/// Every class of newtons in a push, a pull and silence, at three places of a run.
pub fn value(random: &mut Random, _: &Lists, turn: u64) -> Turn {
    let key @ [class, kind, position] = value_key(turn % VALUE_TURNS);
    let (least, most, newtons) = VALUES[class as usize];
    let bits = random.within(least, most);
    let told = match kind as u8 {
        PUSH => newtons,
        PULL => newtons.map(|_| 0),
        _ => (bits == 0).then_some(0),
    };
    among(random, record(kind as u8, bits), position, told, value_cell(key))
}

pub fn value_cell([class, kind, position]: [u32; 3]) -> Cell {
    cell("newtons by class", [class, kind, position, 0])
}

/// A record among others that let it show, with the number that it is answered with; none where it is refused.
fn among(random: &mut Random, one: Record, position: u32, told: Option<u32>, key: Cell) -> Turn {
    let (length, alone) = (3 + random.below(4), random.once_in(2));
    let mut run: Vec<Record> =
        (0..length).map(|_| if alone { some_record(random) } else { some_zero(random) }).collect();
    let at = place(position, length);
    run[at] = one;
    let w = if alone { 1 } else { random.within(1, 5) };
    let expect = told.map_or(Expect::Refusal(14, at as u64), |number| Expect::Greatest(at, number));
    turn(random, &run, w, vec![(key, expect)])
}

/// Powers of two, their neighbours, and others.
pub const WHOLES: [u32; 40] = [
    1, 2, 4, 8, 16, 32, 64, 128, 256, 512, 1_024, 2_048, 4_096, 8_192, 16_384, 32_768, 65_536, 3, 5, 7, 9, 10, 100,
    127, 129, 255, 257, 999, 1_000, 4_095, 4_097, 32_767, 32_769, 65_535, 65_537, 70_000, 99_998, 99_999, 100_000, 0,
];

pub const WHOLE_TURNS: u64 = 40 * 3;

/// The whole number, 0 standing for any, and the side: just below (0), at (1), just above (2).
pub fn whole_key(turn: u64) -> [u32; 2] {
    [WHOLES[(turn % 40) as usize], (turn / 40 + turn) as u32 % 3]
}

/// A push just below a whole number, at it, and just above it.
pub fn whole_number(random: &mut Random, _: &Lists, turn: u64) -> Turn {
    let key @ [number, side] = whole_key(turn % WHOLE_TURNS);
    let number = if number == 0 { random.within(1, 99_999) } else { number };
    let told = if side == 2 { number + 1 } else { number };
    let position = random.within(0, 2);
    let push = record(PUSH, whole(number) + side - 1);
    among(random, push, position, Some(told).filter(|&told| told <= 100_000), whole_cell(key))
}

pub fn whole_cell([number, side]: [u32; 2]) -> Cell {
    cell("newtons about a whole number", [number, side, 0, 0])
}

/// Every exponent that a push or a pull can have, its fraction without a bit, of one bit, of all, or any.
pub fn exponent(random: &mut Random, _: &Lists, turn: u64) -> Turn {
    let exponent = (turn * 91 % 256) as u32;
    let any = random.within(0, 0x7F_FFFF);
    let fraction = random.pick(&[0, 1, 0x40_0000, 0x7F_FFFF, any, any]);
    let bits = exponent << 23 | fraction;
    let (at, kind) = (random.below(3), random.pick(&[PUSH, PUSH, PULL]));
    let mut run: Vec<Record> = (0..3).map(|_| some_zero(random)).collect();
    run[at] = record(kind, bits);
    let expect = match (bits, kind) {
        (bits, _) if !stand(bits) => Expect::Refusal(14, at as u64),
        (0, _) | (_, PULL) => Expect::Greatest(at, 0),
        (..=ONE, _) => Expect::Greatest(at, 1),
        _ => Expect::Length(12),
    };
    let w = some_w(random);
    super::cells::turn(random, &run, w, vec![(exponent_cell(exponent), expect)])
}

pub fn exponent_cell(exponent: u32) -> Cell {
    cell("exponent of newtons", [exponent, 0, 0, 0])
}

/// Newtons of any 32 bits: in the last record (0), or in every record of a run (1).
pub fn pattern(random: &mut Random, _: &Lists, number: u64) -> Turn {
    let (length, whole) = (1 + random.below(8), number % 2);
    let mut run = some_run(random, length);
    let from = if whole == 1 { 0 } else { length - 1 };
    let mut wrong = None;
    for at in from..length {
        let newtons = random.next() as u32;
        run[at] = record(random.pick(&[PUSH, PULL]), newtons);
        wrong = wrong.or((!stand(newtons)).then_some(at as u64));
    }
    let (w, key) = (some_w(random), pattern_cell(whole, wrong.is_some()));
    let expect = wrong.map_or(Expect::Length(4 * length as u64), |at| Expect::Refusal(14, at));
    turn(random, &run, w, vec![(key, expect)])
}

pub fn pattern_cell(whole: u64, refused: bool) -> Cell {
    cell("newtons of any bits", [whole as u32, u32::from(refused), 0, 0])
}
