//! The greatest push among the last w records, byte by byte: short runs by each w, peaks that leave, the longest run.

use super::*;

pub fn cases() -> Cases {
    [five_records(), falling(), rising(), nothing_pushed(), peaks(), longest(), no_records()].concat()
}

/// Kind, three zero bytes, newtons: 7.25 = 1.8125 × 2^2, exponent 129, 4080 0000 and 0.8125 × 80 0000 = 68 0000.
/// The nearest to 99,999.99 is 47C3 4FFF; 2.5 is 4020 0000; 256.5 is 4380 4000.
const FIVE: [Record; 5] = [
    [0x01, 0x00, 0x00, 0x00, 0x00, 0x00, 0xE8, 0x40], // a push of 7.25: 8
    [0x02, 0x00, 0x00, 0x00, 0xFF, 0x4F, 0xC3, 0x47], // a pull: 0
    [0x01, 0x00, 0x00, 0x00, 0x00, 0x00, 0x20, 0x40], // a push of 2.5: 3
    [0x03, 0x00, 0x00, 0x00, 0x00, 0x00, 0x00, 0x00], // silence: 0
    [0x01, 0x00, 0x00, 0x00, 0x00, 0x40, 0x80, 0x43], // a push of 256.5: 257 = 256 + 1
];

#[rustfmt::skip]
fn five_records() -> Cases {
    // The last one alone.
    let by_1 = [
        0x08, 0x00, 0x00, 0x00, 0x00, 0x00, 0x00, 0x00, 0x03, 0x00, 0x00, 0x00, // 8, 0, 3
        0x00, 0x00, 0x00, 0x00, 0x01, 0x01, 0x00, 0x00, // 0, 257
    ];
    // 8; 8 and 0; 0 and 3; 3 and 0; 0 and 257.
    let by_2 = [
        0x08, 0x00, 0x00, 0x00, 0x08, 0x00, 0x00, 0x00, 0x03, 0x00, 0x00, 0x00, // 8, 8, 3
        0x03, 0x00, 0x00, 0x00, 0x01, 0x01, 0x00, 0x00, // 3, 257
    ];
    // The third has the first still in it, the fourth no longer.
    let by_3 = [
        0x08, 0x00, 0x00, 0x00, 0x08, 0x00, 0x00, 0x00, 0x08, 0x00, 0x00, 0x00, // 8, 8, 8
        0x03, 0x00, 0x00, 0x00, 0x01, 0x01, 0x00, 0x00, // 3, 257
    ];
    let by_4 = [
        0x08, 0x00, 0x00, 0x00, 0x08, 0x00, 0x00, 0x00, 0x08, 0x00, 0x00, 0x00, // 8, 8, 8
        0x08, 0x00, 0x00, 0x00, 0x01, 0x01, 0x00, 0x00, // 8, 257
    ];
    let by_w = [(1, by_1), (2, by_2), (3, by_3), (4, by_4), (5, by_4), (6, by_4), (499, by_4), (500, by_4)];
    by_w.iter().flat_map(|(w, out)| is_told(&format!("five records with w {w}"), &FIVE, *w, out)).collect()
}

/// Pushes of 100,000, 65,537, 256.5, 3 and 0.5, and back: A0 86 01 00, 01 00 01 00, 257, 3, 1.
const DOWN: [Record; 5] = [
    push(HUNDRED_THOUSAND),
    push([0x80, 0x00, 0x80, 0x47]),
    push([0x00, 0x40, 0x80, 0x43]),
    push([0x00, 0x00, 0x40, 0x40]),
    push([0x00, 0x00, 0x00, 0x3F]),
];

const SECOND: [u8; 4] = [0x01, 0x00, 0x01, 0x00];
const THIRD: [u8; 4] = [0x01, 0x01, 0x00, 0x00];
const FOURTH: [u8; 4] = [0x03, 0x00, 0x00, 0x00];
const FIFTH: [u8; 4] = [0x01, 0x00, 0x00, 0x00];

/// Falling, each number is that of the first record in the stretch.
fn falling() -> Cases {
    let by_w = [
        (1, [GREATEST, SECOND, THIRD, FOURTH, FIFTH]),
        (2, [GREATEST, GREATEST, SECOND, THIRD, FOURTH]),
        (3, [GREATEST, GREATEST, GREATEST, SECOND, THIRD]),
        (4, [GREATEST, GREATEST, GREATEST, GREATEST, SECOND]),
        (5, [GREATEST; 5]),
        (6, [GREATEST; 5]),
        (500, [GREATEST; 5]),
    ];
    by_w.iter().flat_map(|(w, out)| is_told(&format!("falling with w {w}"), &DOWN, *w, &out.concat())).collect()
}

/// Rising, each number is the record's own, whatever w is.
fn rising() -> Cases {
    let [first, second, third, fourth, fifth] = DOWN;
    let (up, out) = ([fifth, fourth, third, second, first], [FIFTH, FOURTH, THIRD, SECOND, GREATEST].concat());
    [1, 2, 3, 5, 500].iter().flat_map(|&w| is_told(&format!("rising with w {w}"), &up, w, &out)).collect()
}

/// Pulls, silence and pushes of zero of either sign count as 0.
fn nothing_pushed() -> Cases {
    let run = [pull(HUNDRED_THOUSAND), SILENCE, push(ZERO), push(MINUS_ZERO), pull(MINUS_ZERO), pull(ONE)];
    let with_w = |w| is_told(&format!("nothing pushed with w {w}"), &run, w, &[0; 24]);
    [1, 2, 6, 500].into_iter().flat_map(with_w).collect()
}

/// A push of 100,000 at some record among pushes of 1 shows in w numbers from there on, or in as many as there are.
fn peaks() -> Cases {
    let mut cases = Cases::new();
    for (w, length, at) in [
        (1, 3, 1),
        (2, 5, 0),
        (2, 5, 3),
        (3, 9, 2),
        (255, 600, 100),
        (256, 600, 100),
        (257, 600, 100),
        (499, 1_001, 0),
        (499, 1_001, 501),
        (500, 499, 0),
        (500, 500, 0),
        (500, 501, 0),
        (500, 502, 0),
        (500, 1_001, 1),
        (500, 1_001, 500),
        (500, 1_001, 501),
        (500, 1_001, 502),
        (500, 1_001, 1_000),
    ] {
        let (mut run, mut out) = (vec![push(ONE); length], vec![FIFTH; length]);
        run[at] = push(HUNDRED_THOUSAND);
        out[at..(at + w as usize).min(length)].fill(GREATEST);
        let name = format!("a peak at {at} of {length} records with w {w}");
        cases.extend(is_told(&name, &run, w, &out.concat()));
    }
    cases
}

/// 8,000 records of 8 bytes are 64,000, and their output is 32,000.
fn longest() -> Cases {
    let mut cases = Cases::new();
    for w in [1, 2, 500] {
        let (mut run, mut out) = (vec![push(ONE); 8_000], vec![FIFTH; 8_000]);
        (run[0], run[7_999]) = (push(HUNDRED_THOUSAND), push(HUNDRED_THOUSAND));
        out[..w as usize].fill(GREATEST);
        out[7_999] = GREATEST;
        cases.extend(tried(&format!("the longest run with w {w}"), &run.concat(), w, 32_000, 32_000, &out.concat()));
        cases.extend(is_refused("the longest run, a byte short", &run.concat(), w, 31_999, 8, 32_000));
    }
    cases
}

/// No records write nothing.
fn no_records() -> Cases {
    [1, 2, 500].into_iter().flat_map(|w| is_told(&format!("no records with w {w}"), &[], w, &[])).collect()
}
