//! What a record's newtons are and count as: each value in a push, in a pull and in silence.
//!
//! A single of exponent e and fraction f is (1 + f / 2^23) × 2^(e - 127); with exponent 0 it is f × 2^-149. The lowest
//! bit of the exponent is the top bit of the third byte.

use super::*;

pub fn cases() -> Cases {
    [standing(), refused(), in_silence()].concat()
}

/// A value with its bytes, and the whole newtons that it goes up to, low byte first.
type Value = (&'static str, Newtons, [u8; 4]);

const STANDING: [Value; 34] = [
    ("zero", ZERO, [0, 0, 0, 0]),
    ("minus zero", MINUS_ZERO, [0, 0, 0, 0]),
    // 2^-149, any part of a newton goes up to 1.
    ("the smallest", [0x01, 0x00, 0x00, 0x00], [1, 0, 0, 0]),
    ("the next to the smallest", [0x02, 0x00, 0x00, 0x00], [1, 0, 0, 0]),
    ("the greatest with exponent 0", [0xFF, 0xFF, 0x7F, 0x00], [1, 0, 0, 0]),
    ("the smallest with exponent 1", [0x00, 0x00, 0x80, 0x00], [1, 0, 0, 0]),
    // 2^-22 has exponent 105 = 69, halved 34 and 1 over.
    ("2^-22", [0x00, 0x00, 0x80, 0x34], [1, 0, 0, 0]),
    // Exponent 126 = 7E: 3F00 0000.
    ("0.5", [0x00, 0x00, 0x00, 0x3F], [1, 0, 0, 0]),
    ("just below 0.5", [0xFF, 0xFF, 0xFF, 0x3E], [1, 0, 0, 0]),
    ("just above 0.5", [0x01, 0x00, 0x00, 0x3F], [1, 0, 0, 0]),
    ("just below 1", [0xFF, 0xFF, 0x7F, 0x3F], [1, 0, 0, 0]),
    ("1", ONE, [1, 0, 0, 0]),
    ("just above 1", [0x01, 0x00, 0x80, 0x3F], [2, 0, 0, 0]),
    // 1.5 × 2^0: fraction 40 0000.
    ("1.5", [0x00, 0x00, 0xC0, 0x3F], [2, 0, 0, 0]),
    ("just below 2", [0xFF, 0xFF, 0xFF, 0x3F], [2, 0, 0, 0]),
    ("2", [0x00, 0x00, 0x00, 0x40], [2, 0, 0, 0]),
    ("just above 2", [0x01, 0x00, 0x00, 0x40], [3, 0, 0, 0]),
    // 2.25 = 1.125 × 2^1: fraction 10 0000. The nearest whole number is 2.
    ("2.25", [0x00, 0x00, 0x10, 0x40], [3, 0, 0, 0]),
    ("2.5", [0x00, 0x00, 0x20, 0x40], [3, 0, 0, 0]),
    ("3", [0x00, 0x00, 0x40, 0x40], [3, 0, 0, 0]),
    // 255.5 = 511 / 2; 511 = 1.99609375 × 2^8, fraction 7F 8000; exponent 134: 4300 0000.
    ("255.5", [0x00, 0x80, 0x7F, 0x43], [0x00, 0x01, 0, 0]),
    // 256 has exponent 135: 4380 0000; a half is 2^-9 of it, fraction 00 4000.
    ("256", [0x00, 0x00, 0x80, 0x43], [0x00, 0x01, 0, 0]),
    ("256.5", [0x00, 0x40, 0x80, 0x43], [0x01, 0x01, 0, 0]),
    // 65,536 has exponent 143: 4780 0000, with steps of a 128th above it and of a 256th below it.
    ("just below 65,536", [0xFF, 0xFF, 0x7F, 0x47], [0x00, 0x00, 0x01, 0]),
    ("65,536", [0x00, 0x00, 0x80, 0x47], [0x00, 0x00, 0x01, 0]),
    ("just above 65,536", [0x01, 0x00, 0x80, 0x47], [0x01, 0x00, 0x01, 0]),
    // 65,537 is 128 steps more, 80; one step more goes up to 65,538.
    ("65,537", [0x80, 0x00, 0x80, 0x47], [0x01, 0x00, 0x01, 0]),
    ("just above 65,537", [0x81, 0x00, 0x80, 0x47], [0x02, 0x00, 0x01, 0]),
    // 99,999 is 128 steps less than 100,000: C3 5000 - 80 = C3 4F80. 99,999 = 1 869F.
    ("just below 99,999", [0x7F, 0x4F, 0xC3, 0x47], [0x9F, 0x86, 0x01, 0]),
    ("99,999", [0x80, 0x4F, 0xC3, 0x47], [0x9F, 0x86, 0x01, 0]),
    ("just above 99,999", [0x81, 0x4F, 0xC3, 0x47], [0xA0, 0x86, 0x01, 0]),
    ("99,999.5", [0xC0, 0x4F, 0xC3, 0x47], [0xA0, 0x86, 0x01, 0]),
    // 99,999.99 × 128 = 12,799,998.72, so 12,799,999 128ths are the nearest: C3 4FFF.
    ("the nearest to 99,999.99", [0xFF, 0x4F, 0xC3, 0x47], [0xA0, 0x86, 0x01, 0]),
    ("100,000", HUNDRED_THOUSAND, [0xA0, 0x86, 0x01, 0]),
];

/// Each as a push with w 1, and between a pull and silence with w 500; as a pull it counts as 0.
fn standing() -> Cases {
    let of = |(name, newtons, number): Value| {
        let shown = [[0; 4], number, number].concat();
        [
            is_told(&format!("a push of {name}"), &[push(newtons)], 1, &number),
            is_told(&format!("a pull of {name}"), &[pull(newtons)], 1, &[0; 4]),
            is_told(&format!("{name} behind a pull"), &[pull(newtons), push(newtons), SILENCE], 500, &shown),
        ]
        .concat()
    };
    STANDING.into_iter().flat_map(of).collect()
}

/// Above 100,000, not a number (exponent 255 with a fraction; its top bit tells quiet ones), or negative.
const REFUSED: [(&str, Newtons); 27] = [
    ("the next above 100,000", ABOVE),
    ("100,000.5", [0x40, 0x50, 0xC3, 0x47]),
    ("just below 100,001", [0x7F, 0x50, 0xC3, 0x47]),
    ("100,001", [0x80, 0x50, 0xC3, 0x47]),
    // 2^17 has exponent 144, 2^32 exponent 159, 2^64 exponent 191, 2^127 exponent 254.
    ("131,072", [0x00, 0x00, 0x00, 0x48]),
    ("2^32", [0x00, 0x00, 0x80, 0x4F]),
    ("2^32 and 512", [0x01, 0x00, 0x80, 0x4F]),
    ("2^64", [0x00, 0x00, 0x80, 0x5F]),
    ("2^127", [0x00, 0x00, 0x00, 0x7F]),
    ("the greatest", [0xFF, 0xFF, 0x7F, 0x7F]),
    ("infinity", [0x00, 0x00, 0x80, 0x7F]),
    ("minus infinity", [0x00, 0x00, 0x80, 0xFF]),
    ("the first that is not a number", [0x01, 0x00, 0x80, 0x7F]),
    ("the last signalling", [0xFF, 0xFF, 0xBF, 0x7F]),
    ("the first quiet", [0x00, 0x00, 0xC0, 0x7F]),
    ("the last quiet", [0xFF, 0xFF, 0xFF, 0x7F]),
    ("signalling, its sign set", [0x01, 0x00, 0x80, 0xFF]),
    ("quiet, its sign set", [0x00, 0x00, 0xC0, 0xFF]),
    ("all bits set", [0xFF, 0xFF, 0xFF, 0xFF]),
    ("the smallest below zero", [0x01, 0x00, 0x00, 0x80]),
    ("the greatest with exponent 0 below zero", [0xFF, 0xFF, 0x7F, 0x80]),
    ("the smallest with exponent 1 below zero", [0x00, 0x00, 0x80, 0x80]),
    ("-0.5", [0x00, 0x00, 0x00, 0xBF]),
    ("-1", [0x00, 0x00, 0x80, 0xBF]),
    ("-100,000", [0x00, 0x50, 0xC3, 0xC7]),
    ("the next below -100,000", [0x01, 0x50, 0xC3, 0xC7]),
    ("the least", [0xFF, 0xFF, 0x7F, 0xFF]),
];

/// 14 in a push and in a pull, each alone and behind two records that stand.
fn refused() -> Cases {
    let of = |(name, newtons): (&str, Newtons)| {
        let ahead = [push(ONE), SILENCE].concat();
        [
            is_refused(&format!("a push of {name}"), &push(newtons), 1, 4, 14, 0),
            is_refused(&format!("a pull of {name}"), &pull(newtons), 1, 4, 14, 0),
            is_refused(&format!("a later push of {name}"), &[&ahead[..], &push(newtons)].concat(), 2, 12, 14, 2),
            is_refused(&format!("a later pull of {name}"), &[&ahead[..], &pull(newtons)].concat(), 2, 12, 14, 2),
        ]
        .concat()
    };
    REFUSED.into_iter().flat_map(of).collect()
}

/// Silence is four zero bytes and nothing else: not minus zero, and not what a push could be.
fn in_silence() -> Cases {
    let silent = |newtons: Newtons| {
        let mut record = SILENCE;
        record[4..].copy_from_slice(&newtons);
        record
    };
    let values = STANDING[1..].iter().map(|&(name, newtons, ..)| (name, newtons)).chain(REFUSED);
    let mut cases = is_told("silence", &[SILENCE], 1, &[0; 4]);
    cases.extend(is_told(
        "silence at both sides of a push",
        &[SILENCE, push(ONE), SILENCE],
        1,
        &[0, 0, 0, 0, 1, 0, 0, 0, 0, 0, 0, 0],
    ));
    cases.extend(
        values.flat_map(|(name, newtons)| is_refused(&format!("silence of {name}"), &silent(newtons), 1, 4, 14, 0)),
    );
    for byte in 4..8 {
        let mut record = SILENCE;
        record[byte] = 0x10;
        let name = format!("silence with byte {byte} at 10");
        cases.extend(is_refused(&name, &[push(ONE), record].concat(), 1, 8, 14, 1));
    }
    cases
}
