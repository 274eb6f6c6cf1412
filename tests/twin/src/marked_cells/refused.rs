//! Load cells that are refused: w, lengths, kinds and zero bytes, outputs that are short, and what goes first.

use super::*;
use crate::marked::with_zeros;

pub fn cases() -> Cases {
    [w_out_of_range(), lengths(), too_long_for_the_place(), kinds(), zero_bytes(), first_wrong(), short(), order()]
        .concat()
}

/// Two records that stand.
const GOOD: [Record; 2] = [push(ONE), SILENCE];

/// 13 with w, in range from 1 to 500.
fn w_out_of_range() -> Cases {
    let outside = [0, 501, 502, 512, 513, 65_536, 65_537, 66_036, 2_147_483_648, 4_294_967_294, 4_294_967_295];
    let mut cases = Cases::new();
    for w in outside {
        cases.extend(is_refused(&format!("w {w}"), &GOOD.concat(), w, 8, 13, u64::from(w)));
        cases.extend(is_refused(&format!("w {w} without records"), &[], w, 0, 13, u64::from(w)));
    }
    // 13 × 4,294,967,296 = 55,834,574,848, and with the greatest place 60,129,542,143.
    cases.extend(tried("w 0 as one number", &[], 0, 0, 55_834_574_848, &[]));
    cases.extend(tried("w 501 as one number", &[], 501, 4, 55_834_575_349, &[]));
    cases.extend(tried("the greatest w as one number", &[], 4_294_967_295, 4, 60_129_542_143, &[]));
    cases
}

/// 15 with the length in bytes: not whole records, or more than 8,000, which are 64,000 bytes.
fn lengths() -> Cases {
    let zeros = vec![0; 130_000];
    let mut silent = vec![SILENCE; 16_250].concat();
    silent.truncate(130_000);
    let mut cases = Cases::new();
    // 65,536 and 131,072 would be 0 in sixteen bits, and 65,544 one record.
    for length in
        [1, 2, 3, 4, 5, 6, 7, 9, 12, 15, 17, 63_999, 64_001, 64_007, 64_008, 64_016, 65_535, 65_536, 65_544, 130_000]
    {
        cases.extend(is_refused(&format!("{length} silent bytes"), &silent[..length], 1, 32_004, 15, length as u64));
        cases.extend(is_refused(&format!("{length} zeros"), &zeros[..length], 500, 0, 15, length as u64));
    }
    // 15 × 4,294,967,296 = 64,424,509,440.
    cases.extend(tried("7 bytes as one number", &zeros[..7], 1, 4, 64_424_509_447, &[]));
    cases.extend(tried("64,008 bytes as one number", &silent[..64_008], 1, 4, 64_424_573_448, &[]));
    cases
}

// The pages of so many bytes are never touched, so that they cost no memory.
fn too_long_for_the_place() -> Cases {
    // The greatest place is 4,294,967,295; eight divides 4,294,967,288, 4,294,967,296 and 4,294,967,304.
    let lengths = [4_294_967_288, 4_294_967_295, 4_294_967_296, 4_294_967_297, 4_294_967_304];
    let returned = [68_719_476_728, 68_719_476_735, 68_719_476_735, 68_719_476_735, 68_719_476_735];
    let cases = with_zeros(4_294_967_304, |zeros| {
        let of =
            |(length, returned): (usize, u64)| tried(&format!("{length} bytes"), &zeros[..length], 1, 4, returned, &[]);
        lengths.into_iter().zip(returned).flat_map(of).collect()
    });
    cases.unwrap_or_default()
}

/// Kinds are 1, 2 and 3.
fn kinds() -> Cases {
    let mut cases = Cases::new();
    for kind in [0, 4, 5, 8, 0x11, 0x31, 0x7F, 0x80, 0x81, 0x82, 0x83, 0xFE, 0xFF] {
        let mut record = push(ONE);
        record[0] = kind;
        cases.extend(is_refused(&format!("kind {kind} with newtons"), &record, 1, 4, 14, 0));
        record[4..].fill(0);
        cases.extend(is_refused(&format!("kind {kind} without newtons"), &[SILENCE, record].concat(), 1, 8, 14, 1));
    }
    cases
}

/// The three bytes behind the kind, in each kind of record.
fn zero_bytes() -> Cases {
    let mut cases = Cases::new();
    for (name, good) in [("a push", push(ONE)), ("a pull", pull(ONE)), ("silence", SILENCE)] {
        for byte in 1..4 {
            for value in [0x01, 0x80, 0xFF] {
                let mut record = good;
                record[byte] = value;
                let name = format!("{name} with byte {byte} at {value}");
                cases.extend(is_refused(&name, &[good, record, good].concat(), 3, 12, 14, 1));
            }
        }
    }
    cases
}

/// 14 names the first wrong record, by whatever it is wrong.
fn first_wrong() -> Cases {
    let (kind, zero_byte) = ([4, 0, 0, 0, 0, 0, 0, 0], [1, 0, 1, 0, 0, 0, 0, 0]);
    let (value, silent) = (push(ABOVE), [3, 0, 0, 0, 0, 0, 0, 0x80]);
    let wrong = [("kind", kind), ("zero byte", zero_byte), ("value", value), ("silence", silent)];
    let mut cases = Cases::new();
    for (one, first) in wrong {
        for (other, second) in wrong {
            let run = [push(ONE), first, SILENCE, second].concat();
            cases.extend(is_refused(&format!("{one} wrong, then {other}"), &run, 1, 16, 14, 1));
        }
        for at in [255, 256, 4_095, 7_999] {
            let mut run = vec![pull(ONE); 8_000];
            run[at] = first;
            cases.extend(is_refused(&format!("{one} wrong at {at}"), &run.concat(), 500, 32_000, 14, at as u64));
        }
    }
    // 14 × 4,294,967,296 = 60,129,542,144.
    cases.extend(tried("record 1 as one number", &[SILENCE, kind].concat(), 1, 8, 60_129_542_145, &[]));
    cases
}

/// 8 with four bytes for each record.
fn short() -> Cases {
    let mut cases = Cases::new();
    for length in [1, 2, 3] {
        let run = vec![push(ONE); length].concat();
        for room in 0..4 * length {
            let name = format!("{length} records and room for {room} bytes");
            cases.extend(is_refused(&name, &run, 1, room, 8, 4 * length as u64));
        }
    }
    // 8 × 4,294,967,296 = 34,359,738,368.
    cases.extend(tried("8 bytes needed as one number", &GOOD.concat(), 2, 7, 34_359_738_376, &[]));
    cases
}

/// 13, 15, 14, 8: each two, three and all four of them at once.
fn order() -> Cases {
    let good = GOOD.concat();
    let wrong = [push(ONE), push(ABOVE)].concat();
    // 15 bytes, whose first record stands, and 13 whose first is wrong.
    let (cut, wrong_and_cut) = (&good[..15], [&push(ABOVE)[..], &push(ONE)[..5]].concat());
    let too_many = vec![SILENCE; 8_001].concat();
    let wrong_and_too_many = vec![[0; 8]; 8_001].concat();
    [
        is_refused("w and a length", cut, 0, 8, 13, 0),
        is_refused("w and too many", &too_many, 501, 32_004, 13, 501),
        is_refused("w and a wrong record", &wrong, 501, 8, 13, 501),
        is_refused("w and a short output", &good, 0, 7, 13, 0),
        is_refused("a length and a wrong record", &wrong_and_cut, 1, 8, 15, 13),
        is_refused("too many and a wrong record", &wrong_and_too_many, 1, 32_004, 15, 64_008),
        is_refused("a length and a short output", cut, 500, 3, 15, 15),
        is_refused("too many and a short output", &too_many, 500, 32_003, 15, 64_008),
        is_refused("a wrong record and a short output", &wrong, 1, 7, 14, 1),
        is_refused("a wrong record and no output", &wrong, 1, 0, 14, 1),
        is_refused("w, a length and a wrong record", &wrong_and_cut, 501, 8, 13, 501),
        is_refused("w, a length and a short output", cut, 0, 0, 13, 0),
        is_refused("w, a wrong record and a short output", &wrong, 502, 0, 13, 502),
        is_refused("a length, a wrong record and a short output", &wrong_and_cut, 1, 0, 15, 13),
        is_refused("too many, a wrong record and a short output", &wrong_and_too_many, 1, 0, 15, 64_008),
        is_refused("all four", &wrong_and_cut, 4_294_967_295, 0, 13, 4_294_967_295),
        is_refused("all four, with too many", &wrong_and_too_many, 0, 0, 13, 0),
    ]
    .concat()
}
