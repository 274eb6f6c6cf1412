//! Job files of half closed faces byte for byte, written and read.

use super::{answered, half_closed, named};
use crate::call::Call;
use crate::compare::Answer;
use crate::marked::Cases;

pub fn cases() -> Cases {
    [stands(), refused()].concat()
}

/// Fields 1 to 17 of `half_closed`: 25 bytes, 9 numbers of one byte and 8 of two.
const BEFORE: [u8; 25] = [
    0x01, 0x01, 0x69, 0x96, 0x01, 0xB4, 0x01, 0x02, // 1, 1, 105, 150, 180, 2
    0x93, 0x16, 0x03, 0x04, 0x02, 0xB8, 0x17, 0x88, 0x27, // 2,835 = 22 × 128 + 19; 3, 4, 2, 3,000, 5,000
    0x00, 0xAC, 0x02, 0xF4, 0x03, 0xC0, 0x0C, 0x02, // 0, 300, 500 = 3 × 128 + 116, 1,600 = 12 × 128 + 64, 2
];

/// Fields 19 to 25: 11 bytes.
const BEHIND: [u8; 11] = [
    0x01, 0xF0, 0x01, 0x01, // 1, 240, 1
    0xD7, 0x4A, 0x04, 0xC8, 0x01, 0xD0, 0x0F, // 9,559 = 74 × 128 + 87; 4, 200, 2,000
];

/// The file with the groups of its shield.
fn file(shield: &[u8]) -> Vec<u8> {
    [&BEFORE, shield, &BEHIND].concat()
}

/// Shields and their groups: one byte up to 127.
const SHIELDS: [(u32, &[u8]); 11] = [
    (1, &[0x01]),
    (2, &[0x02]),
    (127, &[0x7F]),
    (128, &[0x80, 0x01]),
    (255, &[0xFF, 0x01]), // 128 + 127
    (256, &[0x80, 0x02]), // 2 × 128
    (298, &[0xAA, 0x02]), // 2 × 128 + 42; 42 = 2A
    (299, &[0xAB, 0x02]), // 2 × 128 + 43
    (300, &[0xAC, 0x02]), // 2 × 128 + 44
    (301, &[0xAD, 0x02]), // 2 × 128 + 45
    (700, &[0xBC, 0x05]), // 5 × 128 + 60; 60 = 3C
];

fn written(shield: u32, room: usize) -> Option<Answer> {
    answered(&Call::Write { numbers: half_closed(shield).0, file: room, fill: 8 })
}

fn read(file: Vec<u8>) -> Option<Answer> {
    answered(&Call::Read { file, fill: 9 })
}

/// 37 bytes with a shield of one byte and 38 with one of two, in just so much room and in more; in less 8 is given.
fn stands() -> Cases {
    named(SHIELDS.into_iter().flat_map(|(shield, groups)| {
        let (file, length) = (file(groups), if shield < 128 { 37 } else { 38 });
        let writes = |room| written(shield, room).is_some_and(|told| told.bytes() == file && told.returned == length);
        let short = |room| written(shield, room).is_some_and(|told| told.returned == (8 << 32) + length);
        let reads =
            read(file.clone()).is_some_and(|told| told.returned == 25 && told.numbers() == half_closed(shield).0);
        [
            (format!("a file with shield {shield} is written"), [length as usize, 60].into_iter().all(writes)),
            (format!("a file with shield {shield} into less room"), (0..length as usize).all(short)),
            (format!("a file with shield {shield} is read"), reads),
        ]
    }))
}

/// 3 at 18 of shields out of range, in writing before 8; 6 at 25 of damaged ones.
fn refused() -> Cases {
    let outside: [(u32, &[u8]); 3] = [(0, &[0x00]), (701, &[0xBD, 0x05]), (1_000, &[0xE8, 0x07])];
    let outside = outside.into_iter().flat_map(|(shield, groups)| {
        let is_refused = |told: Option<Answer>| told.is_some_and(|told| told.returned == (3 << 32) + 18);
        [
            (
                format!("a file with shield {shield} is not written"),
                [0, 60].into_iter().all(|room| is_refused(written(shield, room))),
            ),
            (format!("a file with shield {shield} is not read"), is_refused(read(file(groups)))),
        ]
    });
    // 1 in two bytes and in five, 299 in three, 2 to the 32nd and 299.
    let damaged: [(&str, &[u8]); 4] = [
        ("1 in two bytes", &[0x81, 0x00]),
        ("1 in five bytes", &[0x81, 0x80, 0x80, 0x80, 0x00]),
        ("299 in three bytes", &[0xAB, 0x82, 0x00]),
        ("299 and 2 to the 32nd", &[0xAB, 0x82, 0x80, 0x80, 0x10]),
    ];
    let damaged = damaged.into_iter().map(|(name, groups)| {
        (format!("a shield of {name}"), read(file(groups)).is_some_and(|told| told.returned == (6 << 32) + 25))
    });
    named(outside.chain(damaged))
}
