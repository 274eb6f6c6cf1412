//! Rows, and each number's groups beside them with how they come about; books are put together of groups alone.

use crate::marked;

/// Job J of document 01: double row, open. 38 bytes: 12 numbers of one byte, 13 of two.
pub const J: [u32; 25] = marked::J.0;
pub const J_GROUPS: [&[u8]; 25] = [
    &[0x01],       //  1: 1
    &[0x01],       //  2: 1
    &[0x69],       //  3: 105 = 6 × 16 + 9, below 128
    &[0x96, 0x01], //  4: 150 = 1 × 128 + 22; 22 = 16 (hexadecimal), with the top bit 96
    &[0xB4, 0x01], //  5: 180 = 1 × 128 + 52; 52 = 34, B4
    &[0x02],       //  6: 2
    &[0xB8, 0x17], //  7: 3000 = 23 × 128 + 56 (2944 + 56); 56 = 38, B8; 23 = 17
    &[0x03],       //  8: 3
    &[0x04],       //  9: 4
    &[0x02],       // 10: 2
    &[0xB8, 0x17], // 11: 3000, as field 7
    &[0x88, 0x27], // 12: 5000 = 39 × 128 + 8 (4992 + 8); 08, 88; 39 = 27
    &[0x00],       // 13: 0
    &[0xAC, 0x02], // 14: 300 = 2 × 128 + 44; 44 = 2C, AC
    &[0xAC, 0x02], // 15: 300
    &[0xE8, 0x07], // 16: 1000 = 7 × 128 + 104 (896 + 104); 104 = 68, E8
    &[0x01],       // 17: 1
    &[0xC8, 0x01], // 18: 200 = 1 × 128 + 72; 72 = 48, C8
    &[0x01],       // 19: 1
    &[0xF0, 0x01], // 20: 240 = 1 × 128 + 112; 112 = 70, F0
    &[0x01],       // 21: 1
    &[0xC0, 0x3E], // 22: 8000 = 62 × 128 + 64 (7936 + 64); 64 = 40, C0; 62 = 3E
    &[0x04],       // 23: 4
    &[0xC8, 0x01], // 24: 200
    &[0xD0, 0x0F], // 25: 2000 = 15 × 128 + 80 (1920 + 80); 80 = 50, D0
];

/// A row unlike J in 24 fields: single row, half closed. Field 21 has to be 1 in a single row, and is 1 in J.
/// Accepted: lb 128 of 60 to 150, height 2400 of 1 to 2,400, 9 working of 10 boarded layers, Q above q, shield 700 of
/// 1 to 700, wall of 181 mm, make 1. 39 bytes: 13 numbers of one byte, 10 of two, 2 of three.
pub const K: [u32; 25] = [
    2, 2, 128, 60, 127, 3, 2400, 1, 10, 9, 10000, 30000, 5000, 500, 2000, 4000, 2, 700, 2, 181, 1, 100000, 5, 10, 10000,
];
pub const K_GROUPS: [&[u8]; 25] = [
    &[0x02],             //  1: 2
    &[0x02],             //  2: 2
    &[0x80, 0x01],       //  3: 128 is 80 01 (marked in document 01), the least number of two bytes
    &[0x3C],             //  4: 60 = 3C
    &[0x7F],             //  5: 127 is 7F (marked in document 01), the greatest number of one byte
    &[0x03],             //  6: 3
    &[0xE0, 0x12],       //  7: 2400 = 18 × 128 + 96 (2304 + 96); 96 = 60, E0; 18 = 12
    &[0x01],             //  8: 1
    &[0x0A],             //  9: 10
    &[0x09],             // 10: 9
    &[0x90, 0x4E],       // 11: 10000 = 78 × 128 + 16 (9984 + 16); 16 = 10, 90; 78 = 4E
    &[0xB0, 0xEA, 0x01], // 12: 30000 = 234 × 128 + 48 (29952 + 48), 234 = 1 × 128 + 106; 48 = 30, B0; 106 = 6A, EA; 01
    &[0x88, 0x27],       // 13: 5000, as J's field 12
    &[0xF4, 0x03],       // 14: 500 = 3 × 128 + 116; 116 = 74, F4
    &[0xD0, 0x0F],       // 15: 2000, as J's field 25
    &[0xA0, 0x1F],       // 16: 4000 = 31 × 128 + 32 (3968 + 32); 32 = 20, A0; 31 = 1F
    &[0x02],             // 17: 2
    &[0xBC, 0x05],       // 18: 700 = 5 × 128 + 60; 60 = 3C, BC
    &[0x02],             // 19: 2
    &[0xB5, 0x01],       // 20: 181 = 1 × 128 + 53; 53 = 35, B5
    &[0x01],             // 21: 1
    &[0xA0, 0x8D, 0x06], // 22: 100000 = 781 × 128 + 32 (99968 + 32), 781 = 6 × 128 + 13; 20, A0; 13 = 0D, 8D; 06
    &[0x05],             // 23: 5
    &[0x0A],             // 24: 10
    &[0x90, 0x4E],       // 25: 10000
];

/// A third row, no two neighbours of which are alike: double row, fully closed. Some numbers stand at the groups' borders.
/// 35 bytes: 16 numbers of one byte, 8 of two, one of three.
pub const L: [u32; 25] =
    [1, 2, 130, 100, 90, 3, 128, 2, 9, 8, 127, 16383, 128, 255, 256, 129, 3, 1000, 2, 0, 3, 16384, 2, 11, 101];
pub const L_GROUPS: [&[u8]; 25] = [
    &[0x01],             //  1: 1
    &[0x02],             //  2: 2
    &[0x82, 0x01],       //  3: 130 = 1 × 128 + 2
    &[0x64],             //  4: 100 = 64
    &[0x5A],             //  5: 90 = 5A
    &[0x03],             //  6: 3
    &[0x80, 0x01],       //  7: 128
    &[0x02],             //  8: 2
    &[0x09],             //  9: 9
    &[0x08],             // 10: 8
    &[0x7F],             // 11: 127
    &[0xFF, 0x7F],       // 12: 16383 = 127 × 128 + 127, the greatest number of two bytes
    &[0x80, 0x01],       // 13: 128
    &[0xFF, 0x01],       // 14: 255 = 1 × 128 + 127; 127 = 7F, FF
    &[0x80, 0x02],       // 15: 256 = 2 × 128 + 0
    &[0x81, 0x01],       // 16: 129 = 1 × 128 + 1
    &[0x03],             // 17: 3
    &[0xE8, 0x07],       // 18: 1000, as J's field 16
    &[0x02],             // 19: 2
    &[0x00],             // 20: 0, which a double row may have
    &[0x03],             // 21: 3, the same
    &[0x80, 0x80, 0x01], // 22: 16384 = 1 × 128 × 128, the least number of three bytes
    &[0x02],             // 23: 2
    &[0x0B],             // 24: 11
    &[0x65],             // 25: 101 = 65
];

/// A job of which each number takes as many bytes as any allowed one does: see `greatest_length`. 42 bytes.
pub const GREATEST: [u32; 25] = [
    1, 1, 155, 200, 200, 2, 5000, 1, 10, 9, 10000, 30000, 5000, 500, 2000, 4000, 1, 2000, 1, 2000, 1, 100000, 1, 2000,
    10000,
];
pub const GREATEST_GROUPS: [&[u8]; 25] = [
    &[0x01],             //  1: at most 2, one byte
    &[0x01],             //  2: at most 2, one byte
    &[0x9B, 0x01],       //  3: at most 155, two bytes: 155 = 128 + 27; 27 = 1B, 9B
    &[0xC8, 0x01],       //  4: at most 200, two bytes
    &[0xC8, 0x01],       //  5: at most 200, two bytes
    &[0x02],             //  6: at most 3, one byte
    &[0x88, 0x27],       //  7: at most 5,000, two bytes (up to 16,383)
    &[0x01],             //  8: at most 3, one byte
    &[0x0A],             //  9: at most 10, one byte
    &[0x09],             // 10: at most 9, one byte
    &[0x90, 0x4E],       // 11: at most 10,000, two bytes
    &[0xB0, 0xEA, 0x01], // 12: at most 30,000, three bytes (from 16,384)
    &[0x88, 0x27],       // 13: at most 5,000, two bytes
    &[0xF4, 0x03],       // 14: at most 500, two bytes
    &[0xD0, 0x0F],       // 15: at most 2,000, two bytes
    &[0xA0, 0x1F],       // 16: at most 4,000, two bytes
    &[0x01],             // 17: at most 3, one byte
    &[0xD0, 0x0F],       // 18: at most 2,000 (open), two bytes
    &[0x01],             // 19: at most 2, one byte
    &[0xD0, 0x0F],       // 20: at most 2,000, two bytes
    &[0x01],             // 21: at most 3, one byte
    &[0xA0, 0x8D, 0x06], // 22: at most 100,000, three bytes
    &[0x01],             // 23: at most 5, one byte
    &[0xD0, 0x0F],       // 24: at most 2,000, two bytes
    &[0x90, 0x4E],       // 25: at most 10,000, two bytes
];

/// A job of which each number takes as few bytes as an allowed one can; 26: all one, but for the tie capacity (8,000).
pub const LEAST: [u32; 25] = [1, 1, 105, 60, 60, 2, 1, 1, 1, 1, 0, 0, 0, 50, 0, 100, 1, 1, 1, 0, 1, 8000, 1, 10, 100];
#[rustfmt::skip]
pub const LEAST_GROUPS: [&[u8]; 25] = [
    &[0x01], &[0x01], &[0x69], &[0x3C], &[0x3C], // 105 = 69, 60 = 3C
    &[0x02], &[0x01], &[0x01], &[0x01], &[0x01],
    &[0x00], &[0x00], &[0x00], &[0x32], &[0x00], // 50 = 32
    &[0x64], &[0x01], &[0x01], &[0x01], &[0x00], // 100 = 64
    &[0x01], &[0xC0, 0x3E], &[0x01], &[0x0A], &[0x64], // 8000 as in J
];

/// J alone: the count 01, then each of J's 25 numbers, one row high. 1 + 38 = 39 bytes.
pub const BOOK_J: [u8; 39] = [
    0x01, // count 1, offset 0
    0x01, 0x01, 0x69, 0x96, 0x01, // fields 1 to 4, offsets 1, 2, 3, 4
    0xB4, 0x01, 0x02, 0xB8, 0x17, 0x03, // 5 to 8, offsets 6, 8, 9, 11
    0x04, 0x02, 0xB8, 0x17, 0x88, 0x27, // 9 to 12, offsets 12, 13, 14, 16
    0x00, 0xAC, 0x02, 0xAC, 0x02, 0xE8, 0x07, // 13 to 16, offsets 18, 19, 21, 23
    0x01, 0xC8, 0x01, 0x01, 0xF0, 0x01, // 17 to 20, offsets 25, 26, 28, 29
    0x01, 0xC0, 0x3E, 0x04, // 21 to 23, offsets 31, 32, 34
    0xC8, 0x01, 0xD0, 0x0F, // 24 and 25, offsets 35, 37; end 39
];
/// Where the count and each of J's numbers begin in BOOK_J: 1 + the bytes of the numbers before it.
pub const BOOK_J_AT: [usize; 26] =
    [0, 1, 2, 3, 4, 6, 8, 9, 11, 12, 13, 14, 16, 18, 19, 21, 23, 25, 26, 28, 29, 31, 32, 34, 35, 37];

/// J and then K: the count 02, then J's and K's first number, J's and K's second, and so on. 1 + 38 + 39 = 78 bytes.
pub const BOOK_J_K: [u8; 78] = [
    0x02, // count 2, offset 0
    0x01, 0x02, // family 1, 2; offset 1
    0x01, 0x02, // tube 1, 2; offset 3
    0x69, 0x80, 0x01, // spacing 105, 128; offset 5
    0x96, 0x01, 0x3C, // bay 150, 60; offset 8
    0xB4, 0x01, 0x7F, // step 180, 127; offset 11
    0x02, 0x03, // tie interval 2, 3; offset 14
    0xB8, 0x17, 0xE0, 0x12, // height 3000, 2400; offset 16
    0x03, 0x01, // boards 3, 1; offset 20
    0x04, 0x0A, // boarded layers 4, 10; offset 22
    0x02, 0x09, // working layers 2, 9; offset 24
    0xB8, 0x17, 0x90, 0x4E, // q 3000, 10000; offset 26
    0x88, 0x27, 0xB0, 0xEA, 0x01, // Q 5000, 30000; offset 30
    0x00, 0x88, 0x27, // nets 0, 5000; offset 35
    0xAC, 0x02, 0xF4, 0x03, // structure 300, 500; offset 38
    0xAC, 0x02, 0xD0, 0x0F, // wind 300, 2000; offset 42
    0xE8, 0x07, 0xA0, 0x1F, // height factor 1000, 4000; offset 46
    0x01, 0x02, // enclosure 1, 2; offset 50
    0xC8, 0x01, 0xBC, 0x05, // shield 200, 700; offset 52
    0x01, 0x02, // wall behind 1, 2; offset 56
    0xF0, 0x01, 0xB5, 0x01, // wall thickness 240, 181; offset 58
    0x01, 0x01, // wall make 1, 1; offset 62
    0xC0, 0x3E, 0xA0, 0x8D, 0x06, // tie capacity 8000, 100000; offset 64
    0x04, 0x05, // soil 4, 5; offset 69
    0xC8, 0x01, 0x0A, // strength 200, 10; offset 71
    0xD0, 0x0F, 0x90, 0x4E, // pad 2000, 10000; offset 74; end 78
];

/// The count's groups and then column after column of rows' groups: what request 3/14 calls a book.
pub fn book(count: &[u8], rows: &[[&[u8]; 25]]) -> Vec<u8> {
    let mut book = count.to_vec();
    for column in 0..25 {
        for row in rows {
            book.extend_from_slice(row[column]);
        }
    }
    book
}

/// A row with another number in one field, counted from 1.
pub const fn with(mut row: [u32; 25], field: usize, number: u32) -> [u32; 25] {
    row[field - 1] = number;
    row
}

/// A row's groups with others in one field, counted from 1.
pub const fn groups_with<'a>(mut row: [&'a [u8]; 25], field: usize, groups: &'a [u8]) -> [&'a [u8]; 25] {
    row[field - 1] = groups;
    row
}

/// Bad by 3 at field 25: pad 99 = 63, below 100.
pub const PAD: [u32; 25] = with(J, 25, 99);
pub const PAD_GROUPS: [&[u8]; 25] = groups_with(J_GROUPS, 25, &[0x63]);
/// Bad by 3 at field 1: family 0.
pub const FAMILY: [u32; 25] = with(J, 1, 0);
pub const FAMILY_GROUPS: [&[u8]; 25] = groups_with(J_GROUPS, 1, &[0x00]);
/// Bad by 5 at field 20: K is a single row; thickness 180, B4 01.
pub const THIN: [u32; 25] = with(K, 20, 180);
pub const THIN_GROUPS: [&[u8]; 25] = groups_with(K_GROUPS, 20, &[0xB4, 0x01]);
/// A row that begins with 3, which only a support's numbers may: J's other numbers stand behind it.
pub const THREE: [u32; 25] = with(J, 1, 3);
pub const THREE_GROUPS: [&[u8]; 25] = groups_with(J_GROUPS, 1, &[0x03]);
