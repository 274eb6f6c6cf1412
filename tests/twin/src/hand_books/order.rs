//! Each two refusals that can meet: the first of 9 at 0, 10, 9, 11, 8 in reading, of 10, 11, 8 in writing.

use super::rows::*;
use super::trying::Cases;

/// J with the pad 2000 not in its shortest form.
const DAMAGED_PAD: [&[u8]; 25] = groups_with(J_GROUPS, 25, &[0xD0, 0x8F, 0x00]);
/// The count 201.
const C9: &[u8] = &[0xC9, 0x01];

fn alike(count: &[u8], row: [&[u8]; 25], rows: usize) -> Vec<u8> {
    book(count, &vec![row; rows])
}

fn trailing(book: Vec<u8>) -> Vec<u8> {
    [&book[..], &[0x00]].concat()
}

/// A damaged count goes before all others, and then a count above 200.
fn count_first(cases: &mut Cases) {
    // Count damaged (201 not in its shortest form) before all others, each of which is there too.
    cases.read_refused("9 at 0 before 10", &alike(&[0xC9, 0x81, 0x00], J_GROUPS, 201), 5025, 9, 0);
    cases.read_refused("9 at 0 before 9", &alike(&[0x81, 0x00], groups_with(J_GROUPS, 1, &[0x80, 0x00]), 1), 25, 9, 0);
    cases.read_refused("9 at 0 before trailing", &trailing(alike(&[0x81, 0x00], J_GROUPS, 1)), 25, 9, 0);
    cases.read_refused("9 at 0 before 11", &alike(&[0x81, 0x00], THREE_GROUPS, 1), 25, 9, 0);
    cases.read_refused("9 at 0 before 8", &alike(&[0x81, 0x00], J_GROUPS, 1), 0, 9, 0);
    // Count 201 before a damaged number, a trailing byte, a bad row, too little room, and all of them.
    cases.read_refused("10 before 9", &alike(C9, DAMAGED_PAD, 201), 5025, 10, 201);
    cases.read_refused("10 before 9 at 2", &[0xC9, 0x01, 0x80, 0x00], 5025, 10, 201);
    cases.read_refused("10 before trailing", &trailing(alike(C9, J_GROUPS, 201)), 5025, 10, 201);
    cases.read_refused("10 before 11", &alike(C9, THREE_GROUPS, 201), 5025, 10, 201);
    cases.read_refused("10 before 8", &alike(C9, J_GROUPS, 201), 5000, 10, 201);
    cases.read_refused("10 before all", &trailing(alike(C9, groups_with(DAMAGED_PAD, 1, &[0x03]), 201)), 0, 10, 201);
}

/// Then damage and trailing bytes, then a bad row, then too little room.
fn numbers_then_rows(cases: &mut Cases) {
    // A damaged number before bytes that would trail, a bad row, too little room. The pad is at 37 as in BOOK_J; with
    // D0 8F 00 there the book's end is 40.
    cases.read_refused("9 at 37 before trailing", &trailing(alike(&[0x01], DAMAGED_PAD, 1)), 25, 9, 37);
    cases.read_refused("9 at 37 before 11", &alike(&[0x01], groups_with(DAMAGED_PAD, 1, &[0x03]), 1), 25, 9, 37);
    cases.read_refused("9 at 37 before 8", &alike(&[0x01], DAMAGED_PAD, 1), 24, 9, 37);
    cases.read_refused("9 by the end before 11", &alike(&[0x01], THREE_GROUPS, 1)[..38], 25, 9, 37);
    // Row 0 bad in its first number, row 1 damaged in its last. Two rows of J's lengths: the pads stand behind the
    // count and 24 columns of 2 × (38 - 2) = 72 bytes in all, row 0's at 73, row 1's at 75.
    cases.read_refused("9 in row 1 before 11 of row 0", &book(&[0x02], &[THREE_GROUPS, DAMAGED_PAD]), 50, 9, 75);
    // A trailing byte, at 39, before a bad row and too little room.
    cases.read_refused("trailing before 11", &trailing(alike(&[0x01], THREE_GROUPS, 1)), 25, 9, 39);
    cases.read_refused("trailing before 8", &trailing(BOOK_J.to_vec()), 24, 9, 39);
    cases.read_refused("trailing before 11 and 8", &trailing(alike(&[0x01], THREE_GROUPS, 1)), 0, 9, 39);
    // A bad row before too little room, whether or not the room ends before that row.
    cases.read_refused("11 before 8", &alike(&[0x01], THREE_GROUPS, 1), 0, 11, 0);
    cases.read_refused("11 of row 1 before 8", &book(&[0x02], &[J_GROUPS, THREE_GROUPS]), 25, 11, 1);
    cases.read_refused("11 of row 1 before 8 at no room", &book(&[0x02], &[J_GROUPS, THREE_GROUPS]), 0, 11, 1);
}

fn writing(cases: &mut Cases) {
    // Writing: 10 before 11 and 8, 11 before 8. 201 rows, the first, the last or all of them bad.
    for (name, rows) in [
        ("all bad", vec![THREE; 201]),
        ("row 0 bad", [vec![THREE], vec![J; 200]].concat()),
        ("row 200 bad", [vec![J; 200], vec![THREE]].concat()),
        ("none bad", vec![J; 201]),
    ] {
        for lent in [0, 1, 7640, 9000] {
            cases.write_refused(&format!("10 before 11 and 8, {name}"), rows.as_flattened(), lent, 10, 201);
        }
    }
    for lent in [0, 1, 38] {
        cases.write_refused("11 before 8 in writing", &THREE, lent, 11, 0);
        cases.write_refused("11 of row 1 before 8", [J, THREE].as_flattened(), lent, 11, 1);
    }
}

pub fn all(cases: &mut Cases) {
    count_first(cases);
    numbers_then_rows(cases);
    writing(cases);
}
