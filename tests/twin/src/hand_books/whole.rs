//! Books that stand: none, one and two rows byte for byte, the longest; and what is left of what was lent.

use super::rows::*;
use super::trying::{Cases, before_numbers, refusal};

/// No rows: the count 0 in its groups, 00, and 25 empty columns. One byte.
fn empty_book(cases: &mut Cases) {
    cases.both_ways("no rows", &[], &[0x00]);
    // 8 with the length needed, one byte.
    cases.write_refused("no rows into no bytes", &[], 0, 8, 1);
    // 24 numbers are no whole row (24 / 25 is 0): they are not read, so 7 as first number, out of range, is no fault.
    cases.writes("24 numbers are no rows", &[7; 24], 3, 1, &[0x00]);
    cases.write_refused("24 numbers into no bytes", &[7; 24], 0, 8, 1);
    // The first byte after the count is at 1.
    cases.read_refused("no rows and a byte more", &[0x00, 0x00], 50, 9, 1);
    cases.read_refused("no rows and a line's end", &[0x00, 0x0A], 0, 9, 1);
    cases.read_refused("no rows and J's columns", &[&[0x00], &BOOK_J[1..]].concat(), 50, 9, 1);
    // Before request 9/14 no bytes at all were a count that isn't there, damaged at 0; they are an empty season now.
    for lent in [0, 1, 24, 25, 50, 5_050] {
        cases.reads("no bytes at all", &[], lent, 0, &[]);
    }
}

/// J of document 01 alone, byte for byte.
fn job_j(cases: &mut Cases) {
    cases.both_ways("J alone", &[J], &BOOK_J);
    cases.both_ways("J alone from its groups", &[J], &book(&[0x01], &[J_GROUPS]));
    // 25 + 24 numbers are one whole row; the 24 are not read.
    cases.writes("J and 24 numbers", &[&J[..], &[0; 24]].concat(), 39, 39, &BOOK_J);
    for lent in 0..39 {
        cases.write_refused("J into too few bytes", &J, lent, 8, 39);
    }
    // Fewer than 25 numbers are no row: 8 with the one row that is needed.
    for lent in [0, 1, 13, 24] {
        cases.read_refused("J into too few numbers", &BOOK_J, lent, 8, 1);
    }
    // Cut off after `length` bytes: the number that the cut falls into or before is the last one that begins at or
    // before `length`. At 38 it is the 25th, of which only D0 at 37 is left. At 0 there is no book's byte left.
    for length in 1..39 {
        let place = BOOK_J_AT.iter().rev().find(|&&at| at <= length).map_or(0, |&at| at);
        cases.read_refused(&format!("J cut to {length} bytes"), &BOOK_J[..length], 50, 9, place as u64);
    }
    // The first byte too many is at 39, whatever and however many follow.
    for more in [&[0x00][..], &[0x80], &[0x0A], &[0x01; 100], &BOOK_J] {
        cases.read_refused("J and bytes more", &[&BOOK_J, more].concat(), 50, 9, 39);
    }
    // J's file, without a count: 01 is the count, 01 69 .. are 24 numbers to the end at 38, and the 25th isn't there.
    cases.read_refused("J's file in a book's place", &BOOK_J[1..], 50, 9, 38);
}

/// J and K, which are alike in field 21 only, byte for byte.
fn two_rows(cases: &mut Cases) {
    cases.both_ways("J and K", &[J, K], &BOOK_J_K);
    cases.both_ways("J and K from their groups", &[J, K], &book(&[0x02], &[J_GROUPS, K_GROUPS]));
    // The other way about: in each column K's number stands first.
    cases.both_ways("K and J", &[K, J], &book(&[0x02], &[K_GROUPS, J_GROUPS]));
    cases.both_ways("K alone", &[K], &book(&[0x01], &[K_GROUPS]));
    cases.both_ways("J, K and J", &[J, K, J], &book(&[0x03], &[J_GROUPS, K_GROUPS, J_GROUPS]));
    cases.both_ways("L alone", &[L], &book(&[0x01], &[L_GROUPS]));
    cases.both_ways("L, K, J and K", &[L, K, J, K], &book(&[0x04], &[L_GROUPS, K_GROUPS, J_GROUPS, K_GROUPS]));
    // Room: 78 bytes; two rows, and 49 numbers are one.
    for lent in [0, 1, 39, 77] {
        cases.write_refused("J and K into too few bytes", [J, K].as_flattened(), lent, 8, 78);
    }
    for lent in [0, 24, 25, 49] {
        cases.read_refused("J and K into too few rows", &BOOK_J_K, lent, 8, 2);
    }
    cases.read_refused("J and K and a byte more", &[&BOOK_J_K[..], &[0x00]].concat(), 75, 9, 78);
    // 77 bytes: K's pad begins at 76, and 4E is gone. 76: it is gone whole. 75: J's pad, at 74, is cut.
    cases.read_refused("J and K cut to 77", &BOOK_J_K[..77], 75, 9, 76);
    cases.read_refused("J and K cut to 76", &BOOK_J_K[..76], 75, 9, 76);
    cases.read_refused("J and K cut to 75", &BOOK_J_K[..75], 75, 9, 74);
    // J's rows one behind the other, 02 and two job files: 01 01 are taken for the first numbers, 69 and 96 01 for the
    // second. There are 50 groups, so nothing is damaged, and row 0's tube of 105 is out of range.
    let files = [&[0x02], &BOOK_J[1..], &BOOK_J[1..]].concat();
    cases.read_refused("two job files behind a count", &files, 50, 11, 0);
}

/// No book is longer than 8,402 bytes: two for a count of 128 to 200, and at most 42 for each of 200 rows. For no
/// number takes more bytes than the upper end of its field's range, and of these ends 10 take one byte (fields 1, 2, 6,
/// 8, 9, 10, 17, 19, 21, 23), 2 take three (12, 22) and the other 13 two: 10 + 26 + 6 = 42. GREATEST has all of these
/// lengths in one accepted job, so the bound is met: 2 + 200 × 42 = 8,402.
fn greatest_length(cases: &mut Cases) {
    let (rows, book_of) = (vec![GREATEST; 200], book(&[0xC8, 0x01], &vec![GREATEST_GROUPS; 200]));
    cases.tried("8,402 by hand", (book_of.len() != 8402).then(|| format!("{} bytes", book_of.len())));
    cases.both_ways("the longest book", &rows, &book_of);
    cases.write_refused("the longest book in 8,401 bytes", rows.as_flattened(), 8401, 8, 8402);
    cases.write_refused("the longest book in no bytes", rows.as_flattened(), 0, 8, 8402);
    cases.read_refused("the longest book in 199 rows", &book_of, 4999, 8, 200);
    // The shortest of 200 rows: 2 + 200 × 26 = 5,202.
    let (rows, book_of) = (vec![LEAST; 200], book(&[0xC8, 0x01], &vec![LEAST_GROUPS; 200]));
    cases.tried("5,202 by hand", (book_of.len() != 5202).then(|| format!("{} bytes", book_of.len())));
    cases.both_ways("the shortest book of 200 rows", &rows, &book_of);
    cases.write_refused("the shortest of 200 in 5,201 bytes", rows.as_flattened(), 5201, 8, 5202);
}

/// What is left in what was lent, number for number and byte for byte; `reads` and `writes` have it of all cases too.
fn left(cases: &mut Cases) {
    // Refused: both rows' room as it was, though row 0 would fit (8), is good (11) or was read whole (9 at the end).
    let mut numbers = before_numbers(49);
    let refused = cases.read_book(&BOOK_J_K, &mut numbers) == refusal(8, 2) && numbers == before_numbers(49);
    cases.tried("8 in reading leaves all", (!refused).then(|| format!("{numbers:?}")));
    let mut bytes = [0xE0; 77];
    let refused = cases.write_book([J, K].as_flattened(), &mut bytes) == refusal(8, 78) && bytes == [0xE0; 77];
    cases.tried("8 in writing leaves all", (!refused).then(|| format!("{bytes:02X?}")));
}

/// The same where it is answered: what lies beyond the rows or the book.
fn left_behind(cases: &mut Cases) {
    // Answered: J's 25 numbers, then the 24 after the last whole row and whole rows beyond the book's as they were.
    let mut numbers = [u32::MAX; 99];
    let read = cases.read_book(&BOOK_J, &mut numbers) == 1 && numbers[..25] == J && numbers[25..] == [u32::MAX; 74];
    cases.tried("reading J writes 25 numbers", (!read).then(|| format!("{numbers:?}")));
    let mut bytes = [0xE0; 60];
    let wrote = cases.write_book(&J, &mut bytes) == 39 && bytes[..39] == BOOK_J && bytes[39..] == [0xE0; 21];
    cases.tried("writing J writes 39 bytes", (!wrote).then(|| format!("{bytes:02X?}")));
    // An empty book writes no number, and no rows write one byte.
    let (mut numbers, mut bytes) = ([9; 50], [0xE0; 3]);
    let none = cases.read_book(&[0x00], &mut numbers) == 0 && numbers == [9; 50];
    cases.tried("reading no rows writes nothing", (!none).then(|| format!("{numbers:?}")));
    let none = cases.write_book(&[], &mut bytes) == 1 && bytes == [0x00, 0xE0, 0xE0];
    cases.tried("writing no rows writes 00", (!none).then(|| format!("{bytes:02X?}")));
}

pub fn all(cases: &mut Cases) {
    empty_book(cases);
    job_j(cases);
    two_rows(cases);
    greatest_length(cases);
    left(cases);
    left_behind(cases);
}
