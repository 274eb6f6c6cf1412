//! Counts about each limit: as they stand, above 200, and damaged.

use super::rows::*;
use super::trying::Cases;

/// Such a count and the columns of so many rows, all of them J.
fn rows_of_j(count: &[u8], rows: usize) -> Vec<u8> {
    book(count, &vec![J_GROUPS; rows])
}

/// Counts around 127, 128 and 200; the length is the count's bytes + 38 for each J.
fn counts(cases: &mut Cases) {
    // 1 + 127 × 38 = 1 + 4826 = 4827; 2 + 128 × 38 = 2 + 4864 = 4866; 2 + 199 × 38 = 2 + 7562 = 7564;
    // 2 + 200 × 38 = 7602.
    for (rows, groups, length) in [
        (127, &[0x7F][..], 4827),
        (128, &[0x80, 0x01], 4866),
        (199, &[0xC7, 0x01], 7564), // 199 = 128 + 71; 71 = 47, C7
        (200, &[0xC8, 0x01], 7602), // 200 = 128 + 72; 72 = 48, C8
    ] {
        let (jobs, book) = (vec![J; rows], rows_of_j(groups, rows));
        cases.tried(&format!("{rows} rows by hand"), (book.len() != length).then(|| format!("{} bytes", book.len())));
        cases.both_ways(&format!("{rows} rows"), &jobs, &book);
        let name = format!("{rows} rows with little room");
        cases.write_refused(&name, jobs.as_flattened(), length - 1, 8, length as u64);
        cases.read_refused(&name, &book, 25 * rows - 1, 8, rows as u64);
        cases.read_refused(&name, &book, 0, 8, rows as u64);
    }
}

/// More than 200 rows, in numbers lent.
fn too_many_rows(cases: &mut Cases) {
    let (j200, j201) = (vec![J; 200], vec![J; 201]);
    // 200 × 25 + 24 = 5024 numbers are 200 rows, and one number more makes 201.
    cases.writes("5,024 numbers", &j201.as_flattened()[..5024], 9000, 7602, &rows_of_j(&[0xC8, 0x01], 200));
    cases.write_refused("5,025 numbers", &j201.as_flattened()[..5025], 9000, 10, 201);
    cases.write_refused("5,049 numbers", &[j200.as_flattened(), &[1; 49]].concat(), 9000, 10, 201);
    cases.write_refused("400 rows", &[j200.as_flattened(), j200.as_flattened()].concat(), 20_000, 10, 400);
}

/// Counts above 200, and what follows them.
fn high_counts(cases: &mut Cases) {
    // 201 = 128 + 73; 73 = 49, C9. 10 at 201 whatever follows: nothing, a damaged number, 200 or 201 rows, bytes more.
    for follows in [
        vec![],
        vec![0x80],
        vec![0x80, 0x00],
        vec![0xFF; 6],
        rows_of_j(&[], 200),
        rows_of_j(&[], 201),
        rows_of_j(&[], 300),
    ] {
        for lent in [0, 5000, 5025] {
            cases.read_refused("count 201", &[&[0xC9, 0x01], &follows[..]].concat(), lent, 10, 201);
        }
    }
    // 257 = 2 × 128 + 1, 81 02: no count of 1. 65,537 = 4 × 16,384 + 1, 81 80 04: none of 1 either.
    // 4,294,967,295 is 32 set bits, four groups of seven and four: FF FF FF FF 0F, the greatest place there is.
    cases.read_refused("count 257", &[&[0x81, 0x02], &BOOK_J[1..]].concat(), 50, 10, 257);
    cases.read_refused("count 65,537", &[&[0x81, 0x80, 0x04], &BOOK_J[1..]].concat(), 50, 10, 65_537);
    cases.read_refused("count 4,294,967,295", &[0xFF, 0xFF, 0xFF, 0xFF, 0x0F], 50, 10, 4_294_967_295);
    // The last one as one number: 10 × 4,294,967,296 + 4,294,967,295 = 47,244,640,255.
    cases.reads("its one number", &[0xFF, 0xFF, 0xFF, 0xFF, 0x0F, 0x01], 0, 47_244_640_255, &[]);
    // One more, 4,294,967,296, is 2 to the 32nd: 80 80 80 80 10, too great for a number, so the count is damaged.
    cases.read_refused("count 4,294,967,296", &[0x80, 0x80, 0x80, 0x80, 0x10], 50, 9, 0);
    // Count 200 and nothing else: the book ends before the first number, at 2. Count 1 and nothing else: at 1.
    cases.read_refused("count 200 alone", &[0xC8, 0x01], 5000, 9, 2);
    cases.read_refused("count 1 alone", &[0x01], 25, 9, 1);
}

/// Counts that are damaged.
fn damaged_counts(cases: &mut Cases) {
    // Counts that are not shortest: 1 as 81 00, 0 as 80 00, 200 as C8 81 00, 201 as C9 81 00 (9 at 0, not 10).
    for count in [&[0x81, 0x00][..], &[0x80, 0x00], &[0x81, 0x80, 0x00], &[0x81, 0x80, 0x80, 0x80, 0x00]] {
        cases.read_refused("longer count", &[count, &BOOK_J[1..]].concat(), 50, 9, 0);
    }
    cases.read_refused("longer count of 0", &[0x80, 0x00], 50, 9, 0);
    cases.read_refused("longer count of 200", &rows_of_j(&[0xC8, 0x81, 0x00], 200), 5000, 9, 0);
    cases.read_refused("longer count of 201", &rows_of_j(&[0xC9, 0x81, 0x00], 201), 5025, 9, 0);
    // A count of six bytes, and counts that the book ends inside.
    cases.read_refused("count of six bytes", &[0x81, 0x80, 0x80, 0x80, 0x80, 0x00], 50, 9, 0);
    for count in [&[0x80][..], &[0xC8], &[0xC9], &[0xFF, 0xFF, 0xFF, 0xFF]] {
        cases.read_refused("count cut off", count, 50, 9, 0);
    }
}

pub fn all(cases: &mut Cases) {
    counts(cases);
    too_many_rows(cases);
    high_counts(cases);
    damaged_counts(cases);
}
