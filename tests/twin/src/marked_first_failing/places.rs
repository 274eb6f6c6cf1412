//! Where the first failing row stands and how many rows were judged: no rows, one, two, some, and up to 200.

use super::*;
use crate::hand_books::rows::{BOOK_J, GREATEST, K_GROUPS, L, L_GROUPS, LEAST, book};
use crate::paper::job::Fields;

pub fn cases() -> Cases {
    [no_rows(), one_row(), two_rows(), some_rows(), many_rows(), by_sheet(), not_due()].concat()
}

/// An empty season has no bytes; no rows are written as the count 0. None fails, and none is judged.
fn no_rows() -> Cases {
    named([("no bytes at all", is_told(&[], NONE, 0)), ("the count 0", is_told(&[0x00], NONE, 0))])
}

/// J fails 11 alone. K: N = 1.2 (12,000 + 6,746) + 1.4 × 11,520 = 38,624 to 0.3096 × 452 × 205 = 28,688 fails 7.
/// L and LEAST: 11 is to 0.4 × 11,000 × 0.0101 = 44 and 0.4 × 10,000 × 0.01 = 40. GREATEST: q is 10,000, fails 1.
fn one_row() -> Cases {
    let one = |groups| book(&[0x01], &[groups]);
    named([
        ("J", is_told(&BOOK_J, 0, 1)),
        ("J from its groups", is_told(&one(J_GROUPS), 0, 1)),
        ("J with strength 201", is_told(&one(STRONG_GROUPS), NONE, 1)),
        ("K", is_told(&one(K_GROUPS), 0, 1)),
        ("L", is_told(&one(L_GROUPS), 0, 1)),
        ("the shortest row", is_told_of(&[Fields(LEAST)], 0, 1)),
        ("the longest row", is_told_of(&[Fields(GREATEST)], 0, 1)),
    ])
}

/// The number is place + 1 where a row fails, and else the row count.
fn two_rows() -> Cases {
    let two = |one, other| book(&[0x02], &[one, other]);
    named([
        ("strength 201, J", is_told(&two(STRONG_GROUPS, J_GROUPS), 1, 2)),
        ("J, strength 201", is_told(&two(J_GROUPS, STRONG_GROUPS), 0, 1)),
        ("J twice", is_told(&two(J_GROUPS, J_GROUPS), 0, 1)),
        ("strength 201 twice", is_told(&two(STRONG_GROUPS, STRONG_GROUPS), NONE, 2)),
        ("strength 201, K", is_told(&two(STRONG_GROUPS, K_GROUPS), 1, 2)),
        ("K, strength 201", is_told(&two(K_GROUPS, STRONG_GROUPS), 0, 1)),
    ])
}

/// J at each place among five rows, alone, with K before or behind it, and among three.
fn some_rows() -> Cases {
    let at = |place: usize| {
        let mut rows = [STRONG_GROUPS; 5];
        rows[place] = J_GROUPS;
        let alone = is_told(&book(&[0x05], &rows), place as u32, place as u32 + 1);
        let with_k = |other: usize| {
            let mut rows = rows;
            rows[other] = K_GROUPS;
            let first = place.min(other) as u32;
            is_told(&book(&[0x05], &rows), first, first + 1)
        };
        let with_k = (0..5).filter(|&other| other != place).all(with_k);
        (format!("J at {place} of five rows, alone and beside K"), alone && with_k)
    };
    let [strong, j, l] = [STRONG, J, Fields(L)];
    let three = [
        ("strength 201, J, L", is_told_of(&[strong, j, l], 1, 2)),
        ("strength 201, L, J", is_told_of(&[strong, l, j], 1, 2)),
        ("strength 201 twice, L", is_told_of(&[strong, strong, l], 2, 3)),
        ("J, L, strength 201", is_told_of(&[j, l, strong], 0, 1)),
        ("strength 201 three times", is_told_of(&[strong; 3], NONE, 3)),
    ];
    [named((0..5).map(at)), named(three)].concat()
}

/// Rows of strength 201 with J among them, about where a count takes two bytes and about the greatest.
fn many_rows() -> Cases {
    let mut cases = Cases::new();
    for (count, groups) in [(127, &[0x7F][..]), (128, &[0x80, 0x01]), (199, &[0xC7, 0x01]), (200, &[0xC8, 0x01])] {
        let told = |failing: &[usize], place, judged| {
            let mut rows = vec![STRONG_GROUPS; count];
            failing.iter().for_each(|&place| rows[place] = J_GROUPS);
            is_told(&book(groups, &rows), place, judged)
        };
        let (last, all): (usize, Vec<usize>) = (count - 1, (0..count).collect());
        cases.extend(named([
            (format!("{count} rows, none failing"), told(&[], NONE, count as u32)),
            (format!("{count} rows, the first failing"), told(&[0], 0, 1)),
            (format!("{count} rows, the second failing"), told(&[1], 1, 2)),
            (format!("{count} rows, the last failing"), told(&[last], last as u32, count as u32)),
            (format!("{count} rows, the last but one failing"), told(&[last - 1], last as u32 - 1, last as u32)),
            (format!("{count} rows, the last two failing"), told(&[last - 1, last], last as u32 - 1, last as u32)),
            (format!("{count} rows, the 64th and the 100th failing"), told(&[63, 99], 63, 64)),
            (format!("{count} rows, all failing"), told(&all, 0, 1)),
        ]));
    }
    cases
}

/// J at 3,278 on strength 2,000 fails 7 and 12 under T; with 1,000 in every entry its pole bears 489 × 205 = 100,245 N,
/// which is above 1.2 × 18,000 and the rest at 6,000 cm, so that 5,000 are permitted.
fn by_sheet() -> Cases {
    let tall = J.with(7, 3_278).with(24, 2_000);
    let full = to_bytes(&[1_000; 251]);
    named([
        ("J at 3,278 under T", is_told_of(&[tall], 0, 1)),
        ("J at 3,278 under 1,000", is_so(&full, &whole(&[tall]), (2, [NONE, 1]))),
        ("J at 3,278 twice, then J, under T", is_told_of(&[tall, tall, J], 0, 1)),
        ("J at 3,278 twice, then J, under 1,000", is_so(&full, &whole(&[tall, tall, J]), (2, [2, 3]))),
        ("no bytes under 1,000", is_so(&full, &[], (2, [NONE, 0]))),
        ("the count 0 under 1,000", is_so(&full, &[0x00], (2, [NONE, 0]))),
    ])
}

/// Check 8 shows 0 up to a wind of 350 and 1 at 351, where Nw is 19,030 to 20,505: neither is a failure.
/// J as a single row of structure 200 and 1 cm has N = 7,342 and passes all, 8 not being due.
fn not_due() -> Cases {
    let single = J.with(1, 2).with(14, 200).with(7, 1);
    named([
        ("wind 350 and 351", is_told_of(&[STRONG.with(15, 350), STRONG.with(15, 351)], NONE, 2)),
        ("wind 351 and J", is_told_of(&[STRONG.with(15, 351), J], 1, 2)),
        ("no wind", is_told_of(&[STRONG.with(15, 0)], NONE, 1)),
        ("a single row", is_told_of(&[single], NONE, 1)),
        ("a single row and J", is_told_of(&[single, J], 1, 2)),
        ("J and a single row", is_told_of(&[J, single], 0, 1)),
        ("rows of both families", is_told_of(&[single, STRONG, single, STRONG], NONE, 4)),
    ])
}
