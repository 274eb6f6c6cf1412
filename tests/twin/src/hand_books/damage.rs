//! 9 with the offset of a damaged number.

use super::rows::*;
use super::trying::Cases;

/// The same damage in two columns: 9 goes by offset.
fn two_damaged(cases: &mut Cases) {
    // Two rows of J: column 1 is 01 01 at 1 and 2, column 2 is 01 01 at 3 and 4.
    let damage = &[0x80, 0x00][..]; // 0 in two bytes, refused 6 in document 01
    let first = groups_with(J_GROUPS, 1, damage);
    let second = groups_with(J_GROUPS, 2, damage);
    // Row 1's first number alone: behind the count and row 0's first, at 2.
    cases.read_refused("column 1 of row 1", &book(&[0x02], &[J_GROUPS, first]), 50, 9, 2);
    // Row 0's second number alone: behind the count and both first numbers, at 3.
    cases.read_refused("column 2 of row 0", &book(&[0x02], &[second, J_GROUPS]), 50, 9, 3);
    // Both: 02, 01, 80 00, 80 00, 01 and so on. Row 1's first number is at 2, row 0's second at 4. 9 goes by offset,
    // not by row: 2.
    cases.read_refused("both", &book(&[0x02], &[second, first]), 50, 9, 2);
    // And both as "too great" and "not shortest": still the lower offset. Five bytes stand at 2, 80 00 at 7.
    let great = groups_with(J_GROUPS, 1, &[0xFF, 0xFF, 0xFF, 0xFF, 0x1F]);
    cases.read_refused("both, the first too great", &book(&[0x02], &[second, great]), 50, 9, 2);
}

/// 9 with the offset of a damaged number, each way it can be damaged.
fn damaged_numbers(cases: &mut Cases) {
    // In J alone, field 4 stands at 4. In J and K, K's Q stands at 32, and J's pad at 74.
    for (name, groups) in [
        ("0 in two bytes", &[0x80, 0x00][..]),
        ("150 in three bytes", &[0x96, 0x81, 0x00]),
        ("150 in five bytes", &[0x96, 0x81, 0x80, 0x80, 0x00]),
        ("150 in six bytes", &[0x96, 0x81, 0x80, 0x80, 0x80, 0x00]),
        ("4,294,967,296", &[0x80, 0x80, 0x80, 0x80, 0x10]),
        ("5 groups full", &[0xFF, 0xFF, 0xFF, 0xFF, 0x7F]),
        ("6 bytes", &[0xFF, 0xFF, 0xFF, 0xFF, 0xFF, 0x01]),
        ("2 to the 32nd and 150, 150 in 32 bits", &[0x96, 0x81, 0x80, 0x80, 0x10]),
    ] {
        cases.read_refused(name, &book(&[0x01], &[groups_with(J_GROUPS, 4, groups)]), 25, 9, 4);
        cases.read_refused(name, &book(&[0x02], &[J_GROUPS, groups_with(K_GROUPS, 12, groups)]), 50, 9, 32);
        cases.read_refused(name, &book(&[0x02], &[groups_with(J_GROUPS, 25, groups), K_GROUPS]), 50, 9, 74);
    }
    // 4,294,967,295 is a number: out of every range, so a bad row and not a damaged number.
    let most = groups_with(J_GROUPS, 4, &[0xFF, 0xFF, 0xFF, 0xFF, 0x0F]);
    cases.read_refused("4,294,967,295", &book(&[0x01], &[most]), 25, 11, 0);
}

pub fn all(cases: &mut Cases) {
    two_damaged(cases);
    damaged_numbers(cases);
}
