//! 11 with the lowest row that 3, 4 or 5 would refuse, in reading and in writing.

use super::rows::*;
use super::trying::Cases;

/// Writing and reading refuse alike.
pub fn both(cases: &mut Cases, name: &str, rows: &[[u32; 25]], groups: &[[&[u8]; 25]], place: u64) {
    cases.write_refused(name, rows.as_flattened(), 9000, 11, place);
    let counted = book(&[rows.len() as u8], groups);
    cases.read_refused(name, &counted, 25 * rows.len(), 11, place);
}

/// A row alone, bad by 3, by 4 or by 5.
fn one_row(cases: &mut Cases) {
    // 3: pad, family; lb 106 = 6A in a double row (field 3).
    both(cases, "3 at 25", &[PAD], &[PAD_GROUPS], 0);
    both(cases, "3 at 1", &[FAMILY], &[FAMILY_GROUPS], 0);
    both(cases, "3 at 3", &[with(J, 3, 106)], &[groups_with(J_GROUPS, 3, &[0x6A])], 0);
    // 4: five working layers on J's four boarded (10); Q 2999 = 23 × 128 + 55, B7 17, below q 3000 (12).
    both(cases, "4 at 10", &[with(J, 10, 5)], &[groups_with(J_GROUPS, 10, &[0x05])], 0);
    both(cases, "4 at 12", &[with(J, 12, 2999)], &[groups_with(J_GROUPS, 12, &[0xB7, 0x17])], 0);
    // 5: K is a single row; thickness 180, B4 01 (20), and make 2 or 3 (21).
    both(cases, "5 at 20", &[THIN], &[THIN_GROUPS], 0);
    both(cases, "5 at 21, make 2", &[with(K, 21, 2)], &[groups_with(K_GROUPS, 21, &[0x02])], 0);
    both(cases, "5 at 21, make 3", &[with(K, 21, 3)], &[groups_with(K_GROUPS, 21, &[0x03])], 0);
}

/// A row bad by 3 in each of its fields.
fn every_field(cases: &mut Cases) {
    // Each of the 25 numbers is tried: 4,294,967,295 is in no range.
    for field in 1..=25 {
        let most = groups_with(J_GROUPS, field, &[0xFF, 0xFF, 0xFF, 0xFF, 0x0F]);
        both(cases, "4,294,967,295 in a field", &[with(J, field, 4_294_967_295)], &[most], 0);
    }
    // And the whole number, not its low bits: bay 131,222 = 131,072 + 150, where 131,072 is 8 × 128 × 128 (and 2 ×
    // 65,536); 150 is 96 01 and so 131,222 is 96 81 08. Family 257 = 2 × 128 + 1, 81 02.
    both(cases, "150 in the low 16 bits", &[with(J, 4, 131_222)], &[groups_with(J_GROUPS, 4, &[0x96, 0x81, 0x08])], 0);
    both(cases, "1 in the low 8 bits", &[with(J, 1, 257)], &[groups_with(J_GROUPS, 1, &[0x81, 0x02])], 0);
}

/// Bad rows among good ones, and several: the lowest is named.
fn lowest_row(cases: &mut Cases) {
    // Each as the second of two rows and between good ones: place 1.
    both(cases, "5 in row 1 of 2", &[J, THIN], &[J_GROUPS, THIN_GROUPS], 1);
    both(cases, "3 in row 1 of 3", &[J, PAD, K], &[J_GROUPS, PAD_GROUPS, K_GROUPS], 1);
    both(cases, "5 in row 2 of 3", &[J, K, THIN], &[J_GROUPS, K_GROUPS, THIN_GROUPS], 2);

    // Two bad rows. The columns show row 1's family, out of range, as the second number of the book; row 0's pad is the
    // last but one. The row named is the lowest, 0.
    both(cases, "row 0 at 25, row 1 at 1", &[PAD, FAMILY], &[PAD_GROUPS, FAMILY_GROUPS], 0);
    // Row 1 by 5, which no single column shows; row 2 by 3 in column 1: 1.
    both(cases, "row 1 by 5, row 2 by 3", &[J, THIN, FAMILY], &[J_GROUPS, THIN_GROUPS, FAMILY_GROUPS], 1);
    both(
        cases,
        "row 0 by 4, row 1 by 3",
        &[with(J, 10, 5), FAMILY],
        &[groups_with(J_GROUPS, 10, &[5]), FAMILY_GROUPS],
        0,
    );
    both(cases, "all three", &[PAD, PAD, FAMILY], &[PAD_GROUPS, PAD_GROUPS, FAMILY_GROUPS], 0);
    // The last of 200 rows: place 199. The place is below 200 always.
    let (mut rows, mut groups) = (vec![J; 200], vec![J_GROUPS; 200]);
    (rows[199], groups[199]) = (PAD, PAD_GROUPS);
    cases.write_refused("row 199", rows.as_flattened(), 9000, 11, 199);
    cases.read_refused("row 199", &book(&[0xC8, 0x01], &groups), 5000, 11, 199);
}

/// Rows that are no scaffold's by their first number, and a support's numbers.
fn no_scaffold(cases: &mut Cases) {
    // A row that begins with 3 is a bad row: J's other numbers, as row 0 and as row 1; and 4 (0 is among the rows alone).
    both(cases, "begins with 3", &[THREE], &[THREE_GROUPS], 0);
    both(cases, "row 1 begins with 3", &[J, THREE], &[J_GROUPS, THREE_GROUPS], 1);
    both(cases, "begins with 4", &[with(J, 1, 4)], &[groups_with(J_GROUPS, 1, &[0x04])], 0);
    // A formwork support's 13 numbers, each in its range, and J's last 12: those 13 alone would be a good job file.
    // 3 1 180 0 150 2000 3000 300 1000 1000 4 200 2000: groups as in J, 3 for the first.
    let mut support = J;
    support[..13].copy_from_slice(&[3, 1, 180, 0, 150, 2000, 3000, 300, 1000, 1000, 4, 200, 2000]);
    #[rustfmt::skip]
    let thirteen: [&[u8]; 13] = [
        &[0x03], &[0x01], &[0xB4, 0x01], &[0x00], &[0x96, 0x01], &[0xD0, 0x0F], &[0xB8, 0x17], &[0xAC, 0x02],
        &[0xE8, 0x07], &[0xE8, 0x07], &[0x04], &[0xC8, 0x01], &[0xD0, 0x0F],
    ];
    let mut support_groups = J_GROUPS;
    support_groups[..13].copy_from_slice(&thirteen);
    both(cases, "a support and J's rest", &[support], &[support_groups], 0);
    both(cases, "J, then a support and J's rest", &[J, support], &[J_GROUPS, support_groups], 1);
    // A support alone is no row of 25: behind the count 1 stand 1 + 1 + 2 + 1 + 2 + 2 + 2 + 2 + 2 + 2 + 1 + 2 + 2 = 22
    // bytes, and the 14th number isn't there, at 23.
    let alone = [&[0x01][..], &thirteen.concat()].concat();
    cases.read_refused("a support's 13 numbers", &alone, 25, 9, 23);
    // 13 numbers are no whole row: nothing to write, a book of no rows.
    cases.writes("13 numbers lent", &support[..13], 3, 1, &[0x00]);
}

/// Rows beside those, which are good.
fn good_beside(cases: &mut Cases) {
    // 3, 4 and 5 want no more: J with thickness 180 and make 3 is a double row and good; 180 is B4 01.
    let (good, good_groups) = (with(with(J, 20, 180), 21, 3), groups_with(J_GROUPS, 20, &[0xB4, 0x01]));
    cases.both_ways("a double row on a thin wall", &[good], &book(&[0x01], &[groups_with(good_groups, 21, &[0x03])]));
    // Q equal to q, and as many working as boarded layers: J with Q 3000, working layers 4.
    let equal = groups_with(groups_with(J_GROUPS, 12, &[0xB8, 0x17]), 10, &[0x04]);
    cases.both_ways("4 isn't due where equal", &[with(with(J, 12, 3000), 10, 4)], &book(&[0x01], &[equal]));
}

pub fn all(cases: &mut Cases) {
    one_row(cases);
    every_field(cases);
    lowest_row(cases);
    no_scaffold(cases);
    good_beside(cases);
}
