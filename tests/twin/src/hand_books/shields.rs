//! Half closed rows of less than 300, request 8/14: alone, side by side in their column, and beside bad ones.

use super::bad_rows::both;
use super::rows::*;
use super::trying::Cases;

/// J half closed with a shield.
const fn half_closed(shield: u32) -> [u32; 25] {
    with(with(J, 17, 2), 18, shield)
}

/// Its groups with those of the shield: 36 bytes beside it.
const fn groups_of<'a>(shield: &'a [u8]) -> [&'a [u8]; 25] {
    groups_with(groups_with(J_GROUPS, 17, &[0x02]), 18, shield)
}

const ONE: &[u8] = &[0x01];
/// 299 = 2 × 128 + 43; 43 = 2B, AB.
const BELOW: &[u8] = &[0xAB, 0x02];
/// 300 = 2 × 128 + 44, AC.
const FROM: &[u8] = &[0xAC, 0x02];
/// 700 = 5 × 128 + 60; 60 = 3C, BC. 701 is BD 05.
const MOST: &[u8] = &[0xBC, 0x05];
const BEYOND: &[u8] = &[0xBD, 0x05];

/// One row: 1 + 36 bytes and the shield's, which are one up to 127 and two from 128 on.
fn alone(cases: &mut Cases) {
    for (shield, groups, length) in [
        (1, ONE, 38),
        (127, &[0x7F], 38),
        (128, &[0x80, 0x01], 39),
        (298, &[0xAA, 0x02], 39),
        (299, BELOW, 39),
        (300, FROM, 39),
        (700, MOST, 39),
    ] {
        let (row, book) = ([half_closed(shield)], book(&[0x01], &[groups_of(groups)]));
        let name = format!("half closed by {shield}");
        cases.tried(&format!("{name} by hand"), (book.len() != length).then(|| format!("{} bytes", book.len())));
        cases.both_ways(&name, &row, &book);
        cases.write_refused(&format!("{name} into too few bytes"), row.as_flattened(), length - 1, 8, length as u64);
        cases.read_refused(&format!("{name} into too few numbers"), &book, 24, 8, 1);
    }
    // K is a single row, half closed before a pierced wall.
    cases.both_ways("K with 299", &[with(K, 18, 299)], &book(&[0x01], &[groups_with(K_GROUPS, 18, BELOW)]));
    cases.both_ways("K with 1", &[with(K, 18, 1)], &book(&[0x01], &[groups_with(K_GROUPS, 18, ONE)]));
}

/// Shields 1, 299, 300 and J's 200 one after another: 01 AB 02 AC 02 C8 01 in column 18.
fn side_by_side(cases: &mut Cases) {
    let rows = [half_closed(1), half_closed(299), half_closed(300), J];
    let all = book(&[0x04], &[groups_of(ONE), groups_of(BELOW), groups_of(FROM), J_GROUPS]);
    cases.both_ways("1, 299, 300 and J", &rows, &all);
    // Behind the count and 17 columns: 1 + 4 × 25, as J's field 18 stands at 26 in a book of one row.
    let column = [0x01, 0xAB, 0x02, 0xAC, 0x02, 0xC8, 0x01];
    cases.tried("their column", (all[101..108] != column).then(|| format!("{:02X?}", &all[101..108])));
    cases.both_ways("J, 299 and K", &[J, half_closed(299), K], &book(&[0x03], &[J_GROUPS, groups_of(BELOW), K_GROUPS]));
    let (rows, groups) = (vec![half_closed(1); 200], vec![groups_of(ONE); 200]);
    // 2 + 200 × 37 = 7,402.
    let all = book(&[0xC8, 0x01], &groups);
    cases.tried("200 rows by hand", (all.len() != 7_402).then(|| format!("{} bytes", all.len())));
    cases.both_ways("200 rows half closed by 1", &rows, &all);
}

/// 11 with the row of 0 or of 701; rows of less than 300 are not named.
fn bad(cases: &mut Cases) {
    let good = [(half_closed(1), groups_of(ONE)), (half_closed(299), groups_of(BELOW))];
    for (shield, groups) in [(0, &[0x00][..]), (701, BEYOND), (1_000, &[0xE8, 0x07])] {
        for place in 0..3 {
            let mut all = good.to_vec();
            all.insert(place, (half_closed(shield), groups_of(groups)));
            let (rows, groups): (Vec<[u32; 25]>, Vec<[&[u8]; 25]>) = all.into_iter().unzip();
            both(cases, &format!("half closed by {shield} in row {place}"), &rows, &groups, place as u64);
        }
    }
    // 701 and 0 in rows 1 and 2; the room ends before them.
    let rows = [half_closed(299), half_closed(701), half_closed(0)];
    let groups = [groups_of(BELOW), groups_of(BEYOND), groups_of(&[0x00])];
    both(cases, "299, 701 and 0", &rows, &groups, 1);
    cases.read_refused("299, 701 and 0 into one row", &book(&[0x03], &groups), 25, 11, 1);
    // Bad in another way behind shields of less than 300: pad 99 = 63, five working layers on four, an enclosure of 4.
    let bad_pad = (with(half_closed(299), 25, 99), groups_with(groups_of(BELOW), 25, &[0x63]));
    both(cases, "1, and 299 with pad 99", &[half_closed(1), bad_pad.0], &[groups_of(ONE), bad_pad.1], 1);
    let layers = (with(half_closed(1), 10, 5), groups_with(groups_of(ONE), 10, &[0x05]));
    both(cases, "299, and 1 by 4", &[half_closed(299), layers.0], &[groups_of(BELOW), layers.1], 1);
    let unknown = (with(half_closed(299), 17, 4), groups_with(groups_of(BELOW), 17, &[0x04]));
    both(cases, "1, and enclosure 4", &[half_closed(1), unknown.0], &[groups_of(ONE), unknown.1], 1);
}

/// The other two enclosures stay as they were.
fn beside(cases: &mut Cases) {
    let of = |enclosure: u32, shield: u32| with(with(J, 17, enclosure), 18, shield);
    let groups_of =
        |enclosure: &'static [u8], shield: &'static [u8]| groups_with(groups_with(J_GROUPS, 17, enclosure), 18, shield);
    // 1,000 = 7 × 128 + 104, E8 07; 1,001 is E9 07. 2,000 = 15 × 128 + 80, D0 0F; 2,001 is D1 0F.
    let rows = [of(3, 701), of(3, 1_000), of(1, 701), of(1, 2_000)];
    let groups = [
        groups_of(&[0x03], BEYOND),
        groups_of(&[0x03], &[0xE8, 0x07]),
        groups_of(&[0x01], BEYOND),
        groups_of(&[0x01], &[0xD0, 0x0F]),
    ];
    cases.both_ways("fully closed and open beyond 700", &rows, &book(&[0x04], &groups));
    both(cases, "fully closed by 1,001", &[of(3, 1_001)], &[groups_of(&[0x03], &[0xE9, 0x07])], 0);
    both(cases, "open by 2,001", &[of(1, 2_001)], &[groups_of(&[0x01], &[0xD1, 0x0F])], 0);
    both(cases, "fully closed by 0", &[of(3, 0)], &[groups_of(&[0x03], &[0x00])], 0);
    both(cases, "open by 0", &[of(1, 0)], &[groups_of(&[0x01], &[0x00])], 0);
}

pub fn all(cases: &mut Cases) {
    alone(cases);
    side_by_side(cases);
    bad(cases);
    beside(cases);
}
