//! Two ends that are refused: the sheet, ranges in either job, contradictions, walls, the order, and what goes first.

use super::{is_accepted, is_refused, is_refused_under, named};
use crate::inputs::sheets::{Entries, sheet_t, to_bytes};
use crate::marked::{Cases, J};
use crate::paper::job::{Fields, Job};

pub fn cases() -> Cases {
    [sheets(), ranges(), contradictions(), one_field(), two_fields(), soils(), first_of_several()].concat()
}

fn named_by(name: &str, holds: bool) -> (String, bool) {
    (name.to_string(), holds)
}

/// T with another entry.
fn with_entry(k: usize, entry: u16) -> Entries {
    let mut sheet = sheet_t();
    sheet[k] = entry;
    sheet
}

/// 1 with the length in bytes, then 2 with the first damaged entry; both before anything else.
fn sheets() -> Cases {
    let bad = [J.with(1, 0), J.with(2, 0)];
    let lengths = [0, 1, 251, 500, 501, 503, 504, 1_004].map(|length: usize| {
        let mut sheet = to_bytes(&sheet_t());
        sheet.resize(length, 0);
        let holds = [[J, J], bad].iter().all(|pair| is_refused_under(&sheet, pair, 1, length as u64));
        (format!("a sheet of {length} bytes"), holds)
    });
    // Entries 0 and 1 of T are 1,000 and 996, entry 9 is 964, entries 213 to 250 are 150.
    let damages = [(0, 0), (0, 1_001), (2, 997), (10, 965), (100, 0), (249, 151), (250, 151), (250, 116), (250, 0)];
    let damages = damages.map(|(k, entry)| {
        let sheet = to_bytes(&with_entry(k, entry));
        let holds = [[J, J], bad].iter().all(|pair| is_refused_under(&sheet, pair, 2, k as u64));
        (format!("entry {k} at {entry}"), holds)
    });
    let mut short = to_bytes(&with_entry(0, 0));
    short.truncate(501);
    let both = named_by("a short sheet with a damaged entry", is_refused_under(&short, &[J, J], 1, 501));
    [named(lengths), named(damages), named([both])].concat()
}

/// A value outside the range of each field; field 3 also between its values, and of field 1 the number of a support.
const OUTSIDE: [(usize, u32); 28] = [
    (1, 0),
    (1, 3),
    (2, 3),
    (3, 104),
    (3, 131),
    (4, 59),
    (5, 201),
    (6, 4),
    (7, 5_001),
    (8, 0),
    (9, 11),
    (10, 0),
    (11, 10_001),
    (12, 30_001),
    (13, 5_001),
    (14, 49),
    (15, 2_001),
    (16, 99),
    (17, 4),
    (18, 2_001),
    (19, 3),
    (20, 2_001),
    (21, 0),
    (22, 7_999),
    (23, 6),
    (24, 9),
    (25, 10_001),
    (25, 4_294_967_295),
];

/// 3 with the field of the mild job, or 25 higher of the harsh one; the mild job goes first.
fn ranges() -> Cases {
    let case = |(field, value): (usize, u32)| {
        let (bad, place) = (J.with(field, value), field as u64);
        // Pad 99 is outside too, and a lower field of the harsh job is not named for the mild one's.
        let holds = is_refused(&[bad, J], 3, place)
            && is_refused(&[J, bad], 3, 25 + place)
            && is_refused(&[bad, bad], 3, place)
            && is_refused(&[bad, J.with(1, 0)], 3, place)
            && is_refused(&[J.with(25, 99), bad], 3, 25);
        (format!("field {field} at {value} in the mild job, in the harsh one and in both"), holds)
    };
    named(OUTSIDE.map(case))
}

/// 4 and 5 in either job: J has 4 layers boarded, q 3,000, Q 5,000.
fn contradictions() -> Cases {
    let single = J.with(1, 2).with(7, 2_000);
    let faults = [
        ("5 layers worked on", J, J.with(10, 5), 4, 10),
        ("Q below q", J, J.with(12, 2_999), 4, 12),
        ("both of them", J, J.with(10, 5).with(12, 2_999), 4, 10),
        ("a wall of 180 mm", single, single.with(20, 180), 5, 20),
        ("a wall of make 2", single, single.with(21, 2), 5, 21),
        ("a wall of make 3", single, single.with(21, 3), 5, 21),
        ("a wall of 0 mm and make 2", single, single.with(20, 0).with(21, 2), 5, 20),
        ("4 before 5", single, single.with(10, 5).with(20, 0), 4, 10),
    ];
    named(faults.map(|(name, good, bad, number, place)| {
        let holds = is_refused(&[bad, good], number, place)
            && is_refused(&[good, bad], number, 25 + place)
            && is_refused(&[bad, bad], number, place);
        (format!("{name} in the mild job, in the harsh one and in both"), holds)
    }))
}

/// A job of which every field but 20 and 21 can go one step the wrong way.
const M: Job = Fields([
    1, 1, 130, 150, 180, 3, 2000, 3, 4, 2, 3000, 5000, 10, 300, 300, 1000, 1, 400, 1, 240, 1, 8000, 4, 200, 2000,
]);

/// Each field with a value that a harsher job than M cannot have, and that a milder one can, but for the equal ones.
/// A single row of spacing 105 or 130 and height 2,000 stands, and so does a shield of 399 or 400 when half closed.
const WRONG: [(usize, u32); 23] = [
    (1, 2),
    (2, 2),
    (3, 105),
    (4, 149),
    (5, 179),
    (6, 2),
    (7, 1_999),
    (8, 2),
    (9, 3),
    (10, 1),
    (11, 2_999),
    (12, 4_999),
    (13, 9),
    (14, 299),
    (15, 299),
    (16, 999),
    (17, 2),
    (18, 399),
    (19, 2),
    (22, 8_001),
    (23, 5),
    (24, 201),
    (25, 2_001),
];

fn is_equal_only(field: usize) -> bool {
    matches!(field, 1 | 2 | 8 | 17 | 19)
}

/// 12 with the field that is unlike or runs the wrong way; the other way about it is in order, but for the equal ones.
fn one_field() -> Cases {
    named(WRONG.map(|(field, wrong)| {
        let (other, place) = (M.with(field, wrong), field as u64);
        let right = if is_equal_only(field) { is_refused(&[other, M], 12, place) } else { is_accepted(&[other, M]) };
        (format!("field {field} the wrong way, and the other way about"), is_refused(&[M, other], 12, place) && right)
    }))
}

/// 12 with the lower of two fields; where one of the two stands as it has to, with the other.
fn two_fields() -> Cases {
    let two = |at: usize| {
        let (lower, value) = WRONG[at];
        let holds = WRONG[at + 1..].iter().all(|&(higher, other)| {
            let named = if is_equal_only(lower) { lower } else { higher };
            is_refused(&[M, M.with(lower, value).with(higher, other)], 12, lower as u64)
                && is_refused(&[M.with(lower, value), M.with(higher, other)], 12, named as u64)
                && is_refused(&[M.with(higher, other), M.with(lower, value)], 12, lower as u64)
        });
        (format!("field {lower} and each higher one the wrong way, both or one of them"), holds)
    };
    named((0..WRONG.len() - 1).map(two))
}

/// Soil factors 0.4 of soils 1 to 3, 0.5 of 4 and 1.0 of 5: none may be greater in the harsh job.
fn soils() -> Cases {
    let wrong = [(1, 4), (2, 4), (3, 4), (1, 5), (2, 5), (3, 5), (4, 5)];
    named(wrong.map(|(one, other)| {
        (format!("soil {one} and {other}"), is_refused(&[J.with(23, one), J.with(23, other)], 12, 23))
    }))
}

/// The mild job by 3 to 5, then the harsh one by 3 to 5, then the order.
fn first_of_several() -> Cases {
    let single = J.with(1, 2).with(7, 2_000);
    let wrong = J.with(4, 149);
    let cases = [
        ("25 of the mild job before 1 of the harsh", [J.with(25, 99), J.with(1, 0)], 3, 25),
        ("4 of the mild job before 3 of the harsh", [J.with(12, 2_999), J.with(1, 0)], 4, 12),
        ("5 of the mild job before 3 of the harsh", [single.with(21, 2), J.with(1, 0)], 5, 21),
        ("4 of the mild job before 4 of the harsh", [J.with(12, 2_999), J.with(10, 5)], 4, 12),
        ("3 of the harsh job before the order", [J, wrong.with(25, 10_001)], 3, 50),
        ("4 of the harsh job before the order", [J, wrong.with(10, 5)], 4, 35),
        ("4 of the harsh job at 12 before the order", [J, wrong.with(12, 2_999)], 4, 37),
        ("5 of the harsh job before unlike families", [J, single.with(20, 180)], 5, 45),
        ("5 of the harsh job at 21 before unlike families", [J, single.with(21, 2)], 5, 46),
        ("3 of the mild job before the order", [wrong.with(2, 0), J.with(4, 148)], 3, 2),
        ("4 of the mild job before the order", [J.with(10, 5), wrong], 4, 10),
        ("a first number of 3 in the mild job", [J.with(1, 3), J], 3, 1),
        ("a first number of 3 in the harsh job", [J, J.with(1, 3)], 3, 26),
        ("a first number of 3 in both", [J.with(1, 3); 2], 3, 1),
        ("unlike families that both stand", [J.with(7, 2_000), single], 12, 1),
        ("fields 7 and 24 the wrong way", [J, J.with(7, 2_999).with(24, 201)], 12, 7),
        ("J on strength 200 and 201", [J, J.with(24, 201)], 12, 24),
    ];
    named(cases.map(|(name, pair, number, place)| named_by(name, is_refused(&pair, number, place))))
}
