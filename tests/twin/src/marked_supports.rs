//! Marked cases of supports, worked out by hand from clause 5.6 as request 2/14 restates it, and searches of columns.

use crate::call::Call;
use crate::compare::{Answer, both};
use crate::inputs::any_job::AnyJob;
use crate::inputs::columns::{ABOVE, ENDS, INSIDE, JUST_BELOW, TENTH, UP_TO, WHOLE};
use crate::inputs::files::whole;
use crate::inputs::sheets::sheet_t;
use crate::inputs::support_columns;
use crate::marked::{Cases, J, case, has_line, having, judge};
use crate::paper::file::groups;
use crate::paper::job::Fields;
use crate::paper::support::{self, Support};

pub fn cases() -> Cases {
    [judged(), calls(), searches()].concat()
}

/// Tube 1, step 150, overhang 31, bay 120: passes all.
/// N = 1.2 × 12,000 + 1.4 × 3,000 = 18,600; Nw = 14,400 + 1.19 × 3,000 = 17,970.
/// wk = 0.7 × 1.0 × 0.8 × 300 = 168; Mw = 1.19 × 168 × 1.2 × 1.5² / 10 = 53.9784 N·m, so 53,979 N·mm.
/// (1,500 + 2 × 310) / 15.8 = 134.18, so 134.2, and φ under T = (464 × 8 + 460 × 2) / 10,000 = 0.4632.
/// 7: 18,600 to 0.4632 × 489 × 205 = 46,433.5. 8: 17,970 / 226.5048 + 53,979 / 5,080 = 79.3 + 10.6 to 205.
/// 11: clay, 0.5 × 200,000 × 0.25 = 25,000.
const PASSES_ALL: Support = Fields([3, 1, 150, 31, 120, 12_000, 3_000, 300, 1_000, 800, 4, 200, 2_500]);

/// Tube 2, step 180, overhang 41, bay 150: fails 8 alone.
/// N = 18,000 + 7,000 = 25,000; Nw = 18,000 + 5,950 = 23,950.
/// wk = 0.7 × 1.5 × 1.3 × 1,000 = 1,365; Mw = 1.19 × 1,365 × 1.5 × 1.8² / 10 = 789.4341 N·m, so 789,435 N·mm.
/// (1,800 + 2 × 410) / 17.0 = 154.12, so 154.2, and φ under T = (384 × 8 + 380 × 2) / 10,000 = 0.3832.
/// 7: 25,000 to 0.3832 × 452 × 205 = 35,507.3. 8: 23,950 / 173.2064 + 789,435 / 5,130 = 138.3 + 153.9 to 205.
/// 11: rock, 1.0 × 500,000 × 0.1 = 50,000.
const FAILS_8: Support = Fields([3, 2, 180, 41, 150, 15_000, 5_000, 1_000, 1_500, 1_300, 5, 500, 1_000]);

/// Tube 1, step 200, overhang 100, no wind: above 250.
/// N = 6,000 + 4,200 = 10,200; Nw = 6,000 + 3,570 = 9,570; wk and Mw are 0.
/// (2,000 + 2 × 1,000) / 15.8 = 253.2, so 254, and φ = 7,320 / 254² = 0.11346.
/// 7: 10,200 to 0.11346 × 489 × 205 = 11,373.8. 8, due all the same: 9,570 / 55.48 = 172.5 to 205.
/// 11: gravel, 0.4 × 100,000 × 0.3 = 12,000.
const ABOVE_250: Support = Fields([3, 1, 200, 100, 90, 5_000, 3_000, 0, 1_000, 1_000, 1, 100, 3_000]);

/// Tube 1, step 195, overhang 100: (1,950 + 2 × 1,000) / 15.8 is 250 exactly, and φ under T is entry 250, 0.150.
/// φAf = 0.150 × 489 × 205 = 15,036.75; 1.2 × 12,530 = 15,036 is within it, 1.2 × 12,531 = 15,037.2 is not.
/// By 7,320 / 250² = 0.11712 the pole would bear 11,740.7.
const AT_250: Support = Fields([3, 1, 195, 100, 90, 12_530, 0, 0, 1_000, 1_000, 5, 500, 1_000]);

/// The report of a support, from its lines 7, 8, 10 and 11 and the last two; check 12 shows 0 as 1 to 6 and 9 do.
fn report([seven, eight, ten, eleven, wind, column]: [&str; 6]) -> Option<Result<String, (u64, u64)>> {
    let none = "1 0 0\n2 0 0\n3 0 0\n4 0 0\n5 0 0\n6 0 0\n";
    let due = format!("7 {seven}\n8 {eight}\n9 0 0\n10 {ten}\n11 {eleven}\n12 0 0\n");
    Some(Ok(format!("{none}{due}wind {wind}\ncolumn {column}\n")))
}

fn judged() -> Cases {
    let [passes, fails, above, at, beyond] =
        [PASSES_ALL, FAILS_8, ABOVE_250, AT_250, AT_250.with(6, 12_531)].map(|support| judge(&sheet_t(), &support));
    let passing = ["1 18600", "1 17970", "1 18600", "1 18600", "168 53979", "1342"];
    let failing = ["1 25000", "2 23950", "1 25000", "1 25000", "1365 789435", "1542"];
    let slender = ["1 10200", "1 9570", "1 10200", "1 10200", "0 0", "2540"];
    vec![
        case("a support that passes all", passes == report(passing)),
        case("a support that fails 8 alone", fails == report(failing)),
        case("a support above 250", above == report(slender)),
        case(
            "a support at 250 is read at entry 250",
            at == report(["1 15036", "1 15036", "1 15036", "1 15036", "0 0", "2500"]),
        ),
        case(
            "one newton of dead load more fails 7 and 8",
            beyond == report(["2 15038", "2 15038", "1 15038", "1 15038", "0 0", "2500"]),
        ),
        case("step 196 is above 250", has_line(&AT_250.with(3, 196), "column 2510\n")),
        case("overhang 99 is below 250", has_line(&AT_250.with(4, 99), "column 2488\n")),
    ]
}

/// Files and numbers of supports through the calls, with the place of each refusal.
fn calls() -> Cases {
    let read = |file: Vec<u8>| {
        let (library, twin) = both(&Call::Read { file, fill: 4 });
        (library == twin).then_some(library)
    };
    let returned = |file: Vec<u8>| read(file).map(|answer| (answer.refusal(), answer.place()));
    let write = |call: &Call| {
        let (library, twin) = both(call);
        (library == twin).then_some((library.refusal(), library.place()))
    };
    let (file, twenty_five) = (whole(&PASSES_ALL), whole(&J.with(1, 3)));
    let begins: usize = J.0[..13].iter().map(|&number| groups(number).len()).sum();
    let after_13 = |answer: Option<Answer>| answer.map(|answer| answer.lent()[52..].to_vec());
    vec![
        case("reading a support gives 13", returned(file.clone()) == Some((0, 13))),
        case("the other 12 numbers stay as they were", after_13(read(file.clone())) == after_13(read(Vec::new()))),
        case("25 numbers after a 3 are refused 7 behind the 13th", returned(twenty_five) == Some((7, begins as u64))),
        case(
            "13 numbers after a 4 are refused 6",
            returned(whole(&PASSES_ALL.with(1, 4))) == Some((6, file.len() as u64)),
        ),
        case("25 numbers after a 4 are refused 3 at 1", returned(whole(&J.with(1, 4))) == Some((3, 1))),
        case("overhang 101 is refused 3 at 4", returned(whole(&PASSES_ALL.with(4, 101))) == Some((3, 4))),
        case("a support is written", write(&PASSES_ALL.write(30, 5)) == Some((0, file.len() as u64))),
        case("first number 1 is refused in writing", write(&PASSES_ALL.with(1, 1).write(30, 5)) == Some((3, 1))),
        case("first number 3 is no scaffold job's", write(&J.with(1, 3).write(60, 5)) == Some((3, 1))),
    ]
}

/// What exhaustive searches find about the columns of supports.
fn searches() -> Cases {
    let found = support_columns::search();
    let tenths = |column: support_columns::Column| support::tenths(&support_columns::support_of(column));
    let nearest = |side: u32| -> Vec<(u32, i128)> {
        let beside = found.joint.iter().filter(|(key, _)| key[2] == side);
        beside.map(|(key, columns)| (key[1], tenths(columns[0]))).collect()
    };
    vec![
        case("supports: the greatest slenderness up to 250", nearest(UP_TO) == [(1, 2500), (2, 2353)]),
        case("supports: the least slenderness above 250", nearest(ABOVE) == [(1, 2510)]),
        case(
            "supports: 250 alone is above 249.9 and up to 250",
            found.featured[&[3, 1, JUST_BELOW]].iter().all(|&column| tenths(column) == 2500),
        ),
        case("supports: every last digit in each tube", (0..10).all(|digit| having(&found.featured, digit).len() == 2)),
        case("supports: whole before rounding in each tube", having(&found.featured, WHOLE) == [(3, 1), (3, 2)]),
        case("supports: a whole tenth is a whole number", having(&found.featured, TENTH).is_empty()),
        case("supports: unlike inside an interval in each tube", having(&found.pairs, INSIDE) == [(3, 1), (3, 2)]),
        case("supports: never at an entry and the next", having(&found.pairs, ENDS).is_empty()),
    ]
}
