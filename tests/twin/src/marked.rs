//! The paper's own marked cases, tried on the twin and on the library.

use crate::call::Call;
use crate::compare::{LIBRARY, TWIN, both};
use crate::inputs::columns::{ABOVE, ENDS, INSIDE, JUST_BELOW, UP_TO, WHOLE, tenths};
use crate::inputs::exact::{self, Atlas};
use crate::inputs::files::whole;
use crate::inputs::sheets::{sheet_t, to_bytes};
use crate::inputs::tuned::{AIMS, Aim};
use crate::paper::file::groups;
use crate::paper::fraction::d;
use crate::paper::job::{Fields, Job};
use crate::paper::sheet::Sheet;
use crate::{marked_between, marked_books, marked_cells, marked_first_failing};
use crate::{marked_heights, marked_shields, marked_supports};
use std::collections::BTreeMap;

/// Job J.
pub const J: Job = Fields([
    1, 1, 105, 150, 180, 2, 3000, 3, 4, 2, 3000, 5000, 0, 300, 300, 1000, 1, 200, 1, 240, 1, 8000, 4, 200, 2000,
]);

const REPORT_OF_J: &str = "1 1 477521\n2 1 1584\n3 1 571785\n4 1 2777\n5 1 4160\n6 1 171\n7 1 20093\n8 0 19030\n\
9 1 5953\n10 1 20093\n11 2 20093\n12 1 3173\nheight 3277 3173\nwind 42 24291\ncolumn 1974\n";

/// The marked cases that fail, by name, and the number of cases.
pub fn failing() -> (Vec<String>, usize) {
    let scaffolds = [judged(), columns(), lines(), walls_and_sheets(), files(), long_sheet(), searches()].concat();
    let others = [marked_heights::cases(), marked_supports::cases(), marked_books::cases(), marked_between::cases()];
    let later = [marked_cells::cases(), marked_shields::cases(), marked_first_failing::cases()];
    let cases = [scaffolds, others.concat(), later.concat()].concat();
    let failing = cases.iter().filter(|(_, holds)| !holds).map(|(name, _)| name.clone()).collect();
    (failing, cases.len())
}

pub type Cases = Vec<(String, bool)>;

pub fn case(name: &str, holds: bool) -> (String, bool) {
    (name.to_string(), holds)
}

/// The answer of both sides: the report, or refusal and place; none where they differ.
pub fn judge<const N: usize>(sheet: &[u16; 251], job: &Fields<N>) -> Option<Result<String, (u64, u64)>> {
    let call = Call::Verdict { sheet: to_bytes(sheet), file: whole(job), report: 200, fill: 1 };
    let (library, twin) = both(&call);
    let answer = match library.refusal() {
        0 => Ok(String::from_utf8_lossy(library.bytes()).into_owned()),
        refusal => Err((refusal, library.place())),
    };
    (library == twin).then_some(answer)
}

pub fn has_line<const N: usize>(job: &Fields<N>, start: &str) -> bool {
    let begins = |line: &str| line.starts_with(start);
    matches!(judge(&sheet_t(), job), Some(Ok(report)) if report.split_inclusive('\n').any(begins))
}

fn judged() -> Cases {
    let slender = J.with(3, 155).with(6, 3);
    vec![
        case("J's report", judge(&sheet_t(), &J) == Some(Ok(REPORT_OF_J.to_string()))),
        case("J with strength 201 passes 11", has_line(&J.with(24, 201), "11 1 ")),
        case("J at 3,277 passes 7", has_line(&J.with(7, 3277), "7 1 ")),
        case("J at 3,278 fails 7", has_line(&J.with(7, 3278), "7 2 ")),
        case("spacing 155, t = 3, step 184 passes 6", has_line(&slender.with(5, 184), "6 1 ")),
        case("spacing 155, t = 3, step 185 fails 6", has_line(&slender.with(5, 185), "6 2 ")),
        case("J with wind 350 has 8 not due", has_line(&J.with(15, 350), "8 0 ")),
        case("J with wind 351 has 8 due", has_line(&J.with(15, 351), "8 1 ") || has_line(&J.with(15, 351), "8 2 ")),
    ]
}

fn columns() -> Cases {
    let slender = J.with(3, 130).with(6, 3);
    let column = |job: Job, tenths: u32| has_line(&job, &format!("column {tenths}\n"));
    vec![
        case("249.46 goes up to a tenth", column(slender.with(5, 195), 2495)),
        case("250.74 goes up to a whole number", column(slender.with(5, 196), 2510)),
        case("250.01 goes up to a whole number", column(J.with(3, 155).with(6, 3).with(5, 190), 2510)),
        case("231 stays as it is", column(J.with(2, 2).with(6, 3).with(5, 200), 2310)),
        case("line 6 stays in whole numbers", has_line(&slender.with(5, 195), "6 2 216\n")),
    ]
}

// The line tried on the twin alone; 250.0 is met by supports only, whose marked cases are in a file of their own.
fn lines() -> Cases {
    let mut entries = sheet_t();
    entries[248..].copy_from_slice(&[150, 140, 117]);
    let sheet = Sheet(entries);
    vec![
        case("φ at 197.4 under T is 0.2104", Sheet(sheet_t()).stability_factor(d!(197.4)) == d!(0.2104)),
        case("φ at 249.0 is entry 249", sheet.stability_factor(d!(249.0)) == d!(0.140)),
        case("φ at 249.1 lies on the line", sheet.stability_factor(d!(249.1)) == d!(0.1377)),
        case("φ at 249.9 lies on the line", sheet.stability_factor(d!(249.9)) == d!(0.1193)),
        case("φ at 250.0 is entry 250", sheet.stability_factor(d!(250.0)) == d!(0.117)),
        case("φ at 251 is below every entry 250", sheet.stability_factor(d!(251)) < d!(0.117)),
        case("a finer reading could exceed entry 250", d!(7320) / (d!(250.1) * d!(250.1)) > d!(0.117)),
    ]
}

fn walls_and_sheets() -> Cases {
    let single = J.with(1, 2).with(7, 2000);
    let with_last = |entry| {
        let mut sheet = sheet_t();
        sheet[250] = entry;
        sheet
    };
    vec![
        case("entry 250 at 117 stands", matches!(judge(&with_last(117), &J), Some(Ok(_)))),
        case("entry 250 at 116 is refused 2 at 250", judge(&with_last(116), &J) == Some(Err((2, 250)))),
        case("single row, thickness 181 stands", matches!(judge(&sheet_t(), &single.with(20, 181)), Some(Ok(_)))),
        case("single row, thickness 180 is refused 5", judge(&sheet_t(), &single.with(20, 180)) == Some(Err((5, 20)))),
    ]
}

fn files() -> Cases {
    let (library, twin) = both(&Call::Write { numbers: J.with(13, 127).0, file: 60, fill: 2 });
    let (longer, longer_twin) = both(&Call::Write { numbers: J.with(13, 128).0, file: 60, fill: 2 });
    let (overlong, overlong_twin) = both(&Call::Read { file: vec![0x80, 0x00], fill: 3 });
    let at: usize = J.0[..12].iter().map(|&number| groups(number).len()).sum();
    vec![
        case("127 is 7F", library == twin && library.bytes()[at] == 0x7F),
        case("128 is 80 01", longer == longer_twin && longer.bytes()[at..at + 2] == [0x80, 0x01]),
        case("80 00 is refused 6", overlong == overlong_twin && overlong.returned == 6 << 32),
    ]
}

/// What exhaustive searches find: the cells of the coverage table that cannot exist.
fn searches() -> Cases {
    let atlas = exact::search();
    let equal = |turn: &u64| !atlas.exact[*turn as usize].is_empty();
    let aims: Vec<(usize, u32)> = (0..AIMS).filter(equal).map(Aim::number).map(|aim| (aim.check, aim.family)).collect();
    let mut cases = vec![
        case(
            "of checks 1 to 5 only 1, in single rows, is ever exactly at its limit unrounded",
            aims == [(1, 2), (1, 2)],
        ),
        case("no column is exactly at the limit of check 6", !exact::check_6_has_equality()),
        case("no face of a tie is exactly 30 m²", !exact::face_has_equality()),
    ];
    cases.extend(column_searches(&atlas));
    cases
}

/// What exhaustive searches find about the columns: how near they come to 250, to entries and to one another.
fn column_searches(atlas: &Atlas) -> Cases {
    let nearest = |side: u32| -> Vec<(u32, u32, u32)> {
        let beside = atlas.joint.iter().filter(|(key, _)| key[2] == side);
        beside.map(|(key, columns)| (key[0], key[1], tenths(columns[0]))).collect()
    };
    let mut wholes = atlas.featured.iter().filter(|(key, _)| key[2] == WHOLE).flat_map(|(_, columns)| columns);
    vec![
        case(
            "the greatest slenderness up to 250",
            nearest(UP_TO) == [(1, 1, 2495), (1, 2, 2446), (2, 1, 2487), (2, 2, 2487)],
        ),
        case("the least slenderness above 250", nearest(ABOVE) == [(1, 1, 2510), (2, 1, 2510), (2, 2, 2510)]),
        case("no column is above 249.9 and up to 250", having(&atlas.featured, JUST_BELOW).is_empty()),
        case(
            "every last digit in each family and tube",
            (0..10).all(|digit| having(&atlas.featured, digit).len() == 4),
        ),
        case(
            "no double row of tube 1 is whole before rounding",
            having(&atlas.featured, WHOLE) == [(1, 2), (2, 1), (2, 2)],
        ),
        case("231 alone is whole before rounding", wholes.all(|&column| tenths(column) == 2310)),
        case(
            "no two columns that demand 3 orders are unlike inside an interval",
            having(&atlas.pairs, INSIDE).is_empty(),
        ),
        case("columns at an entry and the next only in double rows of tube 2", having(&atlas.pairs, ENDS) == [(1, 2)]),
    ]
}

/// The families and tubes in which the searches found something.
pub fn having<T>(found: &BTreeMap<[u32; 3], T>, something: u32) -> Vec<(u32, u32)> {
    found.keys().filter(|key| key[2] == something).map(|key| (key[0], key[1])).collect()
}

fn long_sheet() -> Cases {
    let returned = with_zeros((1 << 32) + 2, |sheet| {
        [LIBRARY, TWIN].map(|side| {
            let on_ends = (side.between)(sheet, &J.0, &J.0, &mut [0; 14]);
            [(side.verdict)(sheet, &[], &mut []), on_ends, (side.first_failing)(sheet, &[], &mut [0; 2])]
        })
    });
    let wanted = [[(1 << 32) + 4_294_967_295; 3]; 2];
    returned
        .map(|returned| case("a place above 4,294,967,295 is given as that", returned == wanted))
        .into_iter()
        .collect()
}

/// What comes of lending so many zero bytes, none where they are not to be had. Pages never touched cost no memory.
pub fn with_zeros<T>(length: usize, tried: impl Fn(&[u8]) -> T) -> Option<T> {
    let layout = std::alloc::Layout::from_size_align(length, 1).expect("a length below half the address space");
    let start = unsafe { std::alloc::alloc_zeroed(layout) };
    if start.is_null() {
        println!("{length} bytes could not be lent here; their refusal was not tried");
        return None;
    }
    let told = tried(unsafe { std::slice::from_raw_parts(start, length) });
    unsafe { std::alloc::dealloc(start, layout) };
    Some(told)
}
