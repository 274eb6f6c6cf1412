//! The ranges of field 18 through every call that takes a scaffold job's numbers.

use super::{answered, half_closed, named};
use crate::call::Call;
use crate::inputs::books;
use crate::inputs::files::whole;
use crate::inputs::sheets::{sheet_t, to_bytes};
use crate::marked::{Cases, J, judge};
use crate::paper::job::Job;

pub fn cases() -> Cases {
    [each(), lowest()].concat()
}

/// Enclosure, shield, and the field that 3 names, 0 where both stand. Request 8/14 moved enclosure 2 below 300.
const SHIELDS: [(u32, u32, u64); 42] = [
    (2, 0, 18),
    (2, 1, 0),
    (2, 2, 0),
    (2, 127, 0),
    (2, 128, 0),
    (2, 200, 0),
    (2, 255, 0),
    (2, 256, 0),
    (2, 298, 0),
    (2, 299, 0),
    (2, 300, 0),
    (2, 301, 0),
    (2, 699, 0),
    (2, 700, 0),
    (2, 701, 18),
    (2, 1_000, 18),
    (2, 2_000, 18),
    // 65,536 more than 1, which stands.
    (2, 65_537, 18),
    (2, 4_294_967_295, 18),
    (3, 0, 18),
    (3, 1, 0),
    (3, 299, 0),
    (3, 300, 0),
    (3, 700, 0),
    (3, 701, 0),
    (3, 1_000, 0),
    (3, 1_001, 18),
    (1, 0, 18),
    (1, 1, 0),
    (1, 299, 0),
    (1, 300, 0),
    (1, 701, 0),
    (1, 1_001, 0),
    (1, 2_000, 0),
    (1, 2_001, 18),
    (4, 200, 17),
    (4, 300, 17),
    (4, 0, 17),
    (4, 2_001, 17),
    (0, 1, 17),
    (0, 200, 17),
    (4_294_967_295, 299, 17),
];

/// J with another enclosure and shield, as a double row and as a single one.
fn jobs(enclosure: u32, shield: u32) -> [Job; 2] {
    let job = J.with(17, enclosure).with(18, shield);
    [job, job.with(1, 2).with(7, 2_000)]
}

/// A call that takes a job's numbers, and what it returns of a job that stands and of one that 3 refuses at a field.
type Asked = (&'static str, Call, u64, fn(u64) -> u64);

const REFUSED: fn(u64) -> u64 = |field| (3 << 32) + field;
const REFUSED_AT_HARSH: fn(u64) -> u64 = |field| (3 << 32) + 25 + field;
const BAD_ROW_1: fn(u64) -> u64 = |_| (11 << 32) + 1;

/// The calls on one job's numbers and on its file; a file's length is its groups'.
fn on_one(job: &Job) -> [Asked; 3] {
    let (file, numbers, fill) = (whole(job), job.0, 6);
    let length = file.len() as u64;
    [
        ("written", Call::Write { numbers, file: 60, fill }, length, REFUSED),
        ("written into no bytes", Call::Write { numbers, file: 0, fill }, (8 << 32) + length, REFUSED),
        ("read", Call::Read { file, fill }, 25, REFUSED),
    ]
}

/// The calls on a book of J and the job, and on two ends, the milder of which has shield 1.
fn on_two(job: &Job) -> [Asked; 4] {
    let (rows, sheet, fill) = ([J, *job], to_bytes(&sheet_t()), 6);
    let (numbers, book) = (books::in_rows(&rows), books::whole(&rows));
    let length = book.len() as u64;
    let known = (1..=3).contains(&job.field(17));
    let mild = job.with(17, if known { job.field(17) } else { 2 }).with(18, 1);
    let both = Call::Between { sheet: sheet.clone(), mild: job.0, harsh: job.0, fill };
    let harsh = Call::Between { sheet, mild: mild.0, harsh: job.0, fill };
    [
        ("in a book written", Call::WriteBook { numbers, book: 90, fill }, length, BAD_ROW_1),
        ("in a book read", Call::ReadBook { book, numbers: 50, fill }, 2, BAD_ROW_1),
        ("at both ends", both, 14, REFUSED),
        ("at the harsh end", harsh, 14, REFUSED_AT_HARSH),
    ]
}

fn is_judged(job: &Job, field: u64) -> bool {
    match judge(&sheet_t(), job) {
        Some(Ok(_)) => field == 0,
        told => told == Some(Err((3, field))),
    }
}

/// Each shield through each call; of a double and of a single row.
fn each() -> Cases {
    let cases = SHIELDS.into_iter().flat_map(|(enclosure, shield, field)| {
        let jobs = jobs(enclosure, shield);
        let name = move |call: &str| format!("enclosure {enclosure}, shield {shield}, {call}");
        let judged = (name("judged"), jobs.iter().all(|job| is_judged(job, field)));
        let [double, single] = jobs.map(|job| on_one(&job).into_iter().chain(on_two(&job)));
        let holds = move |(_, call, stands, refused): &Asked| {
            let wanted = if field == 0 { *stands } else { refused(field) };
            answered(call).is_some_and(|answer| answer.returned == wanted)
        };
        let others = double.zip(single).map(move |pair| (name(pair.0.0), holds(&pair.0) && holds(&pair.1)));
        std::iter::once(judged).chain(others)
    });
    named(cases)
}

/// What goes before 3 at 18 and behind it; a shield that stands leaves 4 and 5 to be named.
fn lowest() -> Cases {
    let (double, single) = (J.with(17, 2), J.with(1, 2).with(7, 2_000).with(17, 2));
    let told = [
        ("16 before 18", double.with(18, 0).with(16, 99), (3, 16)),
        ("17 before 18", double.with(18, 0).with(17, 4), (3, 17)),
        ("18 before 19", double.with(18, 0).with(19, 3), (3, 18)),
        ("18 before 4", double.with(18, 0).with(10, 5), (3, 18)),
        ("18 before 5", single.with(18, 701).with(20, 180), (3, 18)),
        ("4 at 10 behind shield 1", double.with(18, 1).with(10, 5), (4, 10)),
        ("4 at 12 behind shield 299", double.with(18, 299).with(12, 2_999), (4, 12)),
        ("5 at 20 behind shield 299", single.with(18, 299).with(20, 180), (5, 20)),
        ("5 at 21 behind shield 1", single.with(18, 1).with(21, 2), (5, 21)),
    ];
    let told = told.map(|(name, job, refusal)| (name.to_string(), judge(&sheet_t(), &job) == Some(Err(refusal))));
    [named(told), before_the_job()].concat()
}

/// 1, 2, 6 and 7 go before 3 at 18, and 8 behind a shield that stands.
fn before_the_job() -> Cases {
    let returned = |sheet: Vec<u8>, file: Vec<u8>, report: usize| {
        answered(&Call::Verdict { sheet, file, report, fill: 7 }).map(|answer| (answer.refusal(), answer.place()))
    };
    let (sheet, bad) = (to_bytes(&sheet_t()), whole(&J.with(17, 2).with(18, 0)));
    // J has 38 bytes, and one less with a shield of one byte; the pad begins at 35. The lines of the report of shield
    // 299 have 11, 9, 11, 9, 9, 8, 10, 10, 9, 11, 11, 10, 17, 16 and 12 bytes.
    let (cut, longer) = (bad[..36].to_vec(), [&bad[..], &[0]].concat());
    named([
        ("1 before 3 at 18".to_string(), returned(sheet[1..].to_vec(), bad.clone(), 178) == Some((1, 501))),
        ("2 before 3 at 18".to_string(), returned(vec![0; 502], bad, 178) == Some((2, 0))),
        ("6 before 3 at 18".to_string(), returned(sheet.clone(), cut, 178) == Some((6, 35))),
        ("7 before 3 at 18".to_string(), returned(sheet.clone(), longer, 178) == Some((7, 37))),
        ("8 behind shield 299".to_string(), returned(sheet, whole(&half_closed(299)), 0) == Some((8, 163))),
    ])
}
