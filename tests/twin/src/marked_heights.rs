//! Marked cases of the permitted height and check 12, worked out by hand from 5.3.7 as request 5/14 has it.

use crate::inputs::sheets::sheet_t;
use crate::marked::{Cases, J, case, has_line, judge};
use crate::paper::heights::permitted;
use crate::paper::job::{Job, range};

pub fn cases() -> Cases {
    [permitted_heights(), reported_heights(), own_heights(), without_height(), strengthened()].concat()
}

/// J with nets S; under T, Z is 197.4 and φ 0.2104, so that N may be 0.2104 × 489 × 205 = 21,091.548.
/// G2 = 4 × 350 × 1.5 × 1.35 / 2 + 2 × 140 × 1.5 = 1,837.5, L = 5,000 × 1.5 × 1.35 / 2 = 5,062.5.
/// N = 1.2 × 1,837.5 + 1.4 × 5,062.5 + 1.2 S + 1.2 × 300 H = 9,292.5 + 1.2 (S + 3 H in cm): S + 3 H is at most 9,832.
fn double(nets: u32) -> Job {
    J.with(13, nets)
}

/// J with structure 100: S + H in cm is at most 9,832.
fn light(nets: u32) -> Job {
    J.with(14, 100).with(13, nets)
}

/// J as a single row of structure 200, at most 2,400 high.
/// 1.155 × 1.8 × 1,800 / 15.8 = 236.85, so 236.9, and φ under T = 0.150: N may be 0.150 × 489 × 205 = 15,036.75.
/// b = 1.05: G2 = 4 × 350 × 1.5 × 1.05 / 2 + 2 × 140 × 1.5 = 1,522.5, L = 5,000 × 1.5 × 1.05 / 2 = 3,937.5.
/// N = 1.2 × 1,522.5 + 1.4 × 3,937.5 + 1.2 S + 1.2 × 200 H = 7,339.5 + 1.2 (S + 2 H in cm): S + 2 H is at most 6,413.
fn single(nets: u32) -> Job {
    J.with(1, 2).with(14, 200).with(7, 1).with(13, nets)
}

/// 2,600: 26 / 1.026 = 25.341; 2,601: 1.02601 × 25.35 = 26.00935, within 26.01, and 25.36 gives 26.01961.
/// 5,263: 1.05263 × 50 = 52.6315, above 52.63; 5,264: 1.05264 × 50 = 52.632, within 52.64, and 50.01 gives 52.6425.
/// 5,265: 1.05265 × 50.01 = 52.643, within 52.65, so 5,001 before the cap; 6,000: 60 / 1.06 = 56.60.
fn permitted_heights() -> Cases {
    let of_double = [
        (0, 0),
        (2_533, 2_533),
        (2_534, 2_534),
        (2_535, 2_534),
        (2_536, 2_534),
        (2_598, 2_534),
        (2_599, 2_534),
        (2_600, 2_534),
        (2_601, 2_535),
        (3_277, 3_173),
        (5_263, 4_999),
        (5_264, 5_000),
        (5_265, 5_000),
        (6_000, 5_000),
    ];
    let of_single =
        [(0, 0), (2_399, 2_399), (2_400, 2_400), (2_401, 2_400), (2_535, 2_400), (2_599, 2_400), (6_000, 2_400)];
    let of = |name: &'static str, job: Job| {
        move |(stability, height)| {
            case(&format!("{name} row, stability {stability} permits {height}"), permitted(&job, stability) == height)
        }
    };
    of_double.into_iter().map(of("double", J)).chain(of_single.into_iter().map(of("single", single(0)))).collect()
}

/// The height line of both sides: nets S that leave exactly so much to the height.
fn reported_heights() -> Cases {
    let jobs = [
        (double(2_230), "2534 2534"),
        (double(2_227), "2535 2534"),
        (double(2_224), "2536 2534"),
        (double(2_038), "2598 2534"),
        (double(2_035), "2599 2534"),
        (double(2_032), "2600 2534"),
        (double(2_029), "2601 2535"),
        (light(4_569), "5263 4999"),
        (light(4_568), "5264 5000"),
        (light(4_567), "5265 5000"),
        (light(3_832), "6000 5000"),
        (single(1_615), "2399 2399"),
        (single(1_613), "2400 2400"),
        (single(1_611), "2401 2400"),
        (single(1_345), "2534 2400"),
        (single(1_343), "2535 2400"),
        (single(1_215), "2599 2400"),
        (single(1_213), "2600 2400"),
        (single(0), "3206 2400"),
    ];
    let told = |(job, heights): (Job, &str)| {
        case(&format!("family {} reports {heights}", job.field(1)), has_line(&job, &format!("height {heights}\n")))
    };
    jobs.into_iter().map(told).collect()
}

/// Line 12 of jobs as high as permitted and one centimetre higher.
fn own_heights() -> Cases {
    let jobs = [
        ("J at 3,173 passes 12", J.with(7, 3_173), "12 1 3173\n"),
        ("J at 3,174 fails 12", J.with(7, 3_174), "12 2 3173\n"),
        ("J at its stability height fails 12", J.with(7, 3_277), "12 2 3173\n"),
        ("stability 2,534 at 2,534 passes 12", double(2_230).with(7, 2_534), "12 1 2534\n"),
        ("stability 2,534 at 2,535 fails 12", double(2_230).with(7, 2_535), "12 2 2534\n"),
        ("stability 2,535 at 2,534 passes 12", double(2_227).with(7, 2_534), "12 1 2534\n"),
        ("stability 2,535 at 2,535 fails 12", double(2_227).with(7, 2_535), "12 2 2534\n"),
        ("stability 2,599 at 2,534 passes 12", double(2_035).with(7, 2_534), "12 1 2534\n"),
        ("stability 2,599 at 2,535 fails 12", double(2_035).with(7, 2_535), "12 2 2534\n"),
        ("stability 2,601 at 2,535 passes 12", double(2_029).with(7, 2_535), "12 1 2535\n"),
        ("stability 2,601 at 2,536 fails 12", double(2_029).with(7, 2_536), "12 2 2535\n"),
        ("stability 5,263 at 5,000 fails 12", light(4_569).with(7, 5_000), "12 2 4999\n"),
        ("stability 6,000 at 5,000 passes 12", light(3_832).with(7, 5_000), "12 1 5000\n"),
        ("single row, stability 2,399 at 2,399 passes 12", single(1_615).with(7, 2_399), "12 1 2399\n"),
        ("single row, stability 2,399 at 2,400 fails 12", single(1_615).with(7, 2_400), "12 2 2399\n"),
        ("single row, stability 2,599 at 2,400 passes 12", single(1_215).with(7, 2_400), "12 1 2400\n"),
    ];
    jobs.into_iter().map(|(name, job, line)| case(name, has_line(&job, line))).collect()
}

/// Where no height is reported, and where the stability height is 0.
/// Q = 30,000: 1.4 L = 1.4 × 30,000 × 1.0125 = 42,525 alone is above the 21,091 that the pole bears.
/// Q = 13,000, S = 382: 2,205 + 1.4 × 13,162.5 + 1.2 × 382 = 21,090.9, so 21,091 at H = 0; 3.6 N more for each cm.
/// At 1 cm: 44,730 + 3.6 and 21,090.9 + 3.6.
fn without_height() -> Cases {
    let (none, zero) = (J.with(12, 30_000), J.with(12, 13_000).with(13, 382));
    let ends = |job: Job, [seven, twelve]: [&str; 2]| {
        let end = format!("\n12 {twelve}\nwind 42 24291\ncolumn 1974\n");
        let report = judge(&sheet_t(), &job);
        has_line(&job, &format!("7 {seven}\n")) && matches!(report, Some(Ok(report)) if report.ends_with(&end))
    };
    vec![
        case("no height reported fails 12", ends(none, ["2 55530", "2 0\nheight none"])),
        case("no height reported fails 12 at 1 cm", ends(none.with(7, 1), ["2 44734", "2 0\nheight none"])),
        case("stability 0 fails 12 at 1 cm", ends(zero.with(7, 1), ["2 21095", "2 0\nheight 0 0"])),
        case("a net of 3 N less stands at 1 cm", has_line(&zero.with(13, 379).with(7, 1), "12 1 1\n")),
    ]
}

/// A stronger scaffold is never allowed less: each height permits at least what the one below it permits.
/// Field 7 ends at the caps, so that the coverage table has no job above them.
fn strengthened() -> Cases {
    let rises = |job: Job| (1..=6_000).all(|stability| permitted(&job, stability) >= permitted(&job, stability - 1));
    let capped = |job: Job| permitted(&job, 6_000) == *range(&job, 7).end();
    vec![
        case("a double row's permitted height never falls", rises(J)),
        case("a single row's permitted height never falls", rises(single(0))),
        case("no job is higher than its cap", capped(J) && capped(single(0))),
    ]
}
