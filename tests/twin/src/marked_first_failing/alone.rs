//! Each check as the only one that fails in the first failing row, one step of a field from a row that passes all; and
//! searches of what fails only with others.
//!
//! J under T has N = 9,292.5 + 3.6 H with H in cm, to 21,091.548 by 7, to 100 N for each kPa of strength by 11; its tie
//! force is 5,953 to 8,000, its heights are 3,277 and 3,173. Where a figure is not given it is far from its limit.

use super::*;
use crate::inputs::first_failing::failing_with;
use crate::inputs::tuned::{Aim, bisect};
use crate::marked::judge;
use crate::paper::heights::permitted;
use crate::paper::sheet::Sheet;
use crate::reading::read;

pub fn cases() -> Cases {
    [of_boards(), of_poles(), of_heights(), of_single_rows()].concat()
}

/// Two jobs alike but for one field.
fn step(job: Job, field: usize, one: u32, other: u32) -> [Job; 2] {
    [job.with(field, one), job.with(field, other)]
}

/// The checks that show 2 in the report of both sides.
fn shown(job: &Job) -> Vec<usize> {
    let report = judge(&sheet_t(), job).and_then(Result::ok).and_then(|text| read(text.as_bytes()));
    report.map_or(vec![0], |report| (1..=12).filter(|&check| report.verdict(check) == 2).collect())
}

/// The one job fails nothing or what `before` says, the other what `then` says: behind a row that passes it is the
/// second, before one the first.
fn tried(name: &str, [one, other]: [Job; 2], before: &[usize], then: &[usize]) -> Cases {
    let first = if before.is_empty() { [1, 2] } else { [0, 1] };
    named([
        (format!("{name}: by the reports"), shown(&one) == before && shown(&other) == then),
        (format!("{name}: a step of the field"), is_told_of(&[one, other], first[0], first[1])),
        (format!("{name}: last of three"), is_told_of(&[STRONG, STRONG, other], 2, 3)),
        (format!("{name}: between"), is_told_of(&[STRONG, other, STRONG], 1, 2)),
        (format!("{name}: the first two"), is_told_of(&[other, other, STRONG], 0, 1)),
        (format!("{name}: alone"), is_told_of(&[other], 0, 1)),
    ])
}

/// Checks 1 to 5 by a step of q; 2 never fails without 1 and 5, nor 4 without 3.
fn of_boards() -> Cases {
    // Spacing 155: 1 is 1,041,213.5 and 1,041,528.8 to 1,041,400. φ = 0.1576, N to 15,798.6; 15,795 at 902, which is
    // permitted, being below 2,535.
    let of_1 = step(J.with(3, 155).with(7, 902), 11, 3_002, 3_003);
    // Spacing 155, bay 100: 2 is 2.992917 w, w = (350 + q) / 2,000: 3.341 gives 9.9993, 3.3415 gives 10.0008, to 10.
    // 1 (420 + 1.4 q) × 0.5 × 2.4025 / 8 = 1,394; 3 760; 4 1.64 mm; 5 349.9 + 2.3 × 1.4 × 0.3875 q = 8,252.
    // b = 1.85: N = 1.2 × 1,575 + 1.4 × 0.925 × 7,000 + 3,600 = 14,555 to 15,798.6; up to 1,345.
    let of_2 = step(J.with(3, 155).with(4, 100).with(7, 1_000).with(12, 7_000), 11, 6_332, 6_333);
    // 3 is 1,041.332 and 1,041.508. N = 2,205 + 8,505 + 7,200 = 17,910; up to 2,883.
    let of_3 = step(J.with(7, 2_000).with(12, 6_000), 11, 5_666, 5_667);
    // Bay 200: 4 is 9.9980 and 10.0007 mm, 3 1,158.3.
    let of_4 = step(J.with(4, 200).with(7, 2_000), 11, 3_453, 3_454);
    // Bay 120: 5 is 2.15 × 132.3 + 2.3 × 0.441 q = 284.445 + 1.0143 q: 7,999.21 and 8,000.23, so 8,001, to 8,000.
    // 1 (420 + 1.4 q) × 0.6 × 1.1025 / 8 = 915; 2 3.01 mm to 7; 3 (23.15 + 0.093933 q) × 1.2 = 885; 4 2.75 mm to 8.
    // N = 1.2 × 1,470 + 1.4 × 0.81 × 7,700 + 3.6 H = 10,495.8 + 3.6 H: 17,696 at 2,000; up to 2,943.
    let of_5 = step(J.with(4, 120).with(7, 2_000).with(12, 7_700), 11, 7_606, 7_607);
    [
        tried("1 alone", of_1, &[], &[1]),
        tried("2 with 1 and 5", of_2, &[1, 5], &[1, 2, 5]),
        tried("3 alone", of_3, &[], &[3]),
        tried("4 with 3", of_4, &[3], &[3, 4]),
        tried("5 alone", of_5, &[], &[5]),
    ]
    .concat()
}

fn of_poles() -> Cases {
    // Spacing 155, t = 3: 6 is 209.6 and 210.8 to 210; φ = 0.150, N to 15,036.75; 15,036 at 691.
    let of_6 = step(J.with(3, 155).with(6, 3).with(7, 691), 5, 184, 185);
    // N is 21,090 and 21,094, to 21,100 by strength 211; 12 fails from 3,174 on.
    let of_7 = step(J.with(24, 211), 7, 3_277, 3_278);
    // Wind 2,000: Nw may be 17,811.85; 2,661 gives 17,809, 2,662 gives 17,813; 2,592 are permitted. N is 18,876.
    let windy = STRONG.with(15, 2_000).with(22, 100_000);
    // wk 132 and 133: 9 is 7,994 and 8,017. Nw is 15,430, to 19,533 there.
    let of_9 = step(J.with(7, 2_000), 15, 942, 943);
    // Step 60: Z = 1.155 × 1.5 × 600 / 15.8 = 65.79, so 65.8: φ = 740 × 0.2 + 736 × 0.8 = 736.8, N to 73,860.
    // N = 2,205 + 28,350 + 3.6 H: 39,998 and 40,002; at 6,000 cm 52,155, so that 5,000 are permitted.
    let of_10 = step(J.with(5, 60).with(12, 20_000).with(24, 2_000).with(25, 10_000), 7, 2_623, 2_624);
    [
        tried("6 alone", of_6, &[], &[6]),
        tried("7 with 12", of_7, &[12], &[7, 12]),
        tried("8 with 12", step(windy, 7, 2_661, 2_662), &[12], &[8, 12]),
        tried("9 alone", of_9, &[], &[9]),
        tried("10 alone", of_10, &[], &[10]),
        tried("11 alone", step(J, 24, 201, 200), &[], &[11]),
        tried("11 alone by the pad", step(J, 25, 2_010, 2_009), &[], &[11]),
        tried("11 alone by the soil", step(J, 23, 5, 4), &[], &[11]),
    ]
    .concat()
}

/// Check 12 alone, between the permitted height and the stability height: N is 20,719 to 20,800, in wind 18,628.
fn of_heights() -> Cases {
    let windy = STRONG.with(15, 2_000).with(22, 100_000);
    // S + 3 H is at most 9,832, as marked_heights.rs has it: nets of 2,035 leave 2,599, which permits 2,534.
    // N = 9,292.5 + 1.2 × 2,035 + 3.6 × 2,535 = 20,860.5, to 20,900 by strength 209.
    let kept = J.with(24, 209).with(13, 2_035);
    [
        tried("12 alone", step(J.with(24, 208), 7, 3_173, 3_174), &[], &[12]),
        tried("12 alone in wind", step(windy, 7, 2_592, 2_593), &[], &[12]),
        tried("12 alone at stability 2,599", step(kept, 7, 2_534, 2_535), &[], &[12]),
    ]
    .concat()
}

/// J as a single row of structure 200 and 1 cm: N = 7,342 to 15,036 and to 100 N for each kPa; b = 1.05.
fn of_single_rows() -> Cases {
    let single = J.with(1, 2).with(14, 200).with(7, 1);
    // t = 3: 6 is 2 × 1,810 / 15.8 = 229.1 and 230.4, to 230; Z is 265 and 267: 7,320 / 267² bears 10,293.
    let of_6 = step(single.with(6, 3), 5, 181, 182);
    // wk = 0.14 × 1,571 = 219.9, so 220, and 220.08, so 221: 22.68 wk + 3,000 is 7,990 and 8,013, to 8,000.
    // 8 is due: 6,516 / 73.35 + 127,814 / 5,080 = 114 to 205.
    let of_9 = step(single, 15, 1_571, 1_572);
    [
        tried("6 alone in a single row", of_6, &[], &[6]),
        tried("9 alone in a single row", of_9, &[], &[9]),
        tried("11 alone in a single row", step(single, 24, 74, 73), &[], &[11]),
    ]
    .concat()
}

/// No check but these eight is ever the only one that fails, and 12 is only in double rows.
pub fn searches() -> Cases {
    let [single, double] = [J.with(1, 2), J].map(|job| job.with(12, 30_000));
    let spacings = (60..=150).map(|spacing| single.with(3, spacing)).chain([double.with(3, 155)]);
    let spans: Vec<Job> = spacings.flat_map(|job| (60..=200).map(move |bay| job.with(4, bay))).collect();
    let each = |job: &Job| [(1, 1), (1, 2), (2, 1), (2, 2)].map(|(tube, boards)| job.with(2, tube).with(8, boards));
    let jobs: Vec<Job> = spans.iter().flat_map(each).collect();
    let fails_with =
        |number| jobs.iter().all(|job| first_failure_by_q(job, number).is_none_or(|job| with_all(&job, number)));
    let heights = || 0..=6_000;
    named([
        ("where 2 fails, 1 and 5 do", fails_with(2)),
        ("where 4 fails, 3 does", fails_with(4)),
        (
            "where 7 or 8 fails, 12 does",
            [J, single].iter().all(|job| heights().all(|height| permitted(job, height) <= height)),
        ),
        (
            "where 12 fails in a single row, 7 or 8 does",
            heights().all(|height| permitted(&single, height) >= height.min(2_400)),
        ),
    ])
}

/// The job with the least q at which a check of the boards fails; the checks beside it that fail there fail beyond.
fn first_failure_by_q(job: &Job, check: usize) -> Option<Job> {
    let aim = Aim { check, family: job.field(1), tube: job.field(2) };
    bisect(job, Sheet(sheet_t()), 11, |job, sheet| aim.fails(job, sheet)).map(|edge| edge.failing)
}

fn with_all(job: &Job, number: usize) -> bool {
    let sheet = Sheet(sheet_t());
    failing_with(number).iter().all(|&check| Aim { check, family: 1, tube: 1 }.fails(job, &sheet))
}
