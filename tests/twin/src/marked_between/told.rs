//! What is told of two ends: each check undecided by one step, what holds throughout, and the heights.
//!
//! Of job J under sheet T document 01 has: 7 N is 20,093 to 21,091.548 (0.2104 × 489 × 205), 8 not due, 9 5,953 to
//! 8,000, 11 20,093 to 20,000; in full N = 9,292.5 + 3.6 H with H in cm: 2,205 of fittings, 7,087.5 of live load, 3.6 a cm of
//! structure. Q is 1.4 × 1.0125 Q = 1.4175 Q of it. Nw = 2,205 + 1.19 × 5,062.5 + 3.6 H = 8,229.375 + 3.6 H.
//! J fails 11 alone; its heights are 3,277, at which N is 21,090, and 3,173.

use super::{NONE, is_told, named};
use crate::compare::{LIBRARY, TWIN};
use crate::inputs::between::Pair;
use crate::inputs::sheets::{sheet_t, to_bytes};
use crate::marked::{Cases, J};
use crate::paper::job::Job;

pub fn cases() -> Cases {
    [of_boards(), of_poles(), by_due(), by_ground(), by_height(), free(), throughout(), lent_twice()].concat()
}

/// Two jobs alike but for one field.
fn step(job: Job, field: usize, mild: u32, harsh: u32) -> Pair {
    [job.with(field, mild), job.with(field, harsh)]
}

fn told(cases: impl IntoIterator<Item = (&'static str, Pair, &'static str, [u32; 2])>) -> Cases {
    named(cases.into_iter().map(|(name, pair, checks, heights)| (name.to_string(), is_told(&pair, checks, heights))))
}

/// Checks 1 to 5 pass at the mild end and fail at the harsh end, a step of q away.
fn of_boards() -> Cases {
    told([
        // Spacing 155: 1 is (420 + 1.4 q) × 0.75 × 1.55² / 8: 4,622.8 × 225.234375 = 1,041,213.5, 4,624.2 × .. =
        // 1,041,528.8, to 205 × 5,080 = 1,041,400. 2 w = 2.51475: 7.53 to 10 mm; 3 844,840; 4 4.10 mm; 5 6,146.
        // Z = 1.155 × 1.6 × 1,800 / 15.8 = 210.53, so 210.6: φ = 0.1576, N to 15,798.6. b = 1.85: N = 2,835 + 9,712.5 +
        // 3.6 H = 12,547.5 + 3.6 H, 23,348 at 3,000; 902 gives 15,795, 903 gives 15,799.
        ("1 undecided", step(J.with(3, 155), 11, 3_002, 3_003), "311111 211122", [902, 902]),
        // Spacing 130, Q 8,000: 2 is 5 w × 1,300⁴ / (384 × 206,000 × 121,900) = 1.480953 w with
        // w = 0.75 (350 + q) / 1000: 5.8515 gives 8.66580, 5.85225 gives 8.66691, to 1,300 / 150 = 8.66667. 1 1,719,490
        // fails, 3 1,678,700 fails, 4 8.15 mm to 10, 5 12,139 fails. Z = 1.155 × 1.55 × 1,800 / 15.8 = 203.95, so 204.0:
        // φ = 0.184, N to 18,445.08. b = 1.60: N = 2,520 + 13,440 + 3.6 H, 26,760 at 3,000; 690 gives 18,444, 691 18,448.
        ("2 undecided", step(J.with(3, 130).with(12, 8_000), 11, 7_452, 7_453), "232121 211122", [690, 690]),
        // 3 is (0.175 × 165.375 + 0.213 × 0.55125 q) × 1.5 = (28.940625 + 0.11741625 q) × 1.5: 1,041.332 and 1,041.508.
        // 1 863,300; 4 5.06 mm; 5 7,541. Height 2,000, Q 6,000: N = 2,205 + 8,505 + 3.6 H = 17,910; 2,883 gives 21,089.
        ("3 undecided", step(J.with(7, 2_000).with(12, 6_000), 11, 5_666, 5_667), "113111 111111", [2_883; 2]),
        // Bay 200: 4 is (1.146 × 183.75 + 1.615 × 0.525 q) × 2,000³ / (100 × 206,000 × 121,900): 3,138.289875 gives
        // 9.9980 mm, 3,139.13775 gives 10.0007, to 10. 3 (38.5875 + 0.156555 q) × 2 = 1,158.3 fails; 1 724,300; 5
        // 6,314. N = 2,940 + 9,450 + 3.6 H, 19,590 at 2,000; 2,416 gives 21,088, 2,417 gives 21,092.
        ("4 undecided", step(J.with(4, 200).with(7, 2_000), 11, 3_453, 3_454), "112311 111111", [2_416; 2]),
        // 5 is 355.55625 + 1.267875 q: 7,999.57, so 8,000, and 8,000.84, so 8,001. 3 1,105,264 fails. Q 6,100: N =
        // 2,205 + 8,646.75 + 3.6 H, 18,052 at 2,000; 2,844 gives 21,091, 2,845 gives 21,094.
        ("5 undecided", step(J.with(7, 2_000).with(12, 6_100), 11, 6_029, 6_030), "112131 111111", [2_844; 2]),
    ])
}

/// Checks 6 to 12 pass at the mild end and fail at the harsh end, a step of one field away.
fn of_poles() -> Cases {
    told([
        // Spacing 155, t = 3: 6 is 1.8 × 1,840 / 15.8 = 209.6 and 210.8, to 210. Z is 242.2 and 243.5: φ = 0.150, N to
        // 15,036.75; N = 12,547.5 + 3.6 H; 691 gives 15,036, 692 gives 15,039. 1 is 4,620 × 225.234375 = 1,040,583.
        ("6 undecided", step(J.with(3, 155).with(6, 3), 5, 184, 185), "111113 211122", [691, 691]),
        // 3,277 gives 21,090, 3,278 gives 21,094, to 21,091.548; both above 20,000 and above 3,173.
        ("7 undecided", step(J, 7, 3_277, 3_278), "111111 311122", [3_277; 2]),
        // Wind 2,000: wk = 280, Mw = 1.19 × 280 × 1.5 × 1.8² / 10 = 161.9352 N·m, so Nw may be
        // (205 − 161,936 / 5,080) × 0.2104 × 489 = 17,811.85; 2,661 gives 17,809, 2,662 gives 17,813. N is at most
        // 18,876. The tie of 100,000 holds 1.4 × 280 × 16.2 + 5,000 = 11,351. Permitted: 26.61 / 1.02661 = 25.92.
        ("8 undecided", step(J.with(15, 2_000).with(22, 100_000), 7, 2_661, 2_662), "111111 131112", [2_661; 2]),
        // wk = 0.14 × 942 = 131.88, so 132, and 132.02, so 133: 22.68 wk + 5,000 is 7,994 and 8,017, to 8,000.
        // Mw 76,341 and 76,920: Nw may be 19,545.41 and 19,533.68; 3,143 gives 19,545, 3,144 19,548; 3,139 19,530,
        // 3,140 19,534. Height 2,000: N 16,493.
        ("9 undecided", step(J.with(7, 2_000), 15, 942, 943), "111111 113111", [3_143, 3_139]),
        // Q 20,000: N = 2,205 + 28,350 + 3.6 H: 2,623 gives 39,998, 2,624 gives 40,002, to 40,000. No height bears it.
        // Strength 2,000, pad 10,000: 11 is to 1,000,000.
        (
            "10 undecided",
            step(J.with(12, 20_000).with(24, 2_000).with(25, 10_000), 7, 2_623, 2_624),
            "111111 211312",
            [NONE; 2],
        ),
        // 0.5 × 201,000 × 0.2 = 20,100 and 20,000, to 20,093.
        ("11 undecided", step(J, 24, 201, 200), "111111 111131", [3_277; 2]),
        ("12 undecided", step(J, 7, 3_173, 3_174), "111111 111123", [3_277; 2]),
    ])
}

/// A check not due counts as a pass: 8 not due at the mild end, due at the harsh one, passing or failing there.
fn by_due() -> Cases {
    told([
        // Wind 351: wk = 50, Mw 28,917, Nw may be (205 − 5.6923) × 102.8856 = 20,505.89; 19,030 at 3,000.
        ("8 due and passing at the harsh end", step(J, 15, 350, 351), "111111 111121", [3_277; 2]),
        // 3,410 gives Nw 20,506; at 3,409 it is 20,502. 7 fails above 3,277.
        ("8 due and failing, by one step of wind", step(J.with(7, 3_410), 15, 350, 351), "111111 231122", [3_277; 2]),
        ("8 due and passing, 7 failing", step(J.with(7, 3_409), 15, 350, 351), "111111 211122", [3_277; 2]),
        // t = 3: the face is 9 × 1.8 × 1.85 = 29.97 and 30.13 m². Z = 1.155 × 1.7 × 1,800 / 15.8 = 223.7: φ = 0.150, N
        // to 15,036.75. N = 2,719.5 + 8,741.25 + 3.6 H at bay 185, 2,734.2 + 8,788.5 + 3.6 H at 186: 993 gives 15,036, 994
        // 15,040; 975 15,033, 976 15,037. Mw 30,120: Nw may be 14,601.8; at 1,300 it is 2,734.2 + 7,470.225 + 4,680.
        (
            "8 due and failing, by one step of the bay",
            step(J.with(6, 3).with(7, 1_300), 4, 185, 186),
            "111111 231112",
            [993, 975],
        ),
        // J in wind 2,000: 19,030 / 102.8856 + 31.88 = 216.8 fails; 9 is 11,351 to 8,000; 2,661 permits 2,592.
        ("8 not due, then failing with 9 and 12", step(J, 15, 300, 2_000), "111111 133123", [3_277, 2_661]),
        ("a band of wind and of strength", [J.with(24, 201), J.with(15, 2_000)], "111111 133133", [3_277, 2_661]),
        ("8 not due at both", step(J, 15, 0, 350), "111111 111121", [3_277; 2]),
    ])
}

/// Check 11, soil factor × strength × pad to 20,093: soils of one factor are alike.
fn by_ground() -> Cases {
    told([
        ("J against itself", [J, J], "111111 111121", [3_277; 2]),
        ("strength 201 at both", [J.with(24, 201); 2], "111111 111111", [3_277; 2]),
        ("strength 200 and 199", step(J, 24, 200, 199), "111111 111121", [3_277; 2]),
        ("pad 2,010 and 2,009", step(J, 25, 2_010, 2_009), "111111 111131", [3_277; 2]),
        // 1.0 × 200,000 × 0.2 = 40,000 on rock, 20,000 on clay, 16,000 on the others.
        ("soil 5 and 4", step(J, 23, 5, 4), "111111 111131", [3_277; 2]),
        ("soil 5 and 1", step(J, 23, 5, 1), "111111 111131", [3_277; 2]),
        ("soil 4 and 3", step(J, 23, 4, 3), "111111 111121", [3_277; 2]),
        ("soil 1 and 3", step(J, 23, 1, 3), "111111 111121", [3_277; 2]),
        ("soil 3 and 1", step(J, 23, 3, 1), "111111 111121", [3_277; 2]),
        ("soil 1 and 2", step(J, 23, 1, 2), "111111 111121", [3_277; 2]),
        ("soil 2 and 1", step(J, 23, 2, 1), "111111 111121", [3_277; 2]),
        ("soil 3 and 2", step(J, 23, 3, 2), "111111 111121", [3_277; 2]),
        // 0.4 × 252,000 × 0.2 = 20,160; 251 gives 20,080.
        (
            "soil 3, strength 252, and soil 1, strength 251",
            [of_soil(3, 252), of_soil(1, 251)],
            "111111 111131",
            [3_277; 2],
        ),
        ("soil 2 and 3 at strength 252", [of_soil(2, 252), of_soil(3, 252)], "111111 111111", [3_277; 2]),
    ])
}

fn of_soil(soil: u32, strength: u32) -> Job {
    J.with(23, soil).with(24, strength)
}

/// J as a single row of structure 200 and 1 cm: S + 2 H is at most 6,413, as marked_heights.rs has it. N is 7,342 and,
/// with nets of 1,613, 9,278; 6 is 1.8 × 1,800 / 15.8 = 205.1 to 230; 9 is 3,953; no check fails.
fn single(nets: u32) -> Job {
    J.with(1, 2).with(14, 200).with(7, 1).with(13, nets)
}

/// J of structure 100: N = 9,292.5 + 1.2 (S + H), so that S + H is at most 9,832; with S 4,569 it is 18,376 at 3,000.
fn light(nets: u32) -> Job {
    J.with(14, 100).with(13, nets)
}

/// Heights that fall, are equal or are none; the own height is set aside.
fn by_height() -> Cases {
    // Q 30,000: N = 2,205 + 42,525 + 10,800 = 55,530, and 44,730 without height. Q 13,000, S 382: 31,891, and 21,091.
    let (none, zero) = (J.with(12, 30_000), J.with(12, 13_000).with(13, 382));
    told([
        ("none at the harsh end", [J, none], "111111 311323", [3_277, NONE]),
        ("none at both", [none, none], "111111 211222", [NONE, NONE]),
        ("0 at the harsh end", [J, zero], "111111 311123", [3_277, 0]),
        ("0 at both", [zero, zero], "111111 211122", [0, 0]),
        // 21,090.9 + 1.2 = 21,092.1 without height.
        ("0 and none, by a newton of nets", [zero, zero.with(13, 383)], "111111 211122", [0, NONE]),
        ("5,265 and 5,263", [light(4_567), light(4_569)], "111111 111111", [5_265, 5_263]),
        ("6,000 and 5,263", [light(3_832), light(4_569)], "111111 111111", [6_000, 5_263]),
        ("6,000 at both, by what is beyond it", [light(0), light(3_832)], "111111 111111", [6_000, 6_000]),
        ("a single row, 3,206 and 2,400", [single(0), single(1_613)], "111111 111111", [3_206, 2_400]),
        ("own heights of 1 and 5,000", [J.with(7, 1), J.with(7, 5_000)], "111111 311133", [3_277; 2]),
    ])
}

/// The wall's thickness and make, either way.
fn free() -> Cases {
    let of_j = [(20, 240, 0), (20, 0, 2_000), (20, 2_000, 0), (21, 1, 3), (21, 3, 1), (21, 2, 3), (21, 3, 2)];
    let of_single = [(20, 181, 2_000), (20, 2_000, 181)];
    let of_j = of_j.map(|(field, one, other)| {
        let holds = is_told(&step(J, field, one, other), "111111 111121", [3_277; 2]);
        (format!("field {field} from {one} to {other}"), holds)
    });
    let of_single = of_single.map(|(field, one, other)| {
        let holds = is_told(&step(single(0), field, one, other), "111111 111111", [3_206; 2]);
        (format!("field {field} of a single row from {one} to {other}"), holds)
    });
    [named(of_j), named(of_single)].concat()
}

/// Every check undecided at once: J on strength 201 against the harshest double row of its kind.
/// 1 14,420 × 1.0 × 1.55² / 8 = 4,330.5 N·m; 2 31.0 mm; 5 25,655; 6 227.8; N = 1.2 (25,000 + 13,995) + 1.4 × 55,500 =
/// 124,494, 94,494 without height; wk 11,200, Mw 10,662,400; 9 1.4 × 11,200 × 36 + 5,000 = 569,480; 11 to 40.
fn throughout() -> Cases {
    let mut harshest = J.with(3, 155).with(4, 200).with(5, 200).with(6, 3).with(7, 5_000).with(9, 10).with(10, 9);
    harshest = harshest.with(11, 10_000).with(12, 30_000).with(13, 5_000).with(14, 500).with(15, 2_000).with(16, 4_000);
    harshest = harshest.with(18, 2_000).with(23, 3).with(24, 10).with(25, 100);
    told([
        ("every check undecided", [J.with(24, 201), harshest], "333333 333333", [3_277, NONE]),
        ("every check failing throughout", [harshest, harshest], "222222 222222", [NONE; 2]),
    ])
}

/// One row of numbers lent as both ends: what is only read may share bytes.
fn lent_twice() -> Cases {
    let sheet = to_bytes(&sheet_t());
    let holds = [LIBRARY, TWIN].iter().all(|side| {
        let mut lent = [0; 14];
        let returned = (side.between)(&sheet, &J.0, &J.0, &mut lent);
        (returned, lent) == (14, [1, 1, 1, 1, 1, 1, 1, 1, 1, 1, 2, 1, 3_277, 3_277])
    });
    named([("one row of numbers lent twice".to_string(), holds)])
}
