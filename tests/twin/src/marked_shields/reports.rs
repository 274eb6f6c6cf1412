//! What a report shows of half closed faces: whole reports at shields 1, 299, 300 and 700, and lines beside them.
//!
//! wk = 0.7 × 1.6 × 1.2 × s / 1,000 × 500 = 0.672 s before a closed wall, 0.8736 s before a pierced one, up:
//!
//! | shield | closed: wk, Mw           | pierced: wk, Mw           |
//! |--------|--------------------------|---------------------------|
//! | 1      | 0.672, so 1: 579         | 0.8736, so 1: 579         |
//! | 299    | 200.928, so 201: 116,247 | 261.2064, so 262: 151,526 |
//! | 300    | 201.6, so 202: 116,825   | 262.08, so 263: 152,104   |
//! | 700    | 470.4, so 471: 272,399   | 611.52, so 612: 353,945   |
//!
//! Mw = 1.19 × wk × 1.5 × 1.8² / 10 = 0.57834 wk in N·m: 578.34 wk, up. Face: 2 × 1.8 × 3 × 1.5 = 16.2 m².

use super::{half_closed, named, single};
use crate::inputs::sheets::sheet_t;
use crate::marked::{Cases, J, has_line, judge};
use crate::paper::job::Job;

pub fn cases() -> Cases {
    [double_rows(), single_rows(), walls(), limits(), due(), winds()].concat()
}

/// The report's lines: 1 to 5 are J's; line 6, N and the column are those of all double or all single rows here.
fn report([six, n, column]: [&str; 3], [eight, nine, twelve, height, wind]: [&str; 5]) -> String {
    let boards = "1 1 477521\n2 1 1584\n3 1 571785\n4 1 2777\n5 1 4160\n";
    let poles = format!("6 1 {six}\n7 1 {n}\n8 {eight}\n9 {nine}\n10 1 {n}\n11 1 {n}\n12 {twelve}\n");
    format!("{boards}{poles}height {height}\nwind {wind}\ncolumn {column}\n")
}

/// Whole reports at a shield each: lines 8, 9 and 12, the heights, and the wind.
fn whole(row: &str, job: fn(u32) -> Job, of_row: [&str; 3], reports: [(u32, [&str; 5]); 4]) -> Cases {
    named(reports.map(|(shield, lines)| {
        let told = judge(&sheet_t(), &job(shield));
        (format!("the report of a {row} row, shield {shield}"), told == Some(Ok(report(of_row, lines))))
    }))
}

/// N = 9,292.5 + 3.6 × 2,835 = 19,498.5, to φAf = 21,091.548, 40,000 and 20,000. Nw = 8,229.375 + 10,206 = 18,435.375.
/// Nw may be (205 − Mw / 5,080) × 102.8856, and N 21,091, which is 3,277 high. Tie force: 22.68 wk + 5,000 to 9,559.
fn double_rows() -> Cases {
    let reports = [
        // Nw to 204.886 × 102.8856 = 21,079.8, 3,569 high, so that 7 decides. 22.68 + 5,000.
        (1, ["1 18436", "1 5023", "1 3173", "3277 3173", "1 579"]),
        // Nw to 182.1167 × 102.8856 = 18,737.19: 2,918 gives 18,735, 2,919 gives 18,738. 29.18 / 1.02918 = 28.3527.
        // 22.68 × 201 = 4,558.68.
        (299, ["1 18436", "1 9559", "1 2835", "2918 2835", "201 116247"]),
        // Nw to 182.0030 × 102.8856 = 18,725.48: 2,915 gives 18,724, 2,916 gives 18,727. 29.15 / 1.02915 = 28.3243.
        // 22.68 × 202 = 4,581.36.
        (300, ["1 18436", "2 9582", "2 2832", "2915 2832", "202 116825"]),
        // Nw to 151.3782 × 102.8856 = 15,574.63: 2,040 gives 15,574, 2,041 gives 15,577. 22.68 × 471 = 10,682.28.
        (700, ["2 18436", "2 15683", "2 2040", "2040 2040", "471 272399"]),
    ];
    whole("double", half_closed, ["171", "19499", "1974"], reports)
}

/// N = 7,339.5 + 2.4 × 2,400 = 13,099.5, to 15,036.75. Nw = 1,827 + 1.19 × 3,937.5 + 5,760 = 6,512.625 + 5,760.
/// Nw may be (205 − Mw / 5,080) × 73.35, φ being 0.150; N may be 15,036, so 3,206 high. 22.68 wk + 3,000 to 8,943.
/// 6: 1.8 × 1,800 / 15.8 = 205.06, and 1.155 times that is 236.85.
fn single_rows() -> Cases {
    let reports = [
        // Nw to 204.886 × 73.35 = 15,028.4, 3,548 high.
        (1, ["1 12273", "1 3023", "1 2400", "3206 2400", "1 579"]),
        // Nw to 175.1720 × 73.35 = 12,848.87: 2,639 gives 12,847, 2,640 gives 12,849. 22.68 × 262 = 5,942.16.
        (299, ["1 12273", "1 8943", "1 2400", "2639 2400", "262 151526"]),
        // Nw to 175.0583 × 73.35 = 12,840.52: 2,636 gives 12,840, 2,637 gives 12,842. 22.68 × 263 = 5,964.84.
        (300, ["1 12273", "2 8965", "1 2400", "2636 2400", "263 152104"]),
        // Nw to 135.3258 × 73.35 = 9,926.15: 1,422 gives 9,926, 1,423 gives 9,928. 22.68 × 612 = 13,880.16.
        (700, ["2 12273", "2 16881", "2 1422", "1422 1422", "612 353945"]),
    ];
    whole("single", single, ["206", "13100", "2369"], reports)
}

fn lines(cases: impl IntoIterator<Item = (&'static str, Job, &'static str)>) -> Cases {
    named(cases.into_iter().map(|(name, job, line)| (format!("{name}: {line}"), has_line(&job, &format!("{line}\n")))))
}

/// Each row before the other wall.
fn walls() -> Cases {
    let double = |shield| half_closed(shield).with(19, 2);
    let single = |shield| single(shield).with(19, 1);
    lines([
        ("double row, pierced wall, shield 1", double(1), "wind 1 579"),
        // Nw to 175.1720 × 102.8856 = 18,022.68: 2,720 gives 18,022, 2,721 gives 18,025; 27.20 / 1.0272 = 26.4798.
        ("double row, pierced wall, shield 299", double(299), "wind 262 151526"),
        ("double row, pierced wall, shield 299", double(299), "9 2 10943"),
        ("double row, pierced wall, shield 299", double(299), "height 2720 2647"),
        // Nw to 175.0583 × 102.8856 = 18,010.97: 2,716 gives 18,007, 2,717 gives 18,011; 27.16 / 1.02716 = 26.4418.
        ("double row, pierced wall, shield 300", double(300), "wind 263 152104"),
        ("double row, pierced wall, shield 300", double(300), "9 2 10965"),
        ("double row, pierced wall, shield 300", double(300), "height 2716 2644"),
        // Nw to 182.1167 × 73.35 = 13,358.26: 2,852 gives 13,358, 2,853 gives 13,360. 4,558.68 + 3,000.
        ("single row, closed wall, shield 299", single(299), "wind 201 116247"),
        ("single row, closed wall, shield 299", single(299), "9 1 7559"),
        ("single row, closed wall, shield 299", single(299), "height 2852 2400"),
        // Nw to 182.0030 × 73.35 = 13,349.92: 2,848 gives 13,348, 2,849 gives 13,351. 4,581.36 + 3,000.
        ("single row, closed wall, shield 300", single(300), "wind 202 116825"),
        ("single row, closed wall, shield 300", single(300), "9 1 7582"),
        ("single row, closed wall, shield 300", single(300), "height 2848 2400"),
    ])
}

/// The heights at which check 8 or 12 parts the two shields, and the tie that holds both.
fn limits() -> Cases {
    let high = |shield, height| half_closed(shield).with(7, height);
    lines([
        ("shield 299, 2,918 high", high(299, 2_918), "8 1 18735"),
        ("shield 299, 2,919 high", high(299, 2_919), "8 2 18738"),
        ("shield 300, 2,915 high", high(300, 2_915), "8 1 18724"),
        ("shield 300, 2,916 high", high(300, 2_916), "8 2 18727"),
        ("shield 299, 2,916 high", high(299, 2_916), "8 1 18727"),
        ("shield 299, 2,836 high", high(299, 2_836), "12 2 2835"),
        ("shield 300, 2,832 high", high(300, 2_832), "12 1 2832"),
        ("shield 300, 2,833 high", high(300, 2_833), "12 2 2832"),
        ("shield 299, a tie of 9,558", half_closed(299).with(22, 9_558), "9 2 9559"),
        ("shield 300, a tie of 9,582", half_closed(300).with(22, 9_582), "9 1 9582"),
    ])
}

/// Check 8 is due of half closed faces whatever their shield: 4.3.2 lets only open ones go.
fn due() -> Cases {
    let calm = |shield| J.with(17, 2).with(18, shield);
    lines([
        // wk = 0.7 × 1.2 × 0.2 × 300 = 50.4, so 51: 29,495.34. 22.68 × 51 = 1,156.68.
        ("J half closed by its 200", calm(200), "8 1 19030"),
        ("J half closed by its 200", calm(200), "9 1 6157"),
        ("J half closed by its 200", calm(200), "wind 51 29496"),
        ("J half closed by 1", calm(1), "8 1 19030"),
        ("J half closed by 299", calm(299), "8 1 19030"),
        ("J half closed by 1, without wind", calm(1).with(15, 0), "8 1 19030"),
        ("J half closed by 1, without wind", calm(1).with(15, 0), "wind 0 0"),
        ("J half closed by 299, without wind", calm(299).with(15, 0), "9 1 5000"),
        ("J open by 299", J.with(18, 299), "8 0 19030"),
    ])
}

/// wk beside these: the least and the greatest of shield 1, a whole one, and those of the other two enclosures.
fn winds() -> Cases {
    let stormy = half_closed(1).with(19, 2).with(15, 2_000).with(16, 4_000);
    lines([
        // 0.7 × 0.1 × 0.0012 × 1 is above 0. 0.7 × 4 × 0.00156 × 2,000 = 8.736: 578.34 × 9 = 5,205.06.
        ("shield 1 in the least wind", half_closed(1).with(15, 1).with(16, 100), "wind 1 579"),
        ("shield 1 in the greatest wind", stormy, "wind 9 5206"),
        // With 9 as wk and the widest face, 3 × 2 × 3 × 2 = 36: 453.6. No tie bears less than 8,000.
        ("shield 1, the greatest tie force", stormy.with(4, 200).with(5, 200).with(6, 3), "9 1 5454"),
        // 0.672 × 250 = 168: 97,161.12. 0.672 × 298 = 200.256. 0.672 × 2 = 1.344: 1,156.68.
        ("shield 250", half_closed(250), "wind 168 97162"),
        ("shield 298", half_closed(298), "wind 201 116247"),
        ("shield 2", half_closed(2), "wind 2 1157"),
        // 0.7 × 1.6 × 0.299 × 500 = 167.44: 97,161.12. Fully closed as half closed.
        ("open, shield 299", half_closed(299).with(17, 1), "wind 168 97162"),
        ("fully closed, shield 299", half_closed(299).with(17, 3), "wind 201 116247"),
        ("fully closed, shield 300", half_closed(300).with(17, 3), "wind 202 116825"),
    ])
}
