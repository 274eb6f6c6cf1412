//! Two half closed ends: what is told of them at and across shields 299 and 300, and what is refused.
//!
//! The figures are those of `marked_shields/reports.rs`: at 2,835 N is 19,499 and passes 7, 10 and 11. Ties hold 9,559.
//!
//! | shield | stability | permitted | 8 at 2,835 | tie force |
//! |--------|-----------|-----------|------------|-----------|
//! | 1      | 3,277     | 3,173     | passes     | 5,023     |
//! | 298    | 2,918     | 2,835     | passes     | 9,559     |
//! | 299    | 2,918     | 2,835     | passes     | 9,559     |
//! | 300    | 2,915     | 2,832     | passes     | 9,582     |
//! | 700    | 2,040     | 2,040     | fails      | 15,683    |

use super::{is_refused, is_told, named};
use crate::inputs::between::Pair;
use crate::marked::{Cases, J};
use crate::marked_shields::{half_closed, single};
use crate::paper::job::Job;

pub fn cases() -> Cases {
    [told(), wrong(), outside(), unlike()].concat()
}

fn ends(job: impl Fn(u32) -> Job, mild: u32, harsh: u32) -> Pair {
    [job(mild), job(harsh)]
}

fn told() -> Cases {
    let high = |height: u32| move |shield: u32| half_closed(shield).with(7, height);
    let pierced = |shield: u32| half_closed(shield).with(19, 2);
    let cases = [
        ("299 and 300", ends(half_closed, 299, 300), "111111 113113", [2_918, 2_915]),
        ("1 and 299", ends(half_closed, 1, 299), "111111 111111", [3_277, 2_918]),
        ("1 and 300", ends(half_closed, 1, 300), "111111 113113", [3_277, 2_915]),
        ("1 and 700", ends(half_closed, 1, 700), "111111 133113", [3_277, 2_040]),
        ("1 and 1", ends(half_closed, 1, 1), "111111 111111", [3_277; 2]),
        // 200.256 and 200.928 go up to the same 201.
        ("298 and 299", ends(half_closed, 298, 299), "111111 111111", [2_918; 2]),
        ("299 and 299", ends(half_closed, 299, 299), "111111 111111", [2_918; 2]),
        ("299 and 700", ends(half_closed, 299, 700), "111111 133113", [2_918, 2_040]),
        ("300 and 300", ends(half_closed, 300, 300), "111111 112112", [2_915; 2]),
        ("300 and 700", ends(half_closed, 300, 700), "111111 132112", [2_915, 2_040]),
        // N 19,798, to 20,000; Nw 18,735, to 18,737.19 and 18,725.48.
        ("299 and 300, 2,918 high", ends(high(2_918), 299, 300), "111111 133112", [2_918, 2_915]),
        ("1 and 299, 2,919 high", ends(high(2_919), 1, 299), "111111 131113", [3_277, 2_918]),
        // 8 at 2,835: 18,436 to 18,022.68 and 18,010.97; ties 10,943 and 10,965.
        ("299 and 300 before a pierced wall", ends(pierced, 299, 300), "111111 122112", [2_720, 2_716]),
        ("1 and 299 before a pierced wall", ends(pierced, 1, 299), "111111 133113", [3_277, 2_720]),
        // Of 8,943 the ties hold 8,943 and not 8,965.
        ("299 and 300 of a single row", ends(single, 299, 300), "111111 113111", [2_639, 2_636]),
        ("1 and 299 of a single row", ends(single, 1, 299), "111111 111111", [3_206, 2_639]),
        ("1 and 700 of a single row", ends(single, 1, 700), "111111 133113", [3_206, 1_422]),
        // The shield up and the strength down: 199 bears 0.5 × 199,000 × 0.2 = 19,900 of 19,499, and 194 19,400.
        (
            "299 on 199 and 300 on 194",
            [half_closed(299).with(24, 199), half_closed(300).with(24, 194)],
            "111111 113133",
            [2_918, 2_915],
        ),
    ];
    named(cases.map(|(name, pair, checks, heights)| (format!("half closed {name}"), is_told(&pair, checks, heights))))
}

/// 12 with 18, unless a lower field is unlike or runs the wrong way.
fn wrong() -> Cases {
    let falling = [(300, 299), (299, 298), (2, 1), (128, 127), (256, 255), (300, 1), (700, 1), (700, 299), (301, 300)];
    let falling = falling.map(|(mild, harsh)| {
        let holds = [half_closed, single].iter().all(|&job| is_refused(&ends(job, mild, harsh), 12, 18));
        (format!("half closed {mild} and {harsh}"), holds)
    });
    let several = [
        ("16 before 18", [half_closed(300), half_closed(299).with(16, 1_599)], 16),
        ("18 before 24", [half_closed(300), half_closed(299).with(24, 201)], 18),
        ("18 before 19", [half_closed(300), half_closed(299).with(19, 2)], 18),
        ("24 behind 299 and 300", [half_closed(299), half_closed(300).with(24, 201)], 24),
        ("15 before 299 and 300", [half_closed(299), half_closed(300).with(15, 499)], 15),
    ];
    let several = several.map(|(name, pair, field)| (format!("half closed, {name}"), is_refused(&pair, 12, field)));
    [named(falling), named(several)].concat()
}

/// 3 with 18 of the mild job, with 43 of the harsh one; the mild job first, and both before the order.
fn outside() -> Cases {
    let cases = [
        ("0 and 300", ends(half_closed, 0, 300), 18),
        ("299 and 0", ends(half_closed, 299, 0), 43),
        ("1 and 701", ends(half_closed, 1, 701), 43),
        ("701 and 299", ends(half_closed, 701, 299), 18),
        ("0 and 0", ends(half_closed, 0, 0), 18),
        ("0 and 701", ends(half_closed, 0, 701), 18),
        ("701 and 0 of a single row", ends(single, 701, 0), 18),
        ("299 and 0 of a single row", ends(single, 299, 0), 43),
        ("299 and enclosure 4", [half_closed(299), half_closed(300).with(17, 4)], 42),
        ("enclosure 4 and 299", [half_closed(1).with(17, 4), half_closed(299)], 17),
        ("299 and 0 in less wind", [half_closed(299), half_closed(0).with(15, 499)], 43),
    ];
    named(cases.map(|(name, pair, place)| (format!("half closed {name}, out of range"), is_refused(&pair, 3, place))))
}

/// 12 with 17 of two enclosures, whose shields stand in both; what stands in one alone is refused before that.
fn unlike() -> Cases {
    let with = |enclosure: u32, shield: u32| J.with(17, enclosure).with(18, shield);
    let cases = [
        ("open 200 and half closed 200", [with(1, 200), with(2, 200)], 12, 17),
        ("half closed 200 and open 200", [with(2, 200), with(1, 200)], 12, 17),
        ("half closed 299 and fully closed 299", [with(2, 299), with(3, 299)], 12, 17),
        ("fully closed 1 and half closed 1", [with(3, 1), with(2, 1)], 12, 17),
        ("half closed 300 and open 299", [with(2, 300), with(1, 299)], 12, 17),
        ("open 701 and half closed 701", [with(1, 701), with(2, 701)], 3, 43),
        ("half closed 701 and fully closed 701", [with(2, 701), with(3, 701)], 3, 18),
        ("fully closed 701 and half closed 1", [with(3, 701), with(2, 1)], 12, 17),
    ];
    named(cases.map(|(name, pair, number, place)| (name.to_string(), is_refused(&pair, number, place))))
}
