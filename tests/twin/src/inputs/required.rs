//! The cells that a run of 100,000 calls or more has to fill, and those that cannot exist.

use super::between_checks::{self, BANDS, DUE, OF_8, band_cell, band_key, due_cell, due_key, of_8_cell};
use super::between_damage::{self, THREES, three_cell, three_key};
use super::between_order::{
    BUT_ONE, SAME, but_one_cell, but_one_key, one_field_cell, same_cell, same_key, values_cell, wrong_cell,
};
use super::book_damage::*;
use super::book_kinds::*;
use super::book_rows::*;
use super::columns::Found;
use super::damage::{ENTRY_FAULTS, entry_cell, entry_fault, length_cell, order_cell};
use super::ends::{CONTRADICTIONS, contradiction_cell, end_cell};
use super::heights::{AIMED, aimed, stability_cell};
use super::kinds::*;
use super::slender::*;
use super::support_damage::{FIRST_NUMBERS, first_number_cell, first_number_key, most_cell};
use super::support_kinds::{accepted_cell, still_cell};
use super::support_limits::{self, STILL, aim};
use super::supports::{ANY_FIELD, FAMILY, LOADS_AND_GROUND};
use super::tuned::{AIMS, Aim};
use super::{Lists, cells_required, faults, first_required, shield_required, support_damage, support_kinds};
use crate::coverage::{Cell, cell};
use crate::round_trip::round_trip_cell;
use crate::throughout::throughout_cell;

/// Every cell that can be filled.
pub fn cells(lists: &Lists) -> Vec<Cell> {
    let mut cells = limits(lists);
    for kind in 0..3 {
        cells.extend(end_cells(lists, kind));
    }
    for kind in [0, between_damage::KIND] {
        cells.extend((0..ENTRY_FAULTS).map(entry_fault).map(|(k, fault)| entry_cell(k, fault, kind)));
        cells.extend((0..=510).chain([1004, 502 + 65_536]).map(|length| length_cell(length, kind)));
    }
    for reads in [0, 1] {
        cells.extend((0..125).map(|number| cell("broken number", [number / 5, number % 5, reads, 25])));
        cells.extend((0..43).map(|cut| cell("cut or lengthened file", [cut, reads, 25, 0])));
    }
    cells.extend((0..191).map(|length| cell("length of a buffer", [0, length, 0, 0])));
    cells.extend((0..51).map(|length| cell("length of a buffer", [1, length, 0, 0])));
    cells.extend((0..4).map(|number| cell("buffer that just fits", [number / 2, number % 2, 0, 0])));
    cells.extend((0..4).map(|number| cell("own height", [1 + number / 2, number % 2, 0, 0])));
    cells.extend(columns(lists));
    cells.extend(accepted_jobs());
    cells.extend(supports(lists));
    cells.extend(support_limits(lists));
    cells.extend(orders());
    cells.extend(refusals());
    cells.extend(books());
    cells.extend(damaged_books());
    cells.extend(bad_rows(lists));
    cells.extend(order_of_ends(lists));
    cells.extend(told_of_ends(lists));
    cells.extend(refused_ends(lists));
    cells.extend(cells_required::cells());
    cells.extend(shield_required::cells());
    cells.extend(first_required::cells(lists));
    cells
}

/// The ends of ranges, the contradictions and the walls through one kind of call.
fn end_cells(lists: &Lists, kind: u32) -> Vec<Cell> {
    let ends = lists.ends.iter().map(|&end| end_cell(end, kind));
    ends.chain((0..CONTRADICTIONS).map(|number| contradiction_cell(number, kind))).collect()
}

fn supports(lists: &Lists) -> Vec<Cell> {
    let mut cells: Vec<Cell> = (0..6).map(|number| accepted_cell(number / 2, 1 + number % 2)).collect();
    for kind in 0..3 {
        cells.extend(lists.support_ends.iter().map(|&end| end_cell(end, kind)));
    }
    cells.extend((0..FIRST_NUMBERS).map(|turn| first_number_cell(first_number_key(turn))));
    for reads in [0, 1] {
        cells.extend((0..65).map(|number| cell("broken number", [number / 5, number % 5, reads, 13])));
        cells.extend((0..25).map(|cut| cell("cut or lengthened file", [cut, reads, 13, 0])));
    }
    cells.extend((0..140).map(|length| cell("length of a buffer", [2, length, 0, 0])));
    cells.extend((0..31).map(|length| cell("length of a buffer", [3, length, 0, 0])));
    cells.extend((0..4).map(|number| cell("buffer that just fits", [2 + number / 2, number % 2, 0, 0])));
    cells.extend((0..4).map(|number| most_cell(number / 2, number % 2)));
    cells
}

fn support_limits(lists: &Lists) -> Vec<Cell> {
    let mut cells = Vec::new();
    for aim in (0..support_limits::AIMS).map(aim) {
        cells.extend([LAST_PASS, FIRST_FAIL, EQUAL].map(|side| limit_cell(aim, side)));
        cells.extend([LOADS_AND_GROUND, ANY_FIELD].map(|order| limit_pair_cell(aim, order)));
        if matches!(aim.check, 7 | 8) {
            cells.push(between_cell(aim));
        }
    }
    for tube in [1, 2] {
        cells.extend([false, true].map(|fine| windy_cell(FAMILY, tube, fine)));
        for field in STILL {
            cells.extend([LAST_PASS, FIRST_FAIL].map(|side| still_cell(field, tube, side)));
        }
    }
    cells.extend((0..support_kinds::MISREADINGS).map(|turn| misreading_cell(support_kinds::misreading(turn))));
    let found = &lists.support_columns;
    cells.extend(column_cells(&found.featured, &found.joint, &found.pairs));
    cells
}

// Checks 2, 4 and 6 compare unrounded figures, which are never equal to their limits: see the searches in marked.rs.
fn limits(lists: &Lists) -> Vec<Cell> {
    let mut cells = Vec::new();
    for turn in 0..AIMS {
        let aim = Aim::number(turn);
        cells.extend([limit_cell(aim, LAST_PASS), limit_cell(aim, FIRST_FAIL)]);
        cells.push(limit_pair_cell(aim, 0));
        if !matches!(aim.check, 2 | 4 | 6) {
            cells.push(limit_cell(aim, EQUAL));
        }
        if matches!(aim.check, 7 | 8) {
            cells.push(between_cell(aim));
        }
        if !lists.atlas.exact[turn as usize].is_empty() {
            cells.push(exact_cell(aim));
        }
    }
    cells.extend((0..AIMED).map(aimed).map(|(family, height)| stability_cell(family, height)));
    cells.extend(lists.alone.keys().chain(lists.together.keys()));
    cells.extend((0..12).map(|number| cell("due boundary", [350 + number % 2, 1 + number / 2 % 3, number / 6, 0])));
    cells.extend((0..8).map(|number| windy_cell(1 + number % 2, 1 + number / 2 % 2, number / 4 == 1)));
    for (check, family, governs) in DEFLECTIONS {
        cells.extend([LAST_PASS, FIRST_FAIL].map(|side| deflection_cell(check, family, governs, side)));
    }
    cells.sort_unstable();
    cells.dedup();
    cells
}

// What no column shows, and relations in which no two columns stand, are not in the searches: see marked.rs.
fn columns(lists: &Lists) -> Vec<Cell> {
    let mut cells: Vec<Cell> = (0..MISREADINGS).map(|turn| misreading_cell(misreading(turn))).collect();
    cells.extend(column_cells(&lists.atlas.featured, &lists.atlas.joint, &lists.atlas.pairs));
    cells
}

fn column_cells<C>(featured: &Found<C>, joint: &Found<C>, pairs: &Found<(C, C)>) -> Vec<Cell> {
    let mut cells: Vec<Cell> = featured.keys().map(|&key| feature_cell(key)).collect();
    for check in [7, 8] {
        for side in [LAST_PASS, FIRST_FAIL] {
            cells.extend(joint.keys().map(|&key| joint_cell(key, check, side)));
        }
        cells.extend(pairs.keys().map(|&key| pair_cell(key, check)));
    }
    cells
}

fn accepted_jobs() -> Vec<Cell> {
    (0..36)
        .map(|number| cell("accepted", [number / 12, 1 + number / 6 % 2, 1 + number / 3 % 2, 1 + number % 3]))
        .collect()
}

/// The refusals that each kind of call can give: verdict, write and read of scaffold jobs, then of supports.
fn known() -> [&'static [u64]; 6] {
    let ([verdict, write, read], [of_support, write_support, read_support]) = (faults::KNOWN, support_damage::KNOWN);
    [verdict, write, read, of_support, write_support, read_support]
}

// A file broken at a number has no bytes after its last, so that 6 and 7 never meet.
fn orders() -> Vec<Cell> {
    let mut cells = Vec::new();
    for (kind, known) in known().into_iter().enumerate() {
        for (place, &first) in known.iter().enumerate() {
            let later = known[place + 1..].iter().filter(|&&later| (first, later) != (6, 7));
            cells.extend(later.map(|&later| order_cell(kind, first, later)));
        }
    }
    cells
}

/// The cell of a refusal: by its place where the place is a field, else by its number alone.
pub fn refusal_cell(kind: u32, number: u64, place: u64) -> Cell {
    let place = if matches!(number, 3..=5 | 12) { place as u32 } else { 0 };
    cell("refusal", [kind, number as u32, place, 0])
}

fn refusals() -> Vec<Cell> {
    let mut cells = Vec::new();
    for (kind, known) in (0..).zip(known()) {
        for &number in known {
            cells.extend(places(kind, number).into_iter().map(|place| refusal_cell(kind, number, place)));
        }
    }
    cells
}

// A file whose first number is not 3 is no support's, so that of supports only writing is refused 3 at 1.
fn places(kind: u32, number: u64) -> Vec<u64> {
    match (kind, number) {
        (0..=2, 3) => (1..=25).collect(),
        (4, 3) => (1..=13).collect(),
        (_, 3) => (2..=13).collect(),
        (_, 4) => vec![10, 12],
        (_, 5) => vec![20, 21],
        _ => vec![0],
    }
}

fn books() -> Vec<Cell> {
    let mut cells: Vec<Cell> = LIMITS.map(numbers_cell).into();
    for reads in [false, true] {
        cells.extend(SIZES.map(|size| size_cell(size, reads)));
        cells.extend(SIZES.map(|size| round_trip_cell(reads, size)));
    }
    cells.extend((0..LONGEST).map(longest_cell));
    cells.extend((0..REMAINDERS).map(remainder).map(|(rows, after)| remainder_cell(rows, after)));
    for (rows, lengths) in BUFFERS[..3].iter().enumerate() {
        cells.extend((0..*lengths).map(|length| buffer_cell(rows, length)));
    }
    cells.extend((0..BUFFERS[3]).map(fitting_cell));
    for (rows, counts) in ROOMS.iter().enumerate() {
        cells.extend((0..*counts).map(|numbers| room_cell(rows, numbers)));
    }
    cells
}

fn damaged_books() -> Vec<Cell> {
    let mut cells: Vec<Cell> = (0..3).flat_map(|follows| COUNTS.map(|count| count_cell(count, follows))).collect();
    cells.extend((0..DAMAGED_COUNTS).map(damaged_count_key).map(damaged_count_cell));
    cells.extend(COUNTS[6..].iter().map(|&count| high_count_damaged_cell(count)));
    cells.extend((0..SAME_DAMAGES as usize).map(|number| same_damage_cell(number % 3, number / 3)));
    cells.extend((0..DAMAGES).map(damage).map(|(rows, number, way)| damage_cell(rows, number, way)));
    cells.extend((0..CUTS).map(cut_cell));
    cells.extend((0..LENGTHENED).map(lengthened_cell));
    cells.extend((0..18).map(|number| two_places_cell(2 + number % 3, number / 3)));
    cells.extend((0..READING_SETS).map(|set| faults_cell(true, set)));
    cells.extend((0..WRITING_SETS).map(|set| faults_cell(false, set)));
    cells.extend([10, 11, 8].map(|number| refusal_cell(KINDS[0], number, 0)));
    cells.extend([9, 10, 11, 8].map(|number| refusal_cell(KINDS[1], number, 0)));
    cells
}

fn bad_rows(lists: &Lists) -> Vec<Cell> {
    let mut cells: Vec<Cell> = (0..BAD_ROWS).map(|turn| bad_row_cell(bad_row_key(turn))).collect();
    cells.extend((0..BAD_IN_SHORT as usize).map(|turn| bad_in_short_cell(turn % 4, turn / 4)));
    for reads in [false, true] {
        cells.extend(FAR.map(|row| far_cell(row, reads)));
        cells.extend(PAIRS.map(|rows| two_bad_cell(rows, reads)));
        cells.extend((0..ALIKE).map(|which| alike_cell(which, reads)));
    }
    for kind in KINDS {
        cells.extend(end_cells(lists, kind));
    }
    cells
}

fn order_of_ends(lists: &Lists) -> Vec<Cell> {
    let keys = &lists.order;
    let mut cells: Vec<Cell> = keys.one.iter().map(|&key| one_field_cell(key)).collect();
    cells.extend(keys.wrong.iter().map(|&fields| wrong_cell(fields)));
    cells.extend(keys.values.iter().map(|&key| values_cell(key)));
    cells.extend((0..BUT_ONE).map(but_one_key).map(but_one_cell));
    cells.extend((0..SAME).map(same_key).map(same_cell));
    cells
}

fn told_of_ends(lists: &Lists) -> Vec<Cell> {
    let mut cells: Vec<Cell> = lists.end_heights.keys().copied().collect();
    for told in 1..=3 {
        cells.extend((0..AIMS).map(Aim::number).map(|aim| between_checks::limit_cell(aim, told)));
        cells.extend((1..=12).map(|check| throughout_cell(check, told)));
    }
    cells.extend((1..=4).map(|heights| throughout_cell(13, heights)));
    for (family, tube) in [(1, 1), (1, 2), (2, 1), (2, 2)] {
        cells.extend(OF_8.map(|verdicts| of_8_cell(family, tube, verdicts)));
    }
    cells.extend((0..DUE).map(due_key).map(due_cell));
    cells.extend((0..BANDS).map(band_key).map(band_cell));
    cells
}

// Of the order only fields 20 and 21 are never named.
fn refused_ends(lists: &Lists) -> Vec<Cell> {
    let (kind, order) = (between_damage::KIND, between_damage::ORDER);
    let mut cells: Vec<Cell> = between_damage::KINDS.into_iter().flat_map(|kind| end_cells(lists, kind)).collect();
    cells.extend((0..THREES).map(three_key).map(three_cell));
    for (place, &first) in order.iter().enumerate() {
        cells.extend(order[place + 1..].iter().map(|&later| order_cell(kind as usize, first, later)));
    }
    cells.extend([1, 2].map(|number| refusal_cell(kind, number, 0)));
    cells.extend((1..=50).map(|place| refusal_cell(kind, 3, place)));
    cells.extend([10, 12, 35, 37].map(|place| refusal_cell(kind, 4, place)));
    cells.extend([20, 21, 45, 46].map(|place| refusal_cell(kind, 5, place)));
    cells.extend((1..=25).filter(|place| !matches!(place, 20 | 21)).map(|place| refusal_cell(kind, 12, place)));
    cells
}
