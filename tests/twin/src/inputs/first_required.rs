//! The cells of the coverage table that calls on the first failing row have to fill.

use super::Lists;
use super::book_damage::*;
use super::book_rows::PAIRS;
use super::ends::{CONTRADICTIONS, contradiction_cell, end_cell};
use super::first_damage::{self, BAD_ROWS, BEHIND, SETS, behind_cell, behind_key};
use super::first_damage::{bad_far_cell, bad_row_cell, bad_row_key, judged_cell, two_bad_cell};
use super::first_failing::{aims, failing_with};
use super::first_rows::{self, *};
use super::first_sheets::{self, BOOKS, EMPTY, LENGTHS, ROOMS, bad_sheet_cell, no_bytes_cell, no_rows_cell};
use super::required::refusal_cell;
use crate::coverage::Cell;
use crate::round_trip::empty_season_cell;
use crate::rows_judged::{judged_cell as reported_cell, refused_cell};

pub fn cells(lists: &Lists) -> Vec<Cell> {
    [told(), reported(), damaged_bytes(), bad_rows(lists), bad_sheets(), no_rows_at_all()].concat()
}

fn told() -> Vec<Cell> {
    let mut cells: Vec<Cell> = sized_keys().into_iter().map(sized_cell).collect();
    cells.extend(first_rows::FAR.map(far_cell));
    cells.extend((0..ALONE).map(alone_key).map(alone_cell));
    cells.extend((0..FAMILIES).map(families_key).map(families_cell));
    cells.extend((0..NOT_DUE).map(not_due_key).map(not_due_cell));
    cells.extend((0..18).map(shape_key).map(shape_cell));
    cells
}

/// By the library's reports: a check alone, where no other fails with it, or several; first, between others, last.
fn reported() -> Vec<Cell> {
    let alone = aims().into_iter().filter(|aim| failing_with(aim.check).len() == 1);
    let kinds = alone.map(|aim| (aim.check, aim.family)).chain([(0, 1), (0, 2)]);
    let mut cells: Vec<Cell> =
        kinds.flat_map(|(check, family)| [1, 2, 3].map(|standing| reported_cell(check, family, standing))).collect();
    cells.push(reported_cell(0, 0, 0));
    cells.extend([1, 2, 9, 10, 11].map(refused_cell));
    cells.sort_unstable();
    cells.dedup();
    cells
}

/// The damage of books that are read.
fn damaged_bytes() -> Vec<Cell> {
    let mut cells: Vec<Cell> = (0..3).flat_map(|follows| COUNTS.map(|count| count_cell(count, follows))).collect();
    cells.extend((0..DAMAGED_COUNTS).map(damaged_count_key).map(damaged_count_cell));
    cells.extend(COUNTS[6..].iter().map(|&count| high_count_damaged_cell(count)));
    cells.extend((0..DAMAGES).map(damage).map(|(rows, number, way)| damage_cell(rows, number, way)));
    cells.extend((0..CUTS).map(cut_cell));
    cells.extend((0..LENGTHENED).map(lengthened_cell));
    cells.extend((0..18).map(|number| two_places_cell(2 + number % 3, number / 3)));
    cells.extend((0..SAME_DAMAGES as usize).map(|number| same_damage_cell(number % 3, number / 3)));
    let mut cells: Vec<Cell> = cells.into_iter().map(judged_cell).collect();
    cells.extend((0..SETS).map(first_damage::faults_cell));
    cells.extend((0..BEHIND).map(behind_key).map(behind_cell));
    cells.extend([1, 2, 9, 10, 11].map(|number| refusal_cell(first_damage::KIND, number, 0)));
    cells
}

fn bad_rows(lists: &Lists) -> Vec<Cell> {
    let kind = first_damage::KIND;
    let mut cells: Vec<Cell> = (0..BAD_ROWS).map(bad_row_key).map(bad_row_cell).collect();
    cells.extend(PAIRS.map(two_bad_cell));
    cells.extend(first_damage::FAR.map(bad_far_cell));
    cells.extend(lists.ends.iter().map(|&end| end_cell(end, kind)));
    cells.extend((0..CONTRADICTIONS).map(|number| contradiction_cell(number, kind)));
    cells
}

fn bad_sheets() -> Vec<Cell> {
    let mut cells: Vec<Cell> = LENGTHS.map(first_sheets::length_cell).into();
    cells.extend((0..251).map(first_sheets::entry_cell));
    cells.extend((0..6).flat_map(|what| (0..BOOKS).map(move |book| bad_sheet_cell(what, book))));
    cells
}

fn no_rows_at_all() -> Vec<Cell> {
    let mut cells: Vec<Cell> = (0..EMPTY).map(no_rows_cell).collect();
    cells.extend(ROOMS.map(no_bytes_cell));
    cells.push(empty_season_cell());
    cells
}
