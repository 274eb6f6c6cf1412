//! The cells of the coverage table that half closed faces have to fill by their shield.

use super::kinds::{FIRST_FAIL, LAST_PASS};
use super::shield_limits::{self, HEIGHTS, PAIRS, heights_cell, heights_key, limit_keys, pair_cell, pair_key};
use super::shields::{self, ALONE, BAD_ROW, ENDS_TURNS, ROW, UNLIKE_TURNS};
use crate::coverage::Cell;
use crate::paper::job::{Fields, Job};

pub fn cells() -> Vec<Cell> {
    [met(), at_limits()].concat()
}

fn met() -> Vec<Cell> {
    let mut cells = by_hundreds();
    cells.extend((0..ALONE).map(shields::alone_key).map(shields::alone_cell));
    cells.extend((0..ROW).map(shields::row_key).map(shields::row_cell));
    cells.extend((0..BAD_ROW).map(shields::bad_row_key).map(shields::bad_row_cell));
    cells.extend((0..ENDS_TURNS).map(shields::ends_key).map(shields::ends_cell));
    cells.extend((0..UNLIKE_TURNS).map(shields::unlike_key).map(shields::unlike_cell));
    cells
}

/// Uniform jobs through each call on one job, each family, wall behind, and hundred of the range.
fn by_hundreds() -> Vec<Cell> {
    let job = |number: u32| -> Job {
        let half_closed = Fields([1; 25]).with(17, 2).with(18, 100 * (1 + number % 7));
        half_closed.with(1, 1 + number / 7 % 2).with(19, 1 + number / 14 % 2)
    };
    (0..84).filter_map(|number| shields::share_cell(number / 28, &job(number))).collect()
}

fn at_limits() -> Vec<Cell> {
    let sides = |key| [LAST_PASS, FIRST_FAIL].map(|side| shield_limits::limit_cell(key, side));
    let mut cells: Vec<Cell> = limit_keys().into_iter().flat_map(sides).collect();
    cells.extend((0..PAIRS).map(pair_key).flat_map(|key| [pair_cell(key), shield_limits::between_cell(key)]));
    cells.extend((0..HEIGHTS).map(heights_key).flat_map(|key| [0, 1].map(|above| heights_cell(key, above))));
    cells
}
