//! The cells of the coverage table that calls on load cells have to fill.

use super::cells_damage::{LENGTHS, ROOM_TURNS};
use super::cells_faults::{FAR, SILENT_BITS, WAYS, ZERO_BYTES, zero_byte_key};
use super::cells_runs::{INSIDE, LONG, OUTSIDE, RELATIONS, SHAPES, SHORT, short_key};
use super::cells_values::{VALUE_TURNS, WHOLE_TURNS, value_key, whole_key};
use super::damage::order_cell;
use super::required::refusal_cell;
use super::{cells_damage, cells_faults, cells_runs, cells_values};
use crate::coverage::Cell;

pub fn cells() -> Vec<Cell> {
    [told(), refused()].concat()
}

fn told() -> Vec<Cell> {
    let mut cells: Vec<Cell> = (0..VALUE_TURNS).map(value_key).map(cells_values::value_cell).collect();
    cells.extend((0..WHOLE_TURNS).map(whole_key).map(cells_values::whole_cell));
    cells.extend((0..256).map(cells_values::exponent_cell));
    // Runs of more than one record that stand by chance are too rare to be required.
    cells.extend([(0, false), (0, true), (1, true)].map(|(whole, refused)| cells_values::pattern_cell(whole, refused)));
    for relation in 0..RELATIONS {
        cells.extend(INSIDE.map(|w| cells_runs::inside_cell(w, relation)));
        cells.extend((0..SHAPES).map(|shape| cells_runs::shape_cell(shape, relation)));
    }
    cells.extend((0..SHORT).map(short_key).map(cells_runs::short_cell));
    cells.extend(LONG.map(cells_runs::long_cell));
    cells
}

fn refused() -> Vec<Cell> {
    let (kind, order) = (cells_damage::KIND, cells_damage::ORDER);
    let mut cells: Vec<Cell> = OUTSIDE.map(cells_runs::outside_cell).into();
    cells.extend((0..256).map(cells_faults::kind_cell));
    cells.extend((0..ZERO_BYTES).map(zero_byte_key).map(cells_faults::zero_byte_cell));
    cells.extend((0..SILENT_BITS).map(|bit| cells_faults::silence_cell(bit as u32)));
    cells.extend((0..WAYS * WAYS).map(|ways| cells_faults::two_wrong_cell(ways % WAYS, ways / WAYS)));
    cells.extend(FAR.map(cells_faults::far_cell));
    cells.extend((0..LENGTHS).map(cells_damage::length_key).map(cells_damage::length_cell));
    cells.extend((0..ROOM_TURNS).map(cells_damage::room_key).map(cells_damage::room_cell));
    cells.extend([0, 1].map(cells_damage::fitting_cell));
    for (place, &first) in order.iter().enumerate() {
        cells.extend(order[place + 1..].iter().map(|&later| order_cell(kind as usize, first, later)));
    }
    cells.extend(order.map(|number| refusal_cell(kind, number, 0)));
    cells
}
