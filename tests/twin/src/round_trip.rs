//! What a book call answered, taken back by the library's other book call: nothing may be lost either way round.

use crate::call::Call;
use crate::compare::{Answer, library, to_bytes};
use crate::coverage::{Cell, cell};

/// The cell of an answered book call whose answer came back as what the call was given, or what came back instead.
pub fn tried(call: &Call, answer: &Answer) -> Option<Result<Cell, String>> {
    if answer.refusal() != 0 {
        return None;
    }
    match call {
        Call::WriteBook { numbers, fill, .. } => {
            let (rows, _) = numbers.as_chunks::<25>();
            let book = answer.bytes().to_vec();
            let back = library(&Call::ReadBook { book, numbers: rows.len() * 25, fill: *fill });
            let given = to_bytes(rows.as_flattened());
            Some(same(round_trip_cell(false, rows.len()), &back, rows.len(), &given))
        }
        Call::ReadBook { book, fill, .. } => {
            let rows = answer.returned as usize;
            let numbers = answer.numbers().get(..rows * 25)?.to_vec();
            // No bytes at all are the only book that does not write back: no rows are written as the count 0.
            let (cell, given) = match book.as_slice() {
                [] => (empty_season_cell(), &[0][..]),
                book => (round_trip_cell(true, rows), book),
            };
            let back = library(&Call::WriteBook { numbers, book: given.len(), fill: *fill });
            Some(same(cell, &back, given.len(), given))
        }
        _ => None,
    }
}

fn same(cell: Cell, back: &Answer, returned: usize, given: &[u8]) -> Result<Cell, String> {
    if back.returned == returned as u64 && back.lent() == given {
        return Ok(cell);
    }
    let came = format!("refusal {} and place or length {}", back.refusal(), back.place());
    Err(format!("round trip: what the library answered it does not take back, with {came}"))
}

pub fn round_trip_cell(reads: bool, rows: usize) -> Cell {
    cell("round trip of a book", [u32::from(reads), rows as u32, 0, 0])
}

/// No bytes read, and one byte written.
pub fn empty_season_cell() -> Cell {
    cell("round trip of no bytes", [0; 4])
}
