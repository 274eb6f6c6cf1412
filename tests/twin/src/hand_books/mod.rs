//! Marked cases of a season's book, worked out by hand from document 01, requests 3/14 and 9/14 and what was decided.
//!
//! Who wrote them saw the papers and the header, and no crate, no vector and no answer of a program. Beside each number
//! stands how it comes about. Offsets and rows count from 0, fields (columns) from 1.

mod bad_rows;
mod counts;
mod damage;
mod order;
pub mod rows;
mod shields;
mod trying;
mod whole;

use crate::compare::{LIBRARY, TWIN};
use crate::marked;
use trying::Cases;

/// Each of them, of the library and of the twin.
pub fn cases() -> marked::Cases {
    [(&LIBRARY, "library"), (&TWIN, "twin")].into_iter().flat_map(|(side, named)| of(Cases::of(side, named))).collect()
}

fn of(mut cases: Cases) -> marked::Cases {
    whole::all(&mut cases);
    counts::all(&mut cases);
    damage::all(&mut cases);
    bad_rows::all(&mut cases);
    shields::all(&mut cases);
    order::all(&mut cases);
    cases.told
}
