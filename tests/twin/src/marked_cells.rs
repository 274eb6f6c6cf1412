//! Marked cases of load cells, worked out by hand from request 7/14 and what was decided about it, tried on both sides.

mod refused;
mod told;
mod values;

use crate::compare::{LIBRARY, Side, TWIN};
use crate::marked::{Cases, case};

pub fn cases() -> Cases {
    [values::cases(), told::cases(), refused::cases()].concat()
}

/// Eight bytes.
type Record = [u8; 8];
/// An IEEE 754 single, low byte first.
type Newtons = [u8; 4];

const fn push([first, second, third, fourth]: Newtons) -> Record {
    [1, 0, 0, 0, first, second, third, fourth]
}

const fn pull([first, second, third, fourth]: Newtons) -> Record {
    [2, 0, 0, 0, first, second, third, fourth]
}

const SILENCE: Record = [3, 0, 0, 0, 0, 0, 0, 0];
const ZERO: Newtons = [0, 0, 0, 0];
/// Its sign alone is set.
const MINUS_ZERO: Newtons = [0x00, 0x00, 0x00, 0x80];
/// 1 is 2 to the power 0: exponent 127, 3F80 0000.
const ONE: Newtons = [0x00, 0x00, 0x80, 0x3F];
/// 100,000 is 12,800,000 128ths, C3 5000; without its leading bit 43 5000. Exponent 127 + 16 = 143: 4780 0000.
const HUNDRED_THOUSAND: Newtons = [0x00, 0x50, 0xC3, 0x47];
/// One 128th more.
const ABOVE: Newtons = [0x01, 0x50, 0xC3, 0x47];

/// The bytes of 100,000 as a number: 1 86A0.
const GREATEST: [u8; 4] = [0xA0, 0x86, 0x01, 0x00];

/// Refusal × 4,294,967,296 + place.
fn refusal(number: u64, place: u64) -> u64 {
    number * 4_294_967_296 + place
}

/// Both sides have to return this, and to leave these bytes and behind them what stood there.
fn tried(name: &str, records: &[u8], w: u32, room: usize, returned: u64, out: &[u8]) -> Cases {
    let before: Vec<u8> = (0..room).map(|at| 0xE0 | (at % 13) as u8).collect();
    let mut left = before.clone();
    left[..out.len()].copy_from_slice(out);
    let is_so = |side: &(&str, Side)| {
        let mut lent = before.clone();
        ((side.1.cells)(records, w, &mut lent), lent) == (returned, left.clone())
    };
    let wrong: Vec<&str> =
        [("library", LIBRARY), ("twin", TWIN)].iter().filter(|side| !is_so(side)).map(|side| side.0).collect();
    let said = if wrong.is_empty() { String::new() } else { format!(", by the {}", wrong.join(" and the ")) };
    vec![case(&format!("load cells: {name}{said}"), wrong.is_empty())]
}

/// An answer in just the room that it needs, and with 1, 4 and 9 bytes more.
fn is_told(name: &str, records: &[Record], w: u32, out: &[u8]) -> Cases {
    let returned = 4 * records.len() as u64;
    let rooms = [0, 1, 4, 9].map(|more| (format!("{name}, {more} bytes more"), out.len() + more));
    rooms.iter().flat_map(|(name, room)| tried(name, &records.concat(), w, *room, returned, out)).collect()
}

/// A refusal leaves all bytes, whatever room is lent.
fn is_refused(name: &str, records: &[u8], w: u32, room: usize, number: u64, place: u64) -> Cases {
    tried(name, records, w, room, refusal(number, place), &[])
}
