//! One case through the two calls of a side: what is returned, and every number and byte lent.

use crate::compare::Side;
use crate::marked::{self, case};
use std::fmt::Debug;

/// Refusal × 4,294,967,296 + place.
pub fn refusal(number: u64, place: u64) -> u64 {
    number * 4_294_967_296 + place
}

/// What stands in lent numbers before a call.
pub fn before_numbers(length: usize) -> Vec<u32> {
    (0..length).map(|at| 0xDEAD_0000 + at as u32).collect()
}

/// What stands in lent bytes before a call.
pub fn before_bytes(length: usize) -> Vec<u8> {
    (0..length).map(|at| 0xE0 | (at % 13) as u8).collect()
}

/// A side, its name, and what came of the cases that were tried on it.
pub struct Cases<'a> {
    side: &'a Side,
    named: &'a str,
    pub told: marked::Cases,
}

impl<'a> Cases<'a> {
    pub fn of(side: &'a Side, named: &'a str) -> Self {
        Cases { side, named, told: Vec::new() }
    }

    pub fn tried(&mut self, name: &str, fault: Option<String>) {
        let said = fault.as_ref().map_or(String::new(), |fault| format!(": {fault}"));
        self.told.push(case(&format!("{}, {name}{said}", self.named), fault.is_none()));
    }

    pub fn write_book(&self, numbers: &[u32], lent: &mut [u8]) -> u64 {
        (self.side.write_book)(numbers, lent)
    }

    pub fn read_book(&self, book: &[u8], lent: &mut [u32]) -> u64 {
        (self.side.read_book)(book, lent)
    }

    /// The result, and everything lent, beside what they have to be.
    fn compared<T: PartialEq + Debug>(&mut self, name: &str, [got, want]: [u64; 2], lent: &[T], left: &[T]) {
        let fault = if got != want {
            Some(format!("{} at {}, not {} at {}", got >> 32, got as u32, want >> 32, want as u32))
        } else {
            (0..lent.len()).find(|&at| lent[at] != left[at]).map(|at| format!("lent number {at} is {:?}", lent[at]))
        };
        self.tried(name, fault);
    }

    /// Reads into `lent` numbers; the result has to be `want`, and the lent numbers `rows` and then what they were.
    pub fn reads(&mut self, name: &str, book: &[u8], lent: usize, want: u64, rows: &[[u32; 25]]) {
        let (mut numbers, mut left) = (before_numbers(lent), before_numbers(lent));
        let got = self.read_book(book, &mut numbers);
        left[..25 * rows.len()].copy_from_slice(rows.as_flattened());
        self.compared(name, [got, want], &numbers, &left);
    }

    /// A refusal in reading leaves all numbers, whatever room is lent.
    pub fn read_refused(&mut self, name: &str, book: &[u8], lent: usize, number: u64, place: u64) {
        self.reads(name, book, lent, refusal(number, place), &[]);
    }

    /// Writes into `lent` bytes; the result has to be `want`, and the lent bytes `book` and then what they were.
    pub fn writes(&mut self, name: &str, numbers: &[u32], lent: usize, want: u64, book: &[u8]) {
        let (mut bytes, mut left) = (before_bytes(lent), before_bytes(lent));
        let got = self.write_book(numbers, &mut bytes);
        left[..book.len()].copy_from_slice(book);
        self.compared(name, [got, want], &bytes, &left);
    }

    /// A refusal in writing leaves all bytes, whatever room is lent.
    pub fn write_refused(&mut self, name: &str, numbers: &[u32], lent: usize, number: u64, place: u64) {
        self.writes(name, numbers, lent, refusal(number, place), &[]);
    }

    /// Both ways round, in just the room that is needed, and with room left over on both sides.
    pub fn both_ways(&mut self, name: &str, rows: &[[u32; 25]], book: &[u8]) {
        let (numbers, length, count) = (rows.as_flattened(), book.len(), rows.len());
        for spare in [0, 1, 24, 25, 60] {
            self.writes(&format!("{name}, written, {spare} bytes more"), numbers, length + spare, length as u64, book);
            self.reads(&format!("{name}, read, {spare} numbers more"), book, 25 * count + spare, count as u64, rows);
        }
    }
}
