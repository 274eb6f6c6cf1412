//! A load cell's records in words: hexadecimal parts with commas between them, one that stands N times being HEXxN.

use crate::call::{LONGEST, hex, number, unhex};

/// Records alike that follow one another are given once.
pub fn to_words(records: &[u8]) -> String {
    let (whole, after) = records.as_chunks::<8>();
    let mut words = String::new();
    for alike in whole.chunk_by(|one, other| one == other) {
        match alike.len() {
            1 => words += &hex(&alike[0]),
            count => words += &format!(",{}x{count},", hex(&alike[0])),
        }
    }
    words += &hex(after);
    words.split(',').filter(|part| !part.is_empty()).collect::<Vec<&str>>().join(",")
}

/// The bytes of such words; no words are no bytes.
pub fn from_words(words: &str) -> Result<Vec<u8>, String> {
    let mut bytes = Vec::new();
    for part in words.split(',') {
        let (once, count) = part.split_once('x').unwrap_or((part, "1"));
        let (once, count) = (unhex(once)?, number::<usize>(count)?);
        if once.len().saturating_mul(count) > LONGEST - bytes.len() {
            return Err(format!("records have at most {LONGEST} bytes here"));
        }
        bytes.extend(once.repeat(count));
    }
    Ok(bytes)
}
