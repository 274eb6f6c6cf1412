//! One call to be compared: its inputs, and the words by which it can be run again.

use crate::records::{from_words, to_words};
use std::fmt;

/// The inputs of a call; `fill` seeds the bytes that lie in and around what is lent.
#[derive(Clone, PartialEq, Debug)]
pub enum Call {
    Verdict {
        sheet: Vec<u8>,
        file: Vec<u8>,
        report: usize,
        fill: u64,
    },
    Write {
        numbers: [u32; 25],
        file: usize,
        fill: u64,
    },
    WriteSupport {
        numbers: [u32; 13],
        file: usize,
        fill: u64,
    },
    Read {
        file: Vec<u8>,
        fill: u64,
    },
    /// The rows one after another, and what stands after the last whole one.
    WriteBook {
        numbers: Vec<u32>,
        book: usize,
        fill: u64,
    },
    /// The rows' room counted in numbers.
    ReadBook {
        book: Vec<u8>,
        numbers: usize,
        fill: u64,
    },
    /// A mild job and a harsh one under a sheet.
    Between {
        sheet: Vec<u8>,
        mild: [u32; 25],
        harsh: [u32; 25],
        fill: u64,
    },
    /// A load cell's records, w, and the length of the output.
    Cells {
        records: Vec<u8>,
        w: u32,
        out: usize,
        fill: u64,
    },
    /// A book under a sheet.
    FirstFailing {
        sheet: Vec<u8>,
        book: Vec<u8>,
        fill: u64,
    },
}

/// What a call begins with.
const KINDS: &str = "verdict, write, write-support, read, write-book, read-book, between, cells or first-failing";

/// No buffer longer than this is lent when words are read back.
pub const LONGEST: usize = 1 << 20;

impl fmt::Display for Call {
    fn fmt(&self, to: &mut fmt::Formatter) -> fmt::Result {
        match self {
            Call::Verdict { sheet, file, report, fill } => {
                write!(to, "verdict sheet={} file={} report={report} fill={fill}", hex(sheet), hex(file))
            }
            Call::Write { numbers, file, fill } => {
                write!(to, "write numbers={} file={file} fill={fill}", commas(numbers))
            }
            Call::WriteSupport { numbers, file, fill } => {
                write!(to, "write-support numbers={} file={file} fill={fill}", commas(numbers))
            }
            Call::Read { file, fill } => write!(to, "read file={} fill={fill}", hex(file)),
            Call::WriteBook { numbers, book, fill } => {
                write!(to, "write-book numbers={} book={book} fill={fill}", commas(numbers))
            }
            Call::ReadBook { book, numbers, fill } => {
                write!(to, "read-book book={} numbers={numbers} fill={fill}", hex(book))
            }
            Call::Between { sheet, mild, harsh, fill } => {
                let (mild, harsh) = (commas(mild), commas(harsh));
                write!(to, "between sheet={} mild={mild} harsh={harsh} fill={fill}", hex(sheet))
            }
            Call::Cells { records, w, out, fill } => {
                write!(to, "cells records={} w={w} out={out} fill={fill}", to_words(records))
            }
            Call::FirstFailing { sheet, book, fill } => {
                write!(to, "first-failing sheet={} book={} fill={fill}", hex(sheet), hex(book))
            }
        }
    }
}

fn commas(numbers: &[u32]) -> String {
    numbers.iter().map(u32::to_string).collect::<Vec<String>>().join(",")
}

pub fn hex(bytes: &[u8]) -> String {
    const DIGITS: &[u8; 16] = b"0123456789abcdef";
    let digit = |value: u8| char::from(DIGITS[usize::from(value)]);
    bytes.iter().flat_map(|byte| [digit(byte >> 4), digit(byte & 15)]).collect()
}

/// A call from the words that `Display` gives.
pub fn parse(words: &[&str]) -> Result<Call, String> {
    let (kind, rest) = words.split_first().ok_or(format!("no call given: {KINDS}"))?;
    match *kind {
        "verdict" => {
            let [sheet, file, report, fill] = values(rest, ["sheet", "file", "report", "fill"])?;
            Ok(Call::Verdict { sheet: unhex(sheet)?, file: unhex(file)?, report: length(report)?, fill: number(fill)? })
        }
        "write" => {
            let (numbers, file, fill) = writing(rest, "file")?;
            Ok(Call::Write { numbers: counted(numbers)?, file, fill })
        }
        "write-support" => {
            let (numbers, file, fill) = writing(rest, "file")?;
            Ok(Call::WriteSupport { numbers: counted(numbers)?, file, fill })
        }
        "write-book" => writing(rest, "book").map(|(numbers, book, fill)| Call::WriteBook { numbers, book, fill }),
        "read" => {
            let [file, fill] = values(rest, ["file", "fill"])?;
            Ok(Call::Read { file: unhex(file)?, fill: number(fill)? })
        }
        "read-book" => {
            let [book, numbers, fill] = values(rest, ["book", "numbers", "fill"])?;
            Ok(Call::ReadBook { book: unhex(book)?, numbers: length(numbers)?, fill: number(fill)? })
        }
        "between" => {
            let [sheet, mild, harsh, fill] = values(rest, ["sheet", "mild", "harsh", "fill"])?;
            let [mild, harsh] = [counted(list(mild)?)?, counted(list(harsh)?)?];
            Ok(Call::Between { sheet: unhex(sheet)?, mild, harsh, fill: number(fill)? })
        }
        "cells" => {
            let [records, w, out, fill] = values(rest, ["records", "w", "out", "fill"])?;
            Ok(Call::Cells { records: from_words(records)?, w: number(w)?, out: length(out)?, fill: number(fill)? })
        }
        "first-failing" => {
            let [sheet, book, fill] = values(rest, ["sheet", "book", "fill"])?;
            Ok(Call::FirstFailing { sheet: unhex(sheet)?, book: unhex(book)?, fill: number(fill)? })
        }
        other => Err(format!("'{other}' is no call: {KINDS}")),
    }
}

/// The numbers, the length of the buffer that goes by a name, and the fill.
fn writing(words: &[&str], name: &str) -> Result<(Vec<u32>, usize, u64), String> {
    let [numbers, lent, fill] = values(words, ["numbers", name, "fill"])?;
    Ok((list(numbers)?, length(lent)?, number(fill)?))
}

fn values<'a, const N: usize>(words: &[&'a str], names: [&str; N]) -> Result<[&'a str; N], String> {
    let mut found = [""; N];
    for (index, name) in names.iter().enumerate() {
        let start = format!("{name}=");
        let given = words.iter().find_map(|word| word.strip_prefix(start.as_str()));
        found[index] = given.ok_or(format!("the call lacks {name}=.."))?;
    }
    if words.len() != N {
        return Err(format!("the call takes {} and nothing else", names.join("=.. ") + "=.."));
    }
    Ok(found)
}

pub fn unhex(text: &str) -> Result<Vec<u8>, String> {
    let digits: Option<Vec<u8>> = text.chars().map(|c| c.to_digit(16).map(|digit| digit as u8)).collect();
    match digits {
        Some(digits) if digits.len() % 2 == 0 => Ok(digits.chunks(2).map(|pair| pair[0] * 16 + pair[1]).collect()),
        _ => Err("bytes are given as pairs of hexadecimal digits".to_string()),
    }
}

pub fn number<T: std::str::FromStr>(text: &str) -> Result<T, String> {
    text.parse().map_err(|_| format!("'{text}' is not a whole number in reach"))
}

pub fn length(text: &str) -> Result<usize, String> {
    match number(text)? {
        length if length <= LONGEST => Ok(length),
        _ => Err(format!("a lent buffer has at most {LONGEST} bytes or numbers here")),
    }
}

/// Numbers with commas between them, or none at all.
pub fn list(text: &str) -> Result<Vec<u32>, String> {
    if text.is_empty() { Ok(Vec::new()) } else { text.split(',').map(number).collect() }
}

pub fn counted<const N: usize>(numbers: Vec<u32>) -> Result<[u32; N], String> {
    numbers.try_into().map_err(|_| format!("the call takes {N} numbers, with commas between them"))
}
