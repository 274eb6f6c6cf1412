//! The twin's own answers to the whole call, on two ends, load cells and books, for inputs given line by line.

use crate::call::{counted, length, list, number, unhex};
use crate::paper::calls::{between, cells, first_failing, verdict};
use crate::records::from_words;
use std::io::{BufRead, BufWriter, Write};

/// More bytes than any report has.
const ROOM: usize = 256;

/// Answers each line in turn; the first that is not formed as it has to be ends this, with its number from 1.
pub fn answer_lines(lines: impl BufRead, out: impl Write) -> Result<(), String> {
    let said = |error: std::io::Error| error.to_string();
    let mut out = BufWriter::new(out);
    for (number, line) in (1..).zip(lines.lines()) {
        match line.map_err(said).and_then(|line| answer(&line)) {
            Ok(answer) => writeln!(out, "{answer}").map_err(said)?,
            Err(message) => {
                out.flush().map_err(said)?;
                return Err(format!("line {number}: {message}"));
            }
        }
    }
    out.flush().map_err(said)
}

/// The answer to "SHEET FILE", "between SHEET MILD HARSH", "cells RECORDS W ROOM" or "first SHEET BOOK"; none of these
/// words begins a sheet.
fn answer(line: &str) -> Result<String, String> {
    match line.split_once(' ') {
        Some(("between", ends)) => on_ends(ends),
        Some(("cells", given)) => on_records(given),
        Some(("first", given)) => on_book(given),
        _ => on_file(line),
    }
}

/// The report, its lines joined by '|', or the refusal and its place.
fn on_file(line: &str) -> Result<String, String> {
    let (sheet, file) = line.split_once(' ').ok_or("a sheet and a file are given, with one space between them")?;
    let (sheet, file) = (bytes("sheet", sheet)?, bytes("file", file)?);
    let mut report = [0; ROOM];
    let returned = verdict(&sheet, &file, &mut report);
    Ok(refused(returned).unwrap_or_else(|| {
        let text = String::from_utf8_lossy(&report[..returned as usize]);
        text.trim_end_matches('\n').replace('\n', "|")
    }))
}

/// The 14 numbers with spaces between them, or the refusal and its place.
fn on_ends(ends: &str) -> Result<String, String> {
    let parts: Vec<&str> = ends.split(' ').collect();
    let [sheet, mild, harsh] = parts[..] else {
        return Err("a sheet, a mild and a harsh job are given, with one space between each two".to_string());
    };
    let (sheet, mild, harsh) = (bytes("sheet", sheet)?, counted(list(mild)?)?, counted(list(harsh)?)?);
    let mut told = [0; 14];
    let returned = between(&sheet, &mild, &harsh, &mut told);
    Ok(refused(returned).unwrap_or_else(|| told.map(|number| number.to_string()).join(" ")))
}

/// The number of bytes and the numbers that they are, spaces between them, or the refusal and its place.
fn on_records(given: &str) -> Result<String, String> {
    let parts: Vec<&str> = given.split(' ').collect();
    let [records, w, room] = parts[..] else {
        return Err("records, w and a room in bytes are given, with one space between each two".to_string());
    };
    let records = match records {
        "-" => Vec::new(),
        "" => return Err("the records are missing; '-' stands for none".to_string()),
        _ => from_words(records).map_err(|message| format!("the records: {message}; '-' stands for none"))?,
    };
    let w = number(w).map_err(|message| format!("w: {message}"))?;
    let mut out = vec![0; length(room).map_err(|message| format!("the room: {message}"))?];
    let returned = cells(&records, w, &mut out);
    Ok(refused(returned).unwrap_or_else(|| {
        let numbers = out[..returned as usize].as_chunks().0.iter().map(|&number| u32::from_le_bytes(number));
        numbers.fold(returned.to_string(), |told, number| format!("{told} {number}"))
    }))
}

/// The place and the number of rows judged with a space between them, or the refusal and its place.
fn on_book(given: &str) -> Result<String, String> {
    let (sheet, book) = given.split_once(' ').ok_or("a sheet and a book are given, with one space between them")?;
    let (sheet, book) = (bytes("sheet", sheet)?, bytes("book", book)?);
    let mut told = [0; 2];
    let returned = first_failing(&sheet, &book, &mut told);
    Ok(refused(returned).unwrap_or_else(|| told.map(|number| number.to_string()).join(" ")))
}

fn refused(returned: u64) -> Option<String> {
    let (number, place) = (returned >> 32, returned & 0xFFFF_FFFF);
    (number != 0).then(|| format!("refused {number} {place}"))
}

fn bytes(name: &str, text: &str) -> Result<Vec<u8>, String> {
    match text {
        "-" => Ok(Vec::new()),
        "" => Err(format!("the {name} is missing; '-' stands for no bytes")),
        _ => unhex(text).map_err(|message| format!("the {name}: {message}, or as '-' where there are none")),
    }
}
