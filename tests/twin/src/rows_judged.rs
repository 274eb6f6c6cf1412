//! What request 9/14 asks of the first failing row, tried on the library's own reports of the rows and its own reading.

use crate::call::Call;
use crate::compare::{Answer, library};
use crate::coverage::{Cell, cell};
use crate::inputs::books::MOST;
use crate::inputs::jobs::any_accepted;
use crate::paper::refusal::NONE;
use crate::random::Random;
use crate::reading::{self, Report};

/// A book as the library reads it.
struct Book<'a> {
    sheet: &'a [u8],
    rows: Vec<[u32; 25]>,
    fill: u64,
}

/// The cell of a call on a book whose answer holds, or what is broken.
pub fn tried(call: &Call, answer: &Answer) -> Option<Result<Cell, String>> {
    let Call::FirstFailing { sheet, book, fill } = call else { return None };
    let read = library(&Call::ReadBook { book: book.clone(), numbers: 200 * 25, fill: *fill });
    Some(match answer.refusal() {
        0 => told(&Book { sheet, rows: rows_of(&read), fill: *fill }, &read, answer),
        1 | 2 => refused_alike(answer, &report_of(sheet, Vec::new(), *fill)),
        _ => refused_alike(answer, &read),
    })
}

fn rows_of(read: &Answer) -> Vec<[u32; 25]> {
    let rows = if read.refusal() == 0 { read.returned as usize } else { 0 };
    read.numbers().as_chunks().0[..rows].to_vec()
}

/// The sheet is refused as by the whole call, the book as by its reader with room for every row.
fn refused_alike(answer: &Answer, other: &Answer) -> Result<Cell, String> {
    if answer.returned != other.returned {
        let [one, other] = [answer, other].map(|told| format!("{} at {}", told.refusal(), told.place()));
        return Err(format!("first failing: refused {one}, and alone {other}"));
    }
    Ok(refused_cell(answer.refusal()))
}

pub fn refused_cell(refusal: u64) -> Cell {
    cell("first failing row refused", [refusal as u32, 0, 0, 0])
}

/// The place and the number against the reports of the rows, and against the same answer on other rows behind.
fn told(book: &Book, read: &Answer, answer: &Answer) -> Result<Cell, String> {
    if read.refusal() != 0 {
        return Err(format!("first failing: answered, and the book is read with refusal {}", read.refusal()));
    }
    let reports = up_to_failing(book).ok_or("first failing: a row has no report")?;
    let failing = reports.last().filter(|report| shows_2(report));
    let place = failing.map_or(NONE, |_| reports.len() as u32 - 1);
    let wanted = [place, reports.len() as u32];
    if answer.numbers() != wanted {
        return Err(format!("first failing: {:?} told, {wanted:?} by the reports of the rows", answer.numbers()));
    }
    match failing {
        Some(report) => others_behind(book, &wanted).map(|()| failing_cell(book, report, place as usize)),
        None => Ok(judged_cell(0, 0, 0)),
    }
}

/// The reports of the rows, to the first that shows a failed check; none where a row is refused.
fn up_to_failing(book: &Book) -> Option<Vec<Report>> {
    let mut reports = Vec::new();
    for row in &book.rows {
        let report = report(book, row)?;
        reports.push(report);
        if shows_2(&report) {
            break;
        }
    }
    Some(reports)
}

fn shows_2(report: &Report) -> bool {
    report.verdicts.contains(&2)
}

/// The library's report of a row, from the file that the library makes of it.
fn report(book: &Book, row: &[u32; 25]) -> Option<Report> {
    let file = library(&Call::Write { numbers: *row, file: 42, fill: book.fill });
    if file.refusal() != 0 {
        return None;
    }
    let told = report_of(book.sheet, file.bytes().to_vec(), book.fill);
    reading::read(told.bytes()).filter(|_| told.refusal() == 0)
}

fn report_of(sheet: &[u8], file: Vec<u8>, fill: u64) -> Answer {
    library(&Call::Verdict { sheet: sheet.to_vec(), file, report: 178, fill })
}

/// The rows behind the first failing one exchanged for others, and left out: the answer stays.
fn others_behind(book: &Book, wanted: &[u32; 2]) -> Result<(), String> {
    let judged = wanted[1] as usize;
    let mut random = Random::new(book.fill, 1);
    let mut others = book.rows.clone();
    others[judged..].fill_with(|| any_accepted(&mut random).0);
    for rows in [&others, &book.rows[..judged]] {
        let again = on_rows(book, rows);
        if again.returned != 2 || again.numbers() != wanted {
            return Err(format!("first failing: {:?} with other rows behind, not {wanted:?}", again.numbers()));
        }
    }
    Ok(())
}

/// The library's answer on rows that it wrote as a book itself.
fn on_rows(book: &Book, rows: &[[u32; 25]]) -> Answer {
    let written = library(&Call::WriteBook { numbers: rows.concat(), book: MOST, fill: book.fill });
    library(&Call::FirstFailing { sheet: book.sheet.to_vec(), book: written.bytes().to_vec(), fill: book.fill })
}

fn failing_cell(book: &Book, report: &Report, place: usize) -> Cell {
    let failed: Vec<usize> = (1..=12).filter(|&check| report.verdict(check) == 2).collect();
    let alone = if let [check] = failed[..] { check } else { 0 };
    let standing = match place {
        0 => 1,
        _ if place + 1 < book.rows.len() => 2,
        _ => 3,
    };
    judged_cell(alone, book.rows[place][0], standing)
}

/// The check that alone failed, 0 for several; the family; and where the row stands: 0 none does, 1 first, 2 between
/// others, 3 last.
pub fn judged_cell(check: usize, family: u32, standing: u32) -> Cell {
    cell("first failing row by its report", [check as u32, family, standing, 0])
}
