//! The turns on what is refused or nearly so: ends of ranges, contradictions, sheets, files, buffers and several faults.

use super::any_job::AnyJob;
use super::ends::{contradiction_cell, end_cell};
use super::jobs::any_accepted;
use super::kinds::{Cells, judged, single, through};
use super::sheets::{to_bytes, valid};
use super::{Lists, Relation, Turn, ends, faults as faulty, files, jobs, sheets};
use crate::call::Call;
use crate::coverage::{Cell, Expect, cell};
use crate::paper::file;
use crate::paper::job::Fields;
use crate::paper::refusal::Refusal;
use crate::paper::sheet::Sheet;
use crate::random::Random;

/// What the call of a kind has to answer; a file goes by its first number, whichever kind of job wrote it.
pub fn expected<const N: usize>(kind: u64, job: &Fields<N>) -> Expect
where
    Fields<N>: AnyJob,
{
    match kind {
        1 => answered(job.accept()),
        _ => expected_of_file(&files::whole(job)),
    }
}

pub fn expected_of_file(bytes: &[u8]) -> Expect {
    answered(file::read(bytes).map(|_| ()))
}

fn answered(result: Result<(), Refusal>) -> Expect {
    match result {
        Ok(()) => Expect::Success,
        Err(refusal) => Expect::Refusal(refusal.number, refusal.place),
    }
}

pub fn wild(random: &mut Random, _: &Lists, turn: u64) -> Turn {
    let accepted = any_accepted(random);
    let job = jobs::wild(random, accepted);
    single(through(random, turn % 3, &job), Vec::new())
}

pub fn end(random: &mut Random, lists: &Lists, turn: u64) -> Turn {
    let end = lists.ends[turn as usize % lists.ends.len()];
    let kind = turn / lists.ends.len() as u64 % 3;
    let job = ends::job(random, end);
    single(through(random, kind, &job), vec![(end_cell(end, kind as u32), expected(kind, &job))])
}

pub fn contradiction(random: &mut Random, _: &Lists, turn: u64) -> Turn {
    let number = turn as u32 % ends::CONTRADICTIONS;
    let kind = turn / u64::from(ends::CONTRADICTIONS) % 3;
    let job = ends::contradiction(random, number);
    single(through(random, kind, &job), vec![(contradiction_cell(number, kind as u32), expected(kind, &job))])
}

/// Every entry with every fault that it can have.
pub fn damaged_sheet(random: &mut Random, _: &Lists, turn: u64) -> Turn {
    let (k, fault) = entry_fault(turn as usize);
    let (job, sheet) = (any_accepted(random), sheets::damaged(random, k, fault));
    let cells = vec![(entry_cell(k, fault, 0), Expect::Refusal(2, k as u64))];
    Turn { calls: vec![judged(random, &job, &sheet, cells)], relation: Relation::Nothing }
}

/// 251 zeros, 251 too great, 250 above the one before, and the last at 116 and below it.
pub const ENTRY_FAULTS: usize = 754;

pub fn entry_fault(turn: usize) -> (usize, usize) {
    match turn % ENTRY_FAULTS {
        number @ 0..=250 => (number, 0),
        number @ 251..=501 => (number - 251, 2),
        number @ 502..=751 => (number - 501, 1),
        number => (250, number - 749),
    }
}

/// The kind of calls is 0 for the whole call and 8 for the call on two ends, as it is of lengths.
pub fn entry_cell(k: usize, fault: usize, kind: u32) -> Cell {
    cell("damaged entry", [k as u32, fault as u32, kind, 0])
}

/// Every length from 0 to 510 but 502, and longer ones.
pub fn sheet_length(random: &mut Random, _: &Lists, turn: u64) -> Turn {
    let (sheet, expect) = long_sheet(random, turn);
    let cells = vec![(length_cell(sheet.len(), 0), expect)];
    let (job, fill) = (any_accepted(random), random.next());
    let call = Call::Verdict { sheet, file: files::whole(&job), report: 180, fill };
    single(call, cells)
}

/// A sheet of a length in turn, and what has to be answered.
pub fn long_sheet(random: &mut Random, turn: u64) -> (Vec<u8>, Expect) {
    let length = [(turn % 514) as usize, 1004, 502 + 65_536][usize::from(turn % 514 > 510) * (1 + turn as usize % 2)];
    let mut sheet = to_bytes(&valid(random));
    sheet.resize(length, 0);
    (sheet, if length == 502 { Expect::Success } else { Expect::Refusal(1, length as u64) })
}

pub fn length_cell(length: usize, kind: u32) -> Cell {
    cell("length of a sheet", [length as u32, kind, 0, 0])
}

/// A file through reading or through the whole call.
pub fn filed(random: &mut Random, file: Vec<u8>, reads: bool) -> Call {
    let fill = random.next();
    match reads {
        true => Call::Read { file, fill },
        false => Call::Verdict { sheet: to_bytes(&valid(random)), file, report: 180, fill },
    }
}

/// Files broken at every number in every way, cut at every byte and lengthened.
pub fn broken_file(random: &mut Random, _: &Lists, turn: u64) -> Turn {
    let (number, reads) = (turn % 168, turn / 168 % 2 == 1);
    if number < 125 {
        let job = any_accepted(random);
        return broken_number(random, &job, number as usize, reads);
    }
    cut_file(random, &files::longest_job(), number as usize - 125, reads)
}

/// A file broken at a number in one of the five ways.
pub fn broken_number<const N: usize>(random: &mut Random, job: &Fields<N>, number: usize, reads: bool) -> Turn {
    let (at, way) = (number / 5, number % 5);
    let (file, offset) = files::broken(random, &job.0, at, way);
    let key = [at as u32, way as u32, u32::from(reads), N as u32];
    single(filed(random, file, reads), vec![(cell("broken number", key), Expect::Refusal(6, offset as u64))])
}

/// A file cut at a byte, or lengthened where it has no such byte.
pub fn cut_file<const N: usize>(random: &mut Random, job: &Fields<N>, cut: usize, reads: bool) -> Turn {
    let mut file = files::whole(job);
    let whole = file.len();
    let expect = if cut < whole { Expect::Number(6) } else { Expect::Refusal(7, whole as u64) };
    if cut < whole {
        file.truncate(cut);
    } else {
        file.extend_from_slice(&random.next().to_le_bytes()[..1 + random.below(8)]);
    }
    let key = [cut as u32, u32::from(reads), N as u32, 0];
    single(filed(random, file, reads), vec![(cell("cut or lengthened file", key), expect)])
}

pub fn shaken_file(random: &mut Random, _: &Lists, turn: u64) -> Turn {
    let job = any_accepted(random);
    let file = files::shaken(random, &job.0);
    single(filed(random, file, turn % 2 == 1), Vec::new())
}

/// Sets of faults; the first in order has to be the one refused.
pub fn faults(random: &mut Random, _: &Lists, turn: u64) -> Turn {
    let kind = (turn % 3) as usize;
    let known = faulty::KNOWN[kind];
    let faults: Vec<u64> =
        faulty::chosen(&faulty::ORDER, 1 + turn / 3 % 255).into_iter().filter(|fault| known.contains(fault)).collect();
    let call = faulty::call(random, kind, &faults);
    let Some((&first, later)) = faults.split_first() else {
        return single(call, Vec::new());
    };
    let cells = later.iter().map(|&later| (order_cell(kind, first, later), Expect::Number(first))).collect();
    single(call, cells)
}

pub fn order_cell(kind: usize, first: u64, later: u64) -> Cell {
    cell("order of refusals", [kind as u32, first as u32, later as u32, 0])
}

/// Report buffers of 0 to 190 bytes; every fourth is exactly long enough or one byte too short.
pub fn report_buffer(random: &mut Random, _: &Lists, turn: u64) -> Turn {
    let (job, sheet, fill) = (any_accepted(random), valid(random), random.next());
    let needed = job.report(&Sheet(sheet)).len();
    let (length, cells) = lent_length(turn, 0, needed, 191);
    single(Call::Verdict { sheet: to_bytes(&sheet), file: files::whole(&job), report: length, fill }, cells)
}

/// File buffers of 0 to 50 bytes; every fourth is exactly long enough or one byte too short.
pub fn file_buffer(random: &mut Random, _: &Lists, turn: u64) -> Turn {
    let (job, fill) = (any_accepted(random), random.next());
    let (length, cells) = lent_length(turn, 1, files::whole(&job).len(), 51);
    single(Call::Write { numbers: job.0, file: length, fill }, cells)
}

pub fn lent_length(turn: u64, kind: u32, needed: usize, lengths: u64) -> (usize, Cells) {
    let short = (turn / 4 % 2) as usize;
    if turn % 4 == 3 {
        let expect = if short == 1 { Expect::Refusal(8, needed as u64) } else { Expect::Success };
        return (needed - short, vec![(cell("buffer that just fits", [kind, short as u32, 0, 0]), expect)]);
    }
    let length = ((turn - turn / 4) % lengths) as usize;
    (length, vec![(cell("length of a buffer", [kind, length as u32, 0, 0]), Expect::Anything)])
}
