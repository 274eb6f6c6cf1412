//! The turns on supports that are refused or nearly so: ends of ranges, first numbers, files, buffers, several faults.

use super::any_job::AnyJob;
use super::damage::{broken_number, cut_file, expected, expected_of_file, filed, lent_length, order_cell};
use super::ends::end_cell;
use super::faults::{chosen, file as faulty_file, sheet as faulty_sheet};
use super::kinds::{single, through};
use super::sheets::{to_bytes, valid};
use super::supports::{any_accepted, longest};
use super::{Lists, Turn, files, jobs};
use crate::call::Call;
use crate::coverage::{Cell, Expect, cell};
use crate::paper::file::groups;
use crate::paper::sheet::Sheet;
use crate::paper::support::{Support, range};
use crate::random::Random;

pub fn wild(random: &mut Random, _: &Lists, turn: u64) -> Turn {
    let accepted = any_accepted(random);
    let support = jobs::wild(random, accepted);
    single(through(random, turn % 3, &support), Vec::new())
}

pub fn end(random: &mut Random, lists: &Lists, turn: u64) -> Turn {
    let end = lists.support_ends[turn as usize % lists.support_ends.len()];
    let kind = turn / lists.support_ends.len() as u64 % 3;
    let support = any_accepted(random).with(end.field, end.value);
    single(through(random, kind, &support), vec![(end_cell(end, kind as u32), expected(kind, &support))])
}

/// First numbers: 3 and near it, with 3 in their low seven, eight or sixteen bits, and 3 in forms that are not shortest.
const FIRST: [&[u8]; 12] = [
    &[0],
    &[1],
    &[2],
    &[3],
    &[4],
    &[5],
    &[0x83, 0x01],
    &[0x83, 0x02],
    &[0x83, 0x80, 0x04],
    &[0xFF, 0xFF, 0xFF, 0xFF, 0x0F],
    &[0x83, 0x00],
    &[0x83, 0x80, 0x80, 0x00],
];

/// As many turns as there are first numbers, counts of numbers, jobs that the rest is taken from and calls.
pub const FIRST_NUMBERS: u64 = 96;

/// The first number's place in the list, how many numbers there are, whether a support begins the rest, and whether the
/// file is read alone.
pub fn first_number_key(turn: u64) -> [u32; 4] {
    let (first, rest) = (turn as u32 % 12, turn as u32 / 12 % 8);
    [first, if rest.is_multiple_of(2) { 13 } else { 25 }, rest / 2 % 2, rest / 4]
}

pub fn first_number_cell(key: [u32; 4]) -> Cell {
    cell("first number", key)
}

/// Files of 13 and of 25 numbers with every first number.
pub fn first_number(random: &mut Random, _: &Lists, turn: u64) -> Turn {
    let key @ [first, count, of_support, reads] = first_number_key(turn);
    let mut numbers = jobs::any_accepted(random).0;
    if of_support == 1 {
        numbers[..13].copy_from_slice(&any_accepted(random).0);
    }
    let mut file = FIRST[first as usize].to_vec();
    file.extend(numbers[1..count as usize].iter().flat_map(|&number| groups(number)));
    let expect = expected_of_file(&file);
    single(filed(random, file, reads == 1), vec![(first_number_cell(key), expect)])
}

/// Files broken at every number in every way, cut at every byte and lengthened.
pub fn broken_file(random: &mut Random, _: &Lists, turn: u64) -> Turn {
    let (number, reads) = ((turn % 90) as usize, turn / 90 % 2 == 1);
    if number < 65 {
        let support = any_accepted(random);
        return broken_number(random, &support, number, reads);
    }
    let support = longest(random);
    cut_file(random, &support, number - 65, reads)
}

/// Other damage; every second such file begins with the byte that marks a support.
pub fn shaken_file(random: &mut Random, _: &Lists, turn: u64) -> Turn {
    let support = any_accepted(random);
    let mut file = files::shaken(random, &support.0);
    if let Some(first) = file.first_mut().filter(|_| turn % 4 < 2) {
        *first = 3;
    }
    single(filed(random, file, turn % 2 == 1), Vec::new())
}

/// The refusals that each call can give on supports, in order: verdict, write, read.
pub const KNOWN: [&[u64]; 3] = [&[1, 2, 6, 7, 3, 8], &[3, 8], &[6, 7, 3]];

/// Sets of faults; the first in order has to be the one refused.
pub fn faults(random: &mut Random, _: &Lists, turn: u64) -> Turn {
    let kind = (turn % 3) as usize;
    let sets = (1 << KNOWN[kind].len()) - 1;
    let faults = chosen(KNOWN[kind], 1 + turn / 3 % sets);
    let call = faulty_call(random, kind, &faults);
    let (first, later) = (faults[0], &faults[1..]);
    let cells = later.iter().map(|&later| (order_cell(kind + 3, first, later), Expect::Number(first))).collect();
    single(call, cells)
}

fn faulty_call(random: &mut Random, kind: usize, faults: &[u64]) -> Call {
    let has = |fault: u64| faults.contains(&fault);
    let support = any_accepted(random);
    let support = if has(3) { outside(random, support) } else { support };
    // No support's file or report is shorter than 13 bytes.
    let (room, fill) = (if has(8) { random.below(13) } else { 127 }, random.next());
    match kind {
        0 => {
            let sheet = faulty_sheet(random, has(1), has(2));
            Call::Verdict { sheet, file: faulty_file(random, &support, faults), report: room, fill }
        }
        1 => support.write(room, fill),
        _ => Call::Read { file: faulty_file(random, &support, faults), fill },
    }
}

fn outside(random: &mut Random, support: Support) -> Support {
    let field = random.within(2, 13) as usize;
    let beyond = range(field).end() + random.within(1, 3);
    support.with(field, range(field).start().checked_sub(1).filter(|_| random.once_in(2)).unwrap_or(beyond))
}

/// Report buffers of 0 to 139 bytes; every fourth is exactly long enough or one byte too short.
pub fn report_buffer(random: &mut Random, _: &Lists, turn: u64) -> Turn {
    let (support, sheet, fill) = (any_accepted(random), valid(random), random.next());
    let (length, cells) = lent_length(turn, 2, support.report(&Sheet(sheet)).len(), 140);
    single(Call::Verdict { sheet: to_bytes(&sheet), file: files::whole(&support), report: length, fill }, cells)
}

/// File buffers of 0 to 30 bytes; every fourth is exactly long enough or one byte too short.
pub fn file_buffer(random: &mut Random, _: &Lists, turn: u64) -> Turn {
    let (support, fill) = (any_accepted(random), random.next());
    let (length, cells) = lent_length(turn, 3, files::whole(&support).len(), 31);
    single(support.write(length, fill), cells)
}

/// The longest report and the longest file, each into just enough room and into one byte less.
pub fn most(random: &mut Random, _: &Lists, turn: u64) -> Turn {
    let (what, short, support) = (turn % 2, turn / 2 % 2, longest(random));
    let (sheet, fill) = (to_bytes(&valid(random)), random.next());
    let (call, most) = match what {
        0 => (Call::Verdict { sheet, file: files::whole(&support), report: 127 - short as usize, fill }, 127),
        _ => (support.write(24 - short as usize, fill), 24),
    };
    let expect = if short == 1 { Expect::Refusal(8, most) } else { Expect::Length(most) };
    single(call, vec![(most_cell(what as u32, short as u32), expect)])
}

pub fn most_cell(what: u32, short: u32) -> Cell {
    cell("longest of a support", [what, short, 0, 0])
}
