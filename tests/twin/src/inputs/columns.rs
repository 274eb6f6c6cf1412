//! Columns: all that there are, what the slenderness of each shows, and how those that demand 3 orders stand together.

use crate::paper::figures::{column_tenths, unrounded_column_slenderness};
use crate::paper::fraction::{Fraction, d};
use crate::paper::job::{Fields, Job};
use std::collections::BTreeMap;

/// Family, tube, spacing, tie interval and step: all that a pole's slenderness goes by.
pub type Column = [u32; 5];

/// A job with the column's fields.
pub fn with_column(job: &Job, [family, tube, spacing, interval, step]: Column) -> Job {
    job.with(1, family).with(2, tube).with(3, spacing).with(6, interval).with(5, step)
}

pub fn job_of(column: Column) -> Job {
    with_column(&Fields([1; 25]), column)
}

pub fn spacings(family: u32) -> Vec<u32> {
    if family == 1 { vec![105, 130, 155] } else { (60..=150).collect() }
}

pub fn all() -> Vec<Column> {
    let mut columns = Vec::new();
    for (family, tube) in [(1, 1), (1, 2), (2, 1), (2, 2)] {
        for spacing in spacings(family) {
            for interval in [2, 3] {
                columns.extend((60..=200).map(|step| [family, tube, spacing, interval, step]));
            }
        }
    }
    columns
}

pub fn tenths(column: Column) -> u32 {
    column_tenths(&job_of(column)) as u32
}

/// Where the sheet is read: the entry before Z and the tenths past it; none above 250.
pub fn place(job: &Job) -> Option<(usize, u32)> {
    place_at(column_tenths(job) as u32)
}

pub fn place_at(tenths: u32) -> Option<(usize, u32)> {
    (tenths <= 2_500).then_some((tenths as usize / 10, tenths % 10))
}

/// How many things a column can show: those below, and as 0 to 9 the last digit of its tenths, up to 250.
pub const FEATURES: u32 = 16;
/// Up to 250, a whole number before it is rounded.
pub const WHOLE: u32 = 10;
/// Up to 250, a tenth before it is rounded but no whole number.
pub const TENTH: u32 = 11;
/// Up to 250, and the nearest tenth is not the one above.
pub const NEAREST: u32 = 12;
/// Above 249.9 and up to 250.
pub const JUST_BELOW: u32 = 13;
/// Above 250 and up to 251.
pub const JUST_ABOVE: u32 = 14;
/// Above 250, and up to a tenth is not up to a whole number.
pub const COARSE: u32 = 15;

fn shows(feature: u32, z: Fraction) -> bool {
    let (on_sheet, in_tenths) = (z <= d!(250), z * d!(10));
    match feature {
        WHOLE => on_sheet && z.is_whole(),
        TENTH => on_sheet && in_tenths.is_whole() && !z.is_whole(),
        NEAREST => on_sheet && (in_tenths + d!(0.5)).down() != in_tenths.up(),
        JUST_BELOW => on_sheet && z > d!(249.9),
        JUST_ABOVE => !on_sheet && z <= d!(251),
        COARSE => !on_sheet && in_tenths.up() != 10 * z.up(),
        digit => on_sheet && in_tenths.up() % 10 == i128::from(digit),
    }
}

/// Something found for a family, a tube and a feature, a side or a relation; what nothing shows is not there.
pub type Found<T> = BTreeMap<[u32; 3], Vec<T>>;

/// Columns of any kind with their family, their tube and their unrounded slenderness.
type Measured<C> = Vec<([u32; 2], C, Fraction)>;

fn measured() -> Measured<Column> {
    let measure = |column: Column| ([column[0], column[1]], column, unrounded_column_slenderness(&job_of(column)));
    all().into_iter().map(measure).collect()
}

/// Family, tube and feature, with every column that shows it.
pub fn featured() -> Found<Column> {
    by_feature(&measured())
}

pub fn by_feature<C: Copy>(columns: &Measured<C>) -> Found<C> {
    let mut found = Found::new();
    for &([family, tube], column, z) in columns {
        for feature in (0..FEATURES).filter(|&feature| shows(feature, z)) {
            found.entry([family, tube, feature]).or_insert_with(Vec::new).push(column);
        }
    }
    found
}

/// The sides of the joint at 250: the greatest slenderness up to it and the least above.
pub const UP_TO: u32 = 0;
pub const ABOVE: u32 = 1;

/// Family, tube and side, with every column nearest to the joint on that side.
pub fn beside_joint() -> Found<Column> {
    by_joint(&measured())
}

pub fn by_joint<C: Copy>(columns: &Measured<C>) -> Found<C> {
    let mut found: BTreeMap<[u32; 3], (Fraction, Vec<C>)> = BTreeMap::new();
    for &([family, tube], column, z) in columns {
        let (side, distance) = if z <= d!(250) { (UP_TO, d!(250) - z) } else { (ABOVE, z - d!(250)) };
        let (least, nearest) = found.entry([family, tube, side]).or_insert((distance, Vec::new()));
        if distance < *least {
            *least = distance;
            nearest.clear();
        }
        if distance == *least {
            nearest.push(column);
        }
    }
    found.into_iter().map(|(key, (_, nearest))| (key, nearest)).collect()
}

/// Of two columns that demand 3 orders: equally slender, between two entries.
pub const ALIKE: u32 = 0;
/// At an entry and at the next.
pub const ENDS: u32 = 1;
/// Between two entries each, in intervals that share one.
pub const NEIGHBOURS: u32 = 2;
/// Up to 250 and above it by no more than 1.
pub const ACROSS: u32 = 3;
/// Unequally slender within one interval, not both at its ends.
pub const INSIDE: u32 = 4;

pub fn relation(first: u32, second: u32) -> Option<u32> {
    let (k, next) = (first / 10, second / 10);
    let at_entries = (first.is_multiple_of(10), second.is_multiple_of(10));
    match (first <= 2_500, second <= 2_500) {
        (true, false) => (second <= 2_510).then_some(ACROSS),
        (true, true) if first == second => (!at_entries.0).then_some(ALIKE),
        (true, true) if second == first + 10 && at_entries.0 => Some(ENDS),
        (true, true) if second <= 10 * k + 10 => Some(INSIDE),
        (true, true) if next == k + 1 && at_entries == (false, false) => Some(NEIGHBOURS),
        _ => None,
    }
}

/// The column itself, and those that are one step of a field harsher.
fn no_milder([family, tube, spacing, interval, step]: Column) -> Vec<Column> {
    let wider = spacings(family).into_iter().find(|&wider| wider > spacing);
    let mut columns = vec![[family, tube, spacing, interval, step]];
    columns.extend((step < 200).then_some([family, tube, spacing, interval, step + 1]));
    columns.extend((interval < 3).then_some([family, tube, spacing, interval + 1, step]));
    columns.extend(wider.map(|wider| [family, tube, wider, interval, step]));
    columns
}

/// Family, tube and relation, with every pair of columns at most one step apart that stand so.
/// No field makes a pole less slender, so that columns several steps apart are no nearer to each other.
pub fn pairs() -> Found<(Column, Column)> {
    let mut found = Found::new();
    for first in all() {
        for second in no_milder(first) {
            if let Some(relation) = relation(tenths(first), tenths(second)) {
                found.entry([first[0], first[1], relation]).or_insert_with(Vec::new).push((first, second));
            }
        }
    }
    found
}
