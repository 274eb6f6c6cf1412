//! The columns of supports: all that there are, what the slenderness of each shows, and how two stand together.

use super::columns::{Found, by_feature, by_joint, relation};
use super::supports::FAMILY;
use crate::paper::job::Fields;
use crate::paper::support::{Support, tenths, unrounded_slenderness};

/// Tube, step and overhang: all that the slenderness of a support goes by.
pub type Column = [u32; 3];

pub fn with_column(support: &Support, [tube, step, overhang]: Column) -> Support {
    support.with(2, tube).with(3, step).with(4, overhang)
}

pub fn support_of(column: Column) -> Support {
    with_column(&Fields([FAMILY; 13]), column)
}

pub fn all() -> Vec<Column> {
    let steps = |tube: u32| (60..=200).map(move |step| (tube, step));
    [1, 2].into_iter().flat_map(steps).flat_map(|(tube, step)| (0..=100).map(move |a| [tube, step, a])).collect()
}

/// What the searches found once, before any call is made.
pub struct Columns {
    /// Tube and feature: the columns whose slenderness shows it.
    pub featured: Found<Column>,
    /// Tube and side of 250: the columns nearest to it.
    pub joint: Found<Column>,
    /// Tube and relation: pairs of columns, the second no milder.
    pub pairs: Found<(Column, Column)>,
}

pub fn search() -> Columns {
    let measure = |column: Column| ([FAMILY, column[0]], column, unrounded_slenderness(&support_of(column)));
    let measured = all().into_iter().map(measure).collect();
    Columns { featured: by_feature(&measured), joint: by_joint(&measured), pairs: pairs() }
}

/// Every pair of columns at most one step apart, or one of the overhang, by how they stand together.
fn pairs() -> Found<(Column, Column)> {
    let mut found = Found::new();
    for first in all() {
        for second in no_milder(first) {
            let [one, other] = [first, second].map(|column| tenths(&support_of(column)) as u32);
            if let Some(relation) = relation(one, other) {
                found.entry([FAMILY, first[0], relation]).or_insert_with(Vec::new).push((first, second));
            }
        }
    }
    found
}

fn no_milder([tube, step, overhang]: Column) -> Vec<Column> {
    let mut columns = vec![[tube, step, overhang]];
    columns.extend((step < 200).then_some([tube, step + 1, overhang]));
    columns.extend((overhang < 100).then_some([tube, step, overhang + 1]));
    columns
}
