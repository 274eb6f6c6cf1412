//! The turns on the column slenderness: its tenths, the line between entries, the joint at 250, and pairs of columns.

use super::columns::{ACROSS, ALIKE, place, tenths, with_column};
use super::jobs::{accepted, heavier};
use super::kinds::{both_sides, judged, plain};
use super::sheets::{ending, misread};
use super::tuned::{Aim, edge_on, near_capacity, sheet_for};
use super::{Lists, Relation, Turn};
use crate::coverage::{Cell, Expect, cell};
use crate::paper::checks::check;
use crate::paper::heights::stability;
use crate::paper::job::Job;
use crate::paper::sheet::Sheet;
use crate::random::Random;
use std::collections::BTreeMap;

/// What was found for one key after another.
pub fn in_turn<K: Copy, T>(found: &BTreeMap<K, Vec<T>>, turn: u64) -> (K, &[T]) {
    let (key, all) = found.iter().nth(turn as usize % found.len()).expect("the searches found some");
    (*key, all)
}

/// A column of every feature in turn, bearing about its load where the sheet decides that.
pub fn column(random: &mut Random, lists: &Lists, turn: u64) -> Turn {
    let (key, columns) = in_turn(&lists.atlas.featured, turn);
    let (column, enclosure) = (random.pick(columns), random.within(1, 3));
    let job = with_column(&accepted(random, key[0], key[1], enclosure), column);
    let share = random.within(900, 1_300);
    let sheet = near_capacity(random, &job, job.field(7), share).unwrap_or_else(|| Sheet(ending(random)));
    let cells = vec![(feature_cell(key), Expect::Column(tenths(column)))];
    Turn { calls: vec![judged(random, &job, &sheet.0, cells)], relation: Relation::Nothing }
}

pub fn feature_cell([family, tube, feature]: [u32; 3]) -> Cell {
    cell("slenderness", [family, tube, feature, 0])
}

/// Family, tube, wrong reading, and what it changes: the verdict of check 7 or 8, or the height where that is 0.
pub fn misreading(turn: u64) -> [u32; 4] {
    let (turn, by) = (turn as u32, [7, 8, 0][turn as usize / 16 % 3]);
    [1 + turn % 2, 1 + turn / 2 % 2, turn / 4 % 4, by]
}

/// As many turns as there are wrong readings to be told apart.
pub const MISREADINGS: u64 = 48;

pub fn misreading_cell(key: [u32; 4]) -> Cell {
    cell("misreading of the line", key)
}

/// A fall between two entries by which a wrong reading of the line shows.
pub fn cliff(random: &mut Random, _: &Lists, turn: u64) -> Turn {
    let key = misreading(turn);
    let planned = match telling(random, key) {
        Some((job, sheet)) => {
            let expect = match key[3] {
                0 => Expect::Height(stability(&job, &sheet)),
                number => Expect::Verdict(number as usize, verdict(number, &job, &sheet)),
            };
            judged(random, &job, &sheet.0, vec![(misreading_cell(key), expect)])
        }
        None => plain(random),
    };
    Turn { calls: vec![planned], relation: Relation::Nothing }
}

fn verdict(number: u32, job: &Job, sheet: &Sheet) -> u8 {
    check(number as usize, job, sheet, job.field(7)).verdict()
}

fn telling(random: &mut Random, [family, tube, reading, by]: [u32; 4]) -> Option<(Job, Sheet)> {
    (0..100).find_map(|_| {
        let (enclosure, share) = (random.within(1, 3), random.within(900, 1_500));
        let job = accepted(random, family, tube, enclosure);
        let (k, _) = place(&job).filter(|&(_, tenths)| tenths != 0)?;
        let sheet = near_capacity(random, &job, job.field(7), share)?;
        let wrong = Sheet(misread(&sheet.0, k, reading));
        let shows = match by {
            0 => stability(&job, &sheet) != stability(&job, &wrong),
            number => verdict(number, &job, &sheet) != verdict(number, &job, &wrong),
        };
        shows.then_some((job, sheet))
    })
}

/// Check 7 or 8 at its limit on the columns nearest to 250, the last entry being 117: the last pass and the first fail.
pub fn joint(random: &mut Random, lists: &Lists, turn: u64) -> Turn {
    let (key, columns) = in_turn(&lists.atlas.joint, turn);
    let check = 7 + turn as usize / lists.atlas.joint.len() % 2;
    let (aim, column) = (Aim { check, family: key[0], tube: key[1] }, random.pick(columns));
    let Some(edge) = edge_on(random, aim, column, |random, _, _| Sheet(ending(random))) else {
        return Turn { calls: vec![plain(random), plain(random)], relation: Relation::Nothing };
    };
    both_sides(random, &edge, check, |side| joint_cell(key, check, side))
}

pub fn joint_cell([family, tube, beside]: [u32; 3], check: usize, side: u32) -> Cell {
    cell("limit beside 250", [family * 10 + tube, beside, check as u32, side])
}

/// Demand 3 on columns of every relation in turn; the first job fails check 7 or 8 by one step of a field.
pub fn pair(random: &mut Random, lists: &Lists, turn: u64) -> Turn {
    let (key, columns) = in_turn(&lists.atlas.pairs, turn);
    let check = 7 + turn as usize / lists.atlas.pairs.len() % 2;
    let (aim, (milder, harsher)) = (Aim { check, family: key[0], tube: key[1] }, random.pick(columns));
    let edge = match key[2] {
        ACROSS => edge_on(random, aim, milder, |random, _, _| Sheet(ending(random))),
        _ => edge_on(random, aim, milder, sheet_for),
    };
    let Some(edge) = edge else {
        return Turn { calls: vec![plain(random), plain(random)], relation: Relation::Nothing };
    };
    let first = edge.failing;
    let alone = key[2] != ALIKE && random.once_in(2);
    let second = with_column(&if alone { first } else { heavier(random, &first) }, harsher);
    let cells = vec![(pair_cell(key, check), Expect::Verdict(check, 2))];
    let calls = vec![judged(random, &first, &edge.sheet.0, Vec::new()), judged(random, &second, &edge.sheet.0, cells)];
    Turn { calls, relation: Relation::Pair }
}

pub fn pair_cell([family, tube, relation]: [u32; 3], check: usize) -> Cell {
    cell("pair of columns", [family, tube, relation, check as u32])
}
