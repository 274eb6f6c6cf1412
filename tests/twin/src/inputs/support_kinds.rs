//! The turns on accepted supports: uniform, at a limit, without wind, by slenderness, and pairs.

use super::columns::{ACROSS, ALIKE};
use super::kinds::{around_limit, both_sides, equal, judged, limit_pair_cell, single, through, windy_cell};
use super::sheets::{ending, valid};
use super::slender::{feature_cell, in_turn, joint_cell, misreading_cell, pair_cell};
use super::support_columns::{support_of, with_column};
use super::support_limits::{AIMS, STILL, aim, at_limit as support_at_limit, edge, edge_on, still_edge, telling};
use super::supports::{ANY_FIELD, FAMILY, LOADS_AND_GROUND, accepted, any_accepted, harsher};
use super::tuned::{Aim, bearing, sheet_for};
use super::{Lists, Planned, Relation, Turn};
use crate::coverage::{Cell, Expect, cell};
use crate::paper::sheet::Sheet;
use crate::paper::support::{check, pole_force, tenths};
use crate::random::Random;

fn plain(random: &mut Random) -> Planned {
    let (support, sheet) = (any_accepted(random), valid(random));
    judged(random, &support, &sheet, Vec::new())
}

fn plain_turn(random: &mut Random, calls: usize) -> Turn {
    Turn { calls: (0..calls).map(|_| plain(random)).collect(), relation: Relation::Nothing }
}

pub fn uniform(random: &mut Random, _: &Lists, turn: u64) -> Turn {
    let (support, kind) = (any_accepted(random), [0, 0, 0, 1, 2][turn as usize % 5]);
    // Reading a support gives 13, and what it gives is no length of a file.
    let expect = if kind == 2 { Expect::Length(13) } else { Expect::Success };
    single(through(random, kind, &support), vec![(accepted_cell(kind as u32, support.field(2)), expect)])
}

pub fn accepted_cell(kind: u32, tube: u32) -> Cell {
    cell("accepted", [kind, FAMILY, tube, 0])
}

/// The last support that passes, the first that fails, and one step to each side.
pub fn tuned(random: &mut Random, _: &Lists, turn: u64) -> Turn {
    let aim = aim(turn);
    match edge(random, aim) {
        Some(edge) => around_limit(random, aim, &edge),
        None => plain_turn(random, 4),
    }
}

/// A support whose compared quantities are equal; every ninth stands so in check 8 in wind.
pub fn at_limit(random: &mut Random, lists: &Lists, turn: u64) -> Turn {
    let planned = if turn % 9 == 8 {
        let (fine, support, sheet) = &lists.windy_supports[turn as usize / 9 % lists.windy_supports.len()];
        let cells = vec![(windy_cell(FAMILY, support.field(2), *fine), Expect::Verdict(8, 1))];
        judged(random, support, &sheet.0, cells)
    } else {
        let aim = aim(turn % 9);
        match support_at_limit(random, aim) {
            Some((support, sheet)) => equal(random, aim, &support, &sheet),
            None => plain(random),
        }
    };
    Turn { calls: vec![planned], relation: Relation::Nothing }
}

/// Check 8 at its limit where there is no wind: it is due all the same.
pub fn still(random: &mut Random, _: &Lists, turn: u64) -> Turn {
    let (field, tube) = (STILL[turn as usize % 2], 1 + (turn / 2 % 2) as u32);
    match still_edge(random, Aim { check: 8, family: FAMILY, tube }, field) {
        Some(edge) => both_sides(random, &edge, 8, |side| still_cell(field, tube, side)),
        None => plain_turn(random, 2),
    }
}

pub fn still_cell(field: usize, tube: u32, side: u32) -> Cell {
    cell("check 8 without wind", [field as u32, tube, side, 0])
}

/// A column of every feature in turn, bearing about its load where the sheet decides that.
pub fn column(random: &mut Random, lists: &Lists, turn: u64) -> Turn {
    let (key, columns) = in_turn(&lists.support_columns.featured, turn);
    let column = random.pick(columns);
    let (support, share) = (with_column(&accepted(random, key[1]), column), random.within(900, 1_300));
    let sheet = bearing(random, &support, pole_force(&support), share).unwrap_or_else(|| Sheet(ending(random)));
    let cells = vec![(feature_cell(key), Expect::Column(tenths(&support_of(column)) as u32))];
    Turn { calls: vec![judged(random, &support, &sheet.0, cells)], relation: Relation::Nothing }
}

/// Family, tube, wrong reading, and the check whose verdict it changes.
pub fn misreading(turn: u64) -> [u32; 4] {
    let turn = turn as u32;
    [FAMILY, 1 + turn % 2, turn / 2 % 4, 7 + turn / 8 % 2]
}

/// As many turns as there are wrong readings to be told apart.
pub const MISREADINGS: u64 = 16;

/// A fall between two entries by which a wrong reading of the line shows.
pub fn cliff(random: &mut Random, _: &Lists, turn: u64) -> Turn {
    let key @ [family, tube, reading, number] = misreading(turn);
    let aim = Aim { check: number as usize, family, tube };
    let planned = match telling(random, aim, reading) {
        Some((support, sheet)) => {
            let verdict = check(aim.check, &support, &sheet).verdict();
            judged(random, &support, &sheet.0, vec![(misreading_cell(key), Expect::Verdict(aim.check, verdict))])
        }
        None => plain(random),
    };
    Turn { calls: vec![planned], relation: Relation::Nothing }
}

/// Check 7 or 8 at its limit on the columns nearest to 250 and at 250 itself, the last entry being 117.
pub fn joint(random: &mut Random, lists: &Lists, turn: u64) -> Turn {
    let found = &lists.support_columns.joint;
    let (key, columns) = in_turn(found, turn);
    let (check, column) = (7 + turn as usize / found.len() % 2, random.pick(columns));
    let aim = Aim { check, family: FAMILY, tube: key[1] };
    match edge_on(random, aim, column, |random, _, _| Sheet(ending(random))) {
        Some(edge) => both_sides(random, &edge, check, |side| joint_cell(key, check, side)),
        None => plain_turn(random, 2),
    }
}

/// Pairs on columns of every relation in turn; the first support fails check 7 or 8 by one step of a load.
pub fn column_pair(random: &mut Random, lists: &Lists, turn: u64) -> Turn {
    let found = &lists.support_columns.pairs;
    let (key, columns) = in_turn(found, turn);
    let (check, (milder, slenderer)) = (7 + turn as usize / found.len() % 2, random.pick(columns));
    let aim = Aim { check, family: FAMILY, tube: key[1] };
    let edge = match key[2] {
        ACROSS => edge_on(random, aim, milder, |random, _, _| Sheet(ending(random))),
        _ => edge_on(random, aim, milder, sheet_for),
    };
    let Some(edge) = edge else {
        return plain_turn(random, 2);
    };
    let first = edge.failing;
    let alone = key[2] != ALIKE && random.once_in(2);
    let second = if alone { first } else { harsher(random, &first, LOADS_AND_GROUND) };
    let second = with_column(&second, slenderer);
    let cells = vec![(pair_cell(key, check), Expect::Verdict(check, 2))];
    let calls = vec![judged(random, &first, &edge.sheet.0, Vec::new()), judged(random, &second, &edge.sheet.0, cells)];
    Turn { calls, relation: Relation::Pair }
}

/// Pairs: the first support stands just beyond a limit in most turns, the second is harsher in one of two orders.
pub fn pair(random: &mut Random, _: &Lists, turn: u64) -> Turn {
    let (aim, order) = (aim(turn), [LOADS_AND_GROUND, ANY_FIELD][(turn / AIMS % 2) as usize]);
    let (first, sheet) = match edge(random, aim) {
        Some(edge) => (if random.once_in(4) { edge.passing } else { edge.failing }, edge.sheet),
        None => (any_accepted(random), Sheet(valid(random))),
    };
    let second = harsher(random, &first, order);
    let cells = vec![(limit_pair_cell(aim, order), Expect::Verdict(aim.check, 2))];
    let calls = vec![judged(random, &first, &sheet.0, Vec::new()), judged(random, &second, &sheet.0, cells)];
    Turn { calls, relation: Relation::Pair }
}
