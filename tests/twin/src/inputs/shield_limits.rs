//! The turns on half closed faces at a limit that the shield decides: checks 8, 9 and 12, pairs, heights and two ends.

use super::between::shifted;
use super::between_checks::with_jobs_between;
use super::jobs::bounds;
use super::kinds::{at_heights, both_sides, judged, plain};
use super::shields::{half_closed, windy};
use super::tuned::{Aim, Edge, bisect, near_capacity, sheet_for};
use super::{Lists, Relation, Turn};
use crate::coverage::{Cell, Expect, cell};
use crate::paper::between::UNDECIDED;
use crate::paper::heights::stability;
use crate::random::Random;

/// The checks whose figure goes by the shield.
const CHECKS: [u32; 3] = [8, 9, 12];

fn plain_turn(random: &mut Random, calls: usize) -> Turn {
    Turn { calls: (0..calls).map(|_| plain(random)).collect(), relation: Relation::Nothing }
}

/// Check, family, wall behind, and what a turn adds.
type Key = [u32; 4];

/// A half closed job of a shield at the limit of a check, by a field that is not the shield.
fn at_shield(random: &mut Random, [number, family, wall, _]: Key, shield: u32) -> Option<(Aim, Edge)> {
    let calm = half_closed(random, family, wall, shield);
    let job = windy(random, calm);
    let aim = Aim { check: number as usize, family, tube: job.field(2) };
    let (job, field) = match number {
        9 => (job, 22),
        // Little live load, so that the height goes by check 8 and not by 7.
        12 => (job.with(11, 0).with(12, random.within(0, 500)), 7),
        _ => (job, 13),
    };
    let sheet = sheet_for(random, &job, aim.check);
    bisect(&job, sheet, field, |job, sheet| aim.fails(job, sheet)).map(|edge| (aim, edge))
}

/// Two jobs alike but for two shields: the check passes with the one and fails with the other.
fn parted(random: &mut Random, key: Key, shields: impl Fn(&mut Random) -> [u32; 2]) -> Option<Edge> {
    (0..300).find_map(|_| {
        let [shield, other] = shields(random);
        let (aim, edge) = at_shield(random, key, shield)?;
        let failing = edge.passing.with(18, other);
        aim.fails(&failing, &edge.sheet).then_some(Edge { failing, field: 18, ..edge })
    })
}

/// Shields with which a check passes, the next one failing it.
const LAST: [u32; 5] = [1, 150, 298, 299, 300];

/// Check, family, wall behind and such a shield; with shield 1 a tie force is 1.4 × 9 × 36 + 5,000 N at most, which
/// every tie holds.
pub fn limit_keys() -> Vec<Key> {
    let key = |number: u32| {
        [CHECKS[number as usize % 3], 1 + number / 15 % 2, 1 + number / 30 % 2, LAST[number as usize / 3 % 5]]
    };
    (0..60).map(key).filter(|key| key[0] != 9 || key[3] != 1).collect()
}

/// A check at its limit by one thousandth of the shield.
pub fn limit(random: &mut Random, _: &Lists, number: u64) -> Turn {
    let keys = limit_keys();
    let key = keys[number as usize % keys.len()];
    match parted(random, key, |_| [key[3], key[3] + 1]) {
        Some(edge) => both_sides(random, &edge, key[0] as usize, |side| limit_cell(key, side)),
        None => plain_turn(random, 2),
    }
}

pub fn limit_cell([check, family, wall, shield]: Key, side: u32) -> Cell {
    cell("limit by the shield", [check, 10 * family + wall, shield, side])
}

/// As many turns as there are checks, families, walls behind and ways of two shields.
pub const PAIRS: u64 = 36;

/// Check, family, wall behind and the way of two shields.
pub fn pair_key(number: u64) -> Key {
    let number = number as u32;
    [CHECKS[number as usize % 3], 1 + number / 9 % 2, 1 + number / 18 % 2, number / 3 % 3]
}

/// Two shields in order: both below 300 (0), the first alone (1), 299 and 300 (2).
fn two_shields(random: &mut Random, way: u32) -> [u32; 2] {
    match way {
        0 => {
            let shield = random.within(1, 298);
            [shield, random.within(shield + 1, 299)]
        }
        1 => [random.within(1, 299), random.within(300, 700)],
        _ => [299, 300],
    }
}

/// Demand 3: the first job fails by one step, the second is harsher in its shield, and in other fields at times.
pub fn pair(random: &mut Random, _: &Lists, number: u64) -> Turn {
    let key = pair_key(number);
    let found = (0..300).find_map(|_| {
        let [shield, other] = two_shields(random, key[3]);
        at_shield(random, key, shield).map(|(_, edge)| (edge, other))
    });
    let Some((Edge { sheet, failing, .. }, shield)) = found else {
        return plain_turn(random, 2);
    };
    let second = shifted(random, &failing, true, 6, &[18]).with(18, shield);
    let cells = vec![(pair_cell(key), Expect::Verdict(key[0] as usize, 2))];
    let calls = vec![judged(random, &failing, &sheet.0, Vec::new()), judged(random, &second, &sheet.0, cells)];
    Turn { calls, relation: Relation::Pair }
}

pub fn pair_cell(key: Key) -> Cell {
    cell("half closed pair", key)
}

/// As many turns as there are families, walls behind and shields.
pub const HEIGHTS: u64 = 12;

/// Family, wall behind, and the shield: any below 300 (0), or it.
pub fn heights_key(number: u64) -> [u32; 3] {
    let number = number as u32;
    [1 + number / 3 % 2, 1 + number / 6 % 2, [0, 299, 300][number as usize % 3]]
}

/// Demand 3: a half closed job at heights that field 7 allows, its stability height and one above it among them.
pub fn heights(random: &mut Random, _: &Lists, number: u64) -> Turn {
    let key @ [family, wall, shield] = heights_key(number);
    let found = (0..300).find_map(|_| {
        let any = random.within(1, 299);
        let job = half_closed(random, family, wall, if shield == 0 { any } else { shield });
        let job = if random.once_in(2) { windy(random, job) } else { job };
        let share = random.within(1_000, 1_200);
        let sheet = near_capacity(random, &job, job.field(7), share)?;
        let height = stability(&job, &sheet)?;
        (1..bounds(&job, 7).1).contains(&height).then_some((job, sheet))
    });
    match found {
        Some((job, sheet)) => at_heights(random, number, job, &sheet, |above| heights_cell(key, above)),
        None => plain_turn(random, 3),
    }
}

pub fn heights_cell([family, wall, shield]: [u32; 3], above: u32) -> Cell {
    cell("heights of a half closed job", [family, wall, shield, above])
}

/// Two ends between whose shields a check fails, and jobs between them.
pub fn between(random: &mut Random, _: &Lists, number: u64) -> Turn {
    let key = pair_key(number);
    let Some(Edge { sheet, passing, failing, .. }) = parted(random, key, |random| two_shields(random, key[3])) else {
        return plain_turn(random, 7);
    };
    let pair = [passing, shifted(random, &failing, true, 6, &[18])];
    with_jobs_between(random, &pair, &sheet, vec![(between_cell(key), Expect::Told(key[0] as usize, UNDECIDED))])
}

pub fn between_cell(key: Key) -> Cell {
    cell("jobs between half closed ends", key)
}
