//! Supports at the limit of a check, found by bisecting one field with the twin.

use super::columns::place_at;
use super::exact::whole_factor;
use super::sheets::{misread, neighbours, through, valid};
use super::support_columns::{Column, with_column};
use super::supports::{FAMILY, accepted};
use super::tuned::{Aim, Edge, SheetFor, bearing, bisect, sheet_for};
use crate::paper::constants::tube;
use crate::paper::sheet::Sheet;
use crate::paper::support::{Support, check, pole_force, pole_force_in_wind, tenths, wind_moment};
use crate::random::Random;

/// The checks that apply to a support.
pub const CHECKS: [usize; 4] = [7, 8, 10, 11];

/// As many aims as there are: each check that applies, in each tube.
pub const AIMS: u64 = 8;

pub fn aim(turn: u64) -> Aim {
    Aim { check: CHECKS[turn as usize % 4], family: FAMILY, tube: 1 + (turn / 4 % 2) as u32 }
}

/// The fields by which a check is brought to its limit.
fn fields(check: usize) -> &'static [usize] {
    match check {
        7 => &[6, 7, 3, 4],
        8 => &[6, 7, 8, 9, 10, 5, 3, 4],
        10 => &[6, 7],
        _ => &[6, 7, 12, 13],
    }
}

/// An edge of the aim's check; none where forty supports have none.
pub fn edge(random: &mut Random, aim: Aim) -> Option<Edge<13>> {
    (0..40).find_map(|_| {
        let support = accepted(random, aim.tube);
        let (sheet, field) = (sheet_for(random, &support, aim.check), random.pick(fields(aim.check)));
        bisect(&support, sheet, field, |support, sheet| aim.fails(support, sheet))
    })
}

/// An edge of check 7 or 8 on a column, by a load; none where sixty supports have none.
pub fn edge_on(random: &mut Random, aim: Aim, column: Column, sheet: SheetFor<13>) -> Option<Edge<13>> {
    (0..60).find_map(|_| {
        let support = with_column(&accepted(random, aim.tube), column);
        let (sheet, field) = (sheet(random, &support, aim.check), random.pick(&[6, 7]));
        bisect(&support, sheet, field, |support, sheet| aim.fails(support, sheet))
    })
}

/// How check 8 comes to have no wind in it: by the basic wind, field 8, or by the shape factor, field 10.
pub const STILL: [usize; 2] = [8, 10];

/// An edge of check 8 without wind, by a load; none where sixty supports have none.
pub fn still_edge(random: &mut Random, aim: Aim, field: usize) -> Option<Edge<13>> {
    (0..60).find_map(|_| {
        let support = accepted(random, aim.tube).with(field, 0);
        let (sheet, load) = (sheet_for(random, &support, 8), random.pick(&[6, 7]));
        bisect(&support, sheet, load, |support, sheet| aim.fails(support, sheet))
    })
}

/// A support whose compared quantities are equal in the aim's check; none where a search of this length finds none.
pub fn at_limit(random: &mut Random, aim: Aim) -> Option<(Support, Sheet)> {
    (0..3_000).find_map(|_| {
        let mut support = accepted(random, aim.tube);
        if aim.check == 8 {
            support = support.with(random.pick(&STILL), 0);
        }
        let sheet = match aim.check {
            7 | 8 => bearing(random, &support, pole_force(&support), 1000)?,
            _ => Sheet(valid(random)),
        };
        let edge = bisect(&support, sheet, 6, |support, sheet| aim.fails(support, sheet))?;
        aim.stands_at_limit(&edge.passing, &edge.sheet).then_some((edge.passing, edge.sheet))
    })
}

/// For each tube, supports and sheets at the very limit of check 8 in wind; true where φ is no thousandth.
pub fn windy() -> Vec<(bool, Support, Sheet)> {
    let mut random = Random::new(0, 2);
    let mut found = Vec::new();
    for number in 0..8 {
        let (tube, fine) = (1 + number % 2, number / 2 % 2 == 1);
        found.extend(at_limit_in_wind(&mut random, tube, fine).map(|(support, sheet)| (fine, support, sheet)));
    }
    found
}

fn at_limit_in_wind(random: &mut Random, tube: u32, fine: bool) -> Option<(Support, Sheet)> {
    let aim = Aim { check: 8, family: FAMILY, tube };
    (0..3_000).find_map(|_| {
        let support = accepted(random, tube);
        let (k, tenths) = place_at(tenths(&support) as u32)?;
        let (support, factor) = (0..200).find_map(|_| {
            let support = support.with(8, random.within(1, 2_000));
            let factor = whole_in_wind(&support).filter(|factor| factor.is_multiple_of(10) != fine)?;
            Some((support, factor))
        })?;
        let entries = neighbours(random, tenths, factor)?;
        let edge = bisect(&support, Sheet(through(random, k, entries)), 6, |support, sheet| aim.fails(support, sheet))?;
        aim.stands_at_limit(&edge.passing, &edge.sheet).then_some((edge.passing, edge.sheet))
    })
}

/// The least φ in ten-thousandths that bears the live load alone, φA(f − Mw/W) being a whole number of newtons.
fn whole_in_wind(support: &Support) -> Option<u32> {
    whole_factor(tube(support), wind_moment(support), pole_force_in_wind(&support.with(6, 0)))
}

/// A support and a sheet by which a wrong reading of the line changes the verdict of a check.
pub fn telling(random: &mut Random, aim: Aim, reading: u32) -> Option<(Support, Sheet)> {
    (0..100).find_map(|_| {
        let (support, share) = (accepted(random, aim.tube), random.within(900, 1_500));
        let (k, _) = place_at(tenths(&support) as u32).filter(|&(_, past)| past != 0)?;
        let sheet = bearing(random, &support, pole_force(&support), share)?;
        let wrong = Sheet(misread(&sheet.0, k, reading));
        let verdict = |sheet: &Sheet| check(aim.check, &support, sheet).verdict();
        (verdict(&sheet) != verdict(&wrong)).then_some((support, sheet))
    })
}
