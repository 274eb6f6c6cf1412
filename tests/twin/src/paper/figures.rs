//! The figures: wind, loads, pole forces, slenderness, transom and ledger. Lengths in metres.
//! Those of a pole have their formula in a function that takes a support's fields too.

use super::constants::{ELASTICITY, boards, length_factor, rails, tube};
use super::fraction::{Fraction, d};
use super::job::Job;

/// wk = 0.7 × height factor × shape × w0, up to a whole N/m².
pub fn wind_pressure(height_factor: Fraction, shape: Fraction, w0: Fraction) -> Fraction {
    Fraction::whole((d!(0.7) * height_factor * shape * w0).up())
}

pub fn wind(job: &Job) -> Fraction {
    wind_pressure(job.thousandths(16), shape(job), job.number(15))
}

/// The shield when open; else 1.2 × shield × 1.0 (closed wall) or 1.3.
fn shape(job: &Job) -> Fraction {
    let shield = job.thousandths(18);
    match (job.is_open(), job.field(19)) {
        (true, _) => shield,
        (false, 1) => d!(1.2) * shield * d!(1.0),
        (false, _) => d!(1.2) * shield * d!(1.3),
    }
}

/// b = lb + 0.30 (double), lb (single).
fn deck_width(job: &Job) -> Fraction {
    if job.is_double_row() { job.lb() + d!(0.30) } else { job.lb() }
}

/// G2 = layers boarded × g × la × b / 2 + working layers × rail × la + S.
fn fittings(job: &Job) -> Fraction {
    let boarded = job.number(9) * boards(job) * job.la() * deck_width(job) / d!(2);
    boarded + job.number(10) * rails(job) * job.la() + job.number(13)
}

/// L = Q × la × b / 2.
fn live(job: &Job) -> Fraction {
    job.number(12) * job.la() * deck_width(job) / d!(2)
}

/// G1 = gk × H, the height in centimetres.
fn structure(job: &Job, height: u32) -> Fraction {
    job.number(14) * Fraction::of(i128::from(height), 100)
}

/// 1.2 dead + 1.4 live, up to a whole newton.
pub fn factored(dead: Fraction, live: Fraction) -> i128 {
    (d!(1.2) * dead + d!(1.4) * live).up()
}

/// 1.2 dead + 1.19 live, up to a whole newton.
pub fn factored_in_wind(dead: Fraction, live: Fraction) -> i128 {
    (d!(1.2) * dead + d!(1.19) * live).up()
}

/// N = 1.2(G1 + G2) + 1.4 L.
pub fn pole_force(job: &Job, height: u32) -> i128 {
    factored(structure(job, height) + fittings(job), live(job))
}

/// Nw = 1.2(G1 + G2) + 1.19 L.
pub fn pole_force_in_wind(job: &Job, height: u32) -> i128 {
    factored_in_wind(structure(job, height) + fittings(job), live(job))
}

/// Mw = 1.19 × wk × bay × h² / 10, up to a whole N·mm.
pub fn moment(wk: Fraction, bay: Fraction, h: Fraction) -> i128 {
    let newton_metres = d!(1.19) * wk * bay * h * h / d!(10);
    (newton_metres * d!(1000)).up()
}

pub fn wind_moment(job: &Job) -> i128 {
    moment(wind(job), job.la(), job.h())
}

/// factor × h / i, unrounded.
pub fn slenderness(job: &Job) -> Fraction {
    length_factor(job) * (job.h() * d!(1000)) / tube(job).radius
}

/// 1.155 × factor × h / i, not yet rounded.
pub fn unrounded_column_slenderness(job: &Job) -> Fraction {
    d!(1.155) * slenderness(job)
}

/// A slenderness as the sheet is read at it: where it is at most 250 up to a tenth, above 250 up to a whole number.
pub fn rounded_slenderness(z: Fraction) -> Fraction {
    if z <= d!(250) { up_to_a_tenth(z) } else { Fraction::whole(z.up()) }
}

fn up_to_a_tenth(z: Fraction) -> Fraction {
    Fraction::of((z * d!(10)).up(), 10)
}

/// Z = 1.155 × factor × h / i.
pub fn column_slenderness(job: &Job) -> Fraction {
    rounded_slenderness(unrounded_column_slenderness(job))
}

/// Z in tenths, a whole number of them on both sides of 250.
pub fn in_tenths(z: Fraction) -> i128 {
    (z * d!(10)).up()
}

pub fn column_tenths(job: &Job) -> i128 {
    in_tenths(column_slenderness(job))
}

/// (1.2g + 1.4q)(la/2) lb²/8 in N·mm, not yet rounded.
pub fn transom_moment(job: &Job) -> Fraction {
    let load = d!(1.2) * boards(job) + d!(1.4) * job.number(11);
    load * (job.la() / d!(2)) * (job.lb() * job.lb()) / d!(8) * d!(1000)
}

/// 5wl⁴/(384EI) in mm with w = (g + q) la/2 and l = lb.
pub fn transom_deflection(job: &Job) -> Fraction {
    let w = (boards(job) + job.number(11)) * (job.la() / d!(2)) / d!(1000);
    let l = job.lb() * d!(1000);
    d!(5) * w * (l * l * l * l) / (d!(384) * ELASTICITY * tube(job).inertia)
}

/// Pg = g × la/2 × lb/2: the dead end load of a transom without its factor.
fn dead_end_load(job: &Job) -> Fraction {
    boards(job) * (job.la() / d!(2)) * (job.lb() / d!(2))
}

/// Pq = q × la/2 × lb/2: the live end load of a transom without its factor.
fn live_end_load(job: &Job) -> Fraction {
    job.number(11) * (job.la() / d!(2)) * (job.lb() / d!(2))
}

/// (0.175Fg + 0.213Fq) la in N·mm, not yet rounded.
pub fn ledger_moment(job: &Job) -> Fraction {
    let (fg, fq) = (d!(1.2) * dead_end_load(job), d!(1.4) * live_end_load(job));
    (d!(0.175) * fg + d!(0.213) * fq) * job.la() * d!(1000)
}

/// (1.146Pg + 1.615Pq) la³/(100EI) in mm.
pub fn ledger_deflection(job: &Job) -> Fraction {
    let (pg, pq, la) = (dead_end_load(job), live_end_load(job), job.la() * d!(1000));
    (d!(1.146) * pg + d!(1.615) * pq) * (la * la * la) / (d!(100) * ELASTICITY * tube(job).inertia)
}

/// 2.15Fg + 2.30Fq in newtons, not yet rounded.
pub fn slip(job: &Job) -> Fraction {
    let (fg, fq) = (d!(1.2) * dead_end_load(job), d!(1.4) * live_end_load(job));
    d!(2.15) * fg + d!(2.30) * fq
}

/// t × h × 3la, m²: the face that one tie holds.
pub fn tie_face(job: &Job) -> Fraction {
    job.number(6) * job.h() * (d!(3) * job.la())
}

/// 1.4 wk × t × h × 3la + 5,000 (double) or 3,000 (single), up to a whole newton.
pub fn tie_force(job: &Job) -> i128 {
    let added = if job.is_double_row() { d!(5_000) } else { d!(3_000) };
    (d!(1.4) * wind(job) * tie_face(job) + added).up()
}
