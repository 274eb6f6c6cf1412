//! Column sheets: valid ones of several shapes, damaged ones, and ones of a wrong length.

use crate::random::Random;

pub type Entries = [u16; 251];

/// The least that entry 250, and so every entry, may be.
const LEAST: u32 = 117;

/// Sheet T: entry k is 1000 − 4k, but at least 150.
pub fn sheet_t() -> Entries {
    std::array::from_fn(|k| (1000 - 4 * k as i32).max(150) as u16)
}

pub fn to_bytes(entries: &Entries) -> Vec<u8> {
    entries.iter().flat_map(|entry| entry.to_le_bytes()).collect()
}

/// As many shapes as a valid sheet has here.
pub const SHAPES: u32 = 9;

/// A valid sheet of any shape.
pub fn valid(random: &mut Random) -> Entries {
    let shape = random.below(SHAPES as usize) as u32;
    of_shape(random, shape)
}

/// A valid sheet of a shape.
pub fn of_shape(random: &mut Random, shape: u32) -> Entries {
    let low = random.within(LEAST, 1000);
    match shape {
        0 => sheet_t(),
        1 => [1000; 251],
        2 => [low as u16; 251],
        3 => falling(random, LEAST, 1000),
        4 => with_last(falling(random, LEAST, 1000), LEAST as u16),
        5 => steep(random),
        6 => std::array::from_fn(|k| (7_320_000 / (k * k).max(1)).clamp(LEAST as usize, 1000) as u16),
        7 => cliff(random, low),
        _ => falling(random, LEAST, low),
    }
}

/// A valid sheet whose entry k and the one after it are the two given, neither below 117.
pub fn through(random: &mut Random, k: usize, (entry, next): (u32, u32)) -> Entries {
    let (before, after) = (falling(random, entry, 1000), falling(random, LEAST, next));
    std::array::from_fn(|at| match at {
        _ if at < k => before[at],
        _ if at == k => entry as u16,
        _ if at == k + 1 => next as u16,
        _ => after[at],
    })
}

/// Two neighbouring entries on whose line the factor lies, in ten-thousandths, so many tenths past the first.
pub fn neighbours(random: &mut Random, tenths: u32, factor: u32) -> Option<(u32, u32)> {
    let entry = |next: u32| {
        let (rest, parts) = (factor - tenths * next, 10 - tenths);
        (rest.is_multiple_of(parts) && rest / parts <= 1000).then_some((rest / parts, next))
    };
    let pairs: Vec<(u32, u32)> = (LEAST..=factor / 10).filter_map(entry).collect();
    (!pairs.is_empty()).then(|| random.pick(&pairs))
}

/// A valid sheet whose last entry is 117: falling to it, or flat with one fall near the end.
pub fn ending(random: &mut Random) -> Entries {
    let (high, foot) = (random.within(LEAST, 400), random.pick(&[240, 249, 250, 251]));
    match foot {
        251 => with_last(falling(random, LEAST, high), LEAST as u16),
        _ => std::array::from_fn(|k| if k < foot { high as u16 } else { LEAST as u16 }),
    }
}

/// The sheet under which the line between entry k and the next is what a wrong reading makes of it.
/// Readings: 0 entry k alone, 1 the next alone, 2 towards the entry before, 3 with the weights exchanged.
pub fn misread(entries: &Entries, k: usize, reading: u32) -> Entries {
    let (before, entry, next) = (entries[k - 1], entries[k], entries[k + 1]);
    let mut wrong = *entries;
    (wrong[k], wrong[k + 1]) = match reading {
        0 => (entry, entry),
        1 => (next, next),
        2 => (entry, before),
        _ => (next, entry),
    };
    wrong
}

fn falling(random: &mut Random, least: u32, most: u32) -> Entries {
    let mut entries = std::array::from_fn(|_| random.within(least, most) as u16);
    entries.sort_unstable_by(|one, other| other.cmp(one));
    entries
}

fn steep(random: &mut Random) -> Entries {
    let (fall, floor) = (random.within(3, 40), random.within(LEAST, 300));
    std::array::from_fn(|k| 1000u32.saturating_sub(fall * k as u32).max(floor) as u16)
}

// One fall between two neighbours, at a slenderness that poles have.
fn cliff(random: &mut Random, low: u32) -> Entries {
    let (high, foot) = (random.within(low, 1000), random.within(61, 250) as usize);
    std::array::from_fn(|k| if k < foot { high as u16 } else { low as u16 })
}

fn with_last(mut entries: Entries, last: u16) -> Entries {
    entries[250] = last;
    entries
}

/// A sheet whose first damaged entry is k; damage behind k is added at times.
/// Faults: 0 zero, 1 above the one before (not in entry 0), 2 above 1,000, 3 last at 116, 4 last below 116.
pub fn damaged(random: &mut Random, k: usize, fault: usize) -> Entries {
    let low = random.within(LEAST, 998);
    let mut entries = if random.once_in(2) { [low as u16; 251] } else { falling(random, LEAST, 998) };
    entries[k] = match fault {
        0 => 0,
        1 => entries[k - 1] + 1,
        2 => random.pick(&[1001, 1002, 65_535, 4_096]),
        3 => 116,
        _ => random.pick(&[1, 115]),
    };
    if random.once_in(3) && k < 250 {
        entries[random.within(k as u32 + 1, 250) as usize] = random.pick(&[0, 1001, 65_535]);
    }
    entries
}
