//! The calls of the run: a fixed list of kinds for each block of calls, each kind taken in turn.

pub mod any_job;
pub mod between;
pub mod between_checks;
pub mod between_damage;
pub mod between_order;
pub mod book_damage;
pub mod book_kinds;
pub mod book_rows;
pub mod books;
pub mod cells;
pub mod cells_damage;
pub mod cells_faults;
pub mod cells_required;
pub mod cells_runs;
pub mod cells_values;
pub mod columns;
pub mod damage;
pub mod ends;
pub mod exact;
pub mod faults;
pub mod files;
pub mod first_damage;
pub mod first_failing;
pub mod first_required;
pub mod first_rows;
pub mod first_sheets;
pub mod heights;
pub mod jobs;
pub mod kinds;
pub mod required;
pub mod sheets;
pub mod shield_limits;
pub mod shield_required;
pub mod shields;
pub mod slender;
pub mod support_columns;
pub mod support_damage;
pub mod support_kinds;
pub mod support_limits;
pub mod supports;
pub mod tuned;

use crate::call::Call;
use crate::coverage::{Cell, Expect};
use crate::paper::job::Fields;
use crate::paper::sheet::Sheet;
use crate::paper::support::Support;
use crate::random::Random;
use any_job::AnyJob;

/// A call with the cells that it fills when the library answers as expected.
pub struct Planned {
    pub call: Call,
    pub cells: Vec<(Cell, Expect)>,
}

/// What has to hold among the library's answers to the calls of one turn, beside each being the twin's.
#[derive(Clone, Copy, PartialEq)]
pub enum Relation {
    Nothing,
    /// Demand 3's first half, or the like of supports: the second call's job is no lighter than the first's.
    Pair,
    /// Demand 3's second half: the calls' jobs differ in height alone.
    Heights,
    /// Request 6/14: the call on two ends, verdicts on both, and verdicts on jobs between them.
    Between,
}

/// The calls of one turn.
pub struct Turn {
    pub calls: Vec<Planned>,
    pub relation: Relation,
}

/// What every turn may look up: the searches and the lists of ends.
pub struct Lists {
    pub atlas: exact::Atlas,
    pub ends: Vec<ends::End>,
    pub support_columns: support_columns::Columns,
    pub support_ends: Vec<ends::End>,
    /// Supports and sheets at the very limit of check 8 in wind; true where φ is no thousandth.
    pub windy_supports: Vec<(bool, Support, Sheet)>,
    /// What to aim at for every cell of check 12, by one job and by two.
    pub alone: heights::Ways<heights::Way>,
    pub together: heights::Ways<[heights::Way; 2]>,
    /// What the turns on the order of two ends go through, and the heights of two ends to aim at.
    pub order: between_order::Keys,
    pub end_heights: between_checks::Heights,
}

impl Lists {
    pub fn new() -> Lists {
        Lists {
            atlas: exact::search(),
            ends: ends::all(),
            support_columns: support_columns::search(),
            support_ends: supports::ends(),
            windy_supports: support_limits::windy(),
            alone: heights::ways_alone(),
            together: heights::ways_together(),
            order: between_order::Keys::new(),
            end_heights: between_checks::height_pairs(),
        }
    }
}

/// A kind of turn, the turns of it in one block and the calls of one turn.
struct Kind {
    make: fn(&mut Random, &Lists, u64) -> Turn,
    turns: u64,
    calls: usize,
}

const KINDS: [Kind; 135] = [
    Kind { make: kinds::uniform, turns: 140, calls: 1 },
    Kind { make: damage::wild, turns: 24, calls: 1 },
    Kind { make: damage::end, turns: 90, calls: 1 },
    Kind { make: damage::contradiction, turns: 12, calls: 1 },
    Kind { make: kinds::tuned, turns: 66, calls: 4 },
    Kind { make: kinds::deflection, turns: 7, calls: 2 },
    Kind { make: kinds::at_limit, turns: 48, calls: 1 },
    Kind { make: kinds::exact, turns: 10, calls: 1 },
    Kind { make: heights::stability, turns: 24, calls: 1 },
    Kind { make: heights::alone, turns: 16, calls: 1 },
    Kind { make: heights::pair, turns: 12, calls: 2 },
    Kind { make: kinds::due, turns: 12, calls: 1 },
    Kind { make: slender::column, turns: 36, calls: 1 },
    Kind { make: slender::cliff, turns: 16, calls: 1 },
    Kind { make: slender::joint, turns: 14, calls: 2 },
    Kind { make: slender::pair, turns: 12, calls: 2 },
    Kind { make: damage::damaged_sheet, turns: 70, calls: 1 },
    Kind { make: damage::sheet_length, turns: 20, calls: 1 },
    Kind { make: damage::broken_file, turns: 60, calls: 1 },
    Kind { make: damage::shaken_file, turns: 40, calls: 1 },
    Kind { make: damage::faults, turns: 60, calls: 1 },
    Kind { make: damage::report_buffer, turns: 30, calls: 1 },
    Kind { make: damage::file_buffer, turns: 12, calls: 1 },
    Kind { make: kinds::pair, turns: 48, calls: 2 },
    Kind { make: kinds::heights, turns: 20, calls: 3 },
    Kind { make: support_kinds::uniform, turns: 50, calls: 1 },
    Kind { make: support_damage::wild, turns: 10, calls: 1 },
    Kind { make: support_damage::end, turns: 40, calls: 1 },
    Kind { make: support_kinds::tuned, turns: 8, calls: 4 },
    Kind { make: support_kinds::at_limit, turns: 9, calls: 1 },
    Kind { make: support_kinds::still, turns: 4, calls: 2 },
    Kind { make: support_kinds::column, turns: 12, calls: 1 },
    Kind { make: support_kinds::cliff, turns: 6, calls: 1 },
    Kind { make: support_kinds::joint, turns: 4, calls: 2 },
    Kind { make: support_kinds::column_pair, turns: 4, calls: 2 },
    Kind { make: support_kinds::pair, turns: 16, calls: 2 },
    Kind { make: support_damage::first_number, turns: 12, calls: 1 },
    Kind { make: support_damage::broken_file, turns: 24, calls: 1 },
    Kind { make: support_damage::shaken_file, turns: 12, calls: 1 },
    Kind { make: support_damage::faults, turns: 12, calls: 1 },
    Kind { make: support_damage::report_buffer, turns: 12, calls: 1 },
    Kind { make: support_damage::file_buffer, turns: 8, calls: 1 },
    Kind { make: support_damage::most, turns: 2, calls: 1 },
    Kind { make: book_kinds::uniform, turns: 8, calls: 1 },
    Kind { make: book_kinds::sized, turns: 2, calls: 1 },
    Kind { make: book_kinds::limit, turns: 1, calls: 1 },
    Kind { make: book_kinds::most, turns: 1, calls: 1 },
    Kind { make: book_kinds::cut_off, turns: 2, calls: 1 },
    Kind { make: book_kinds::buffer, turns: 3, calls: 1 },
    Kind { make: book_kinds::room, turns: 6, calls: 1 },
    Kind { make: book_damage::count, turns: 2, calls: 1 },
    Kind { make: book_damage::damaged_count, turns: 1, calls: 1 },
    Kind { make: book_damage::high_count_damaged, turns: 1, calls: 1 },
    Kind { make: book_damage::broken_number, turns: 8, calls: 1 },
    Kind { make: book_damage::cut, turns: 2, calls: 1 },
    Kind { make: book_damage::two_places, turns: 1, calls: 1 },
    Kind { make: book_damage::same_damage, turns: 2, calls: 1 },
    Kind { make: book_damage::faults, turns: 2, calls: 1 },
    Kind { make: book_damage::writing_faults, turns: 1, calls: 1 },
    Kind { make: book_damage::shaken, turns: 4, calls: 1 },
    Kind { make: book_rows::one_bad, turns: 4, calls: 1 },
    Kind { make: book_rows::far_down, turns: 1, calls: 1 },
    Kind { make: book_rows::bad_in_short, turns: 1, calls: 1 },
    Kind { make: book_rows::alike, turns: 1, calls: 1 },
    Kind { make: book_rows::two_bad, turns: 1, calls: 1 },
    Kind { make: book_rows::end, turns: 14, calls: 1 },
    Kind { make: book_rows::wild, turns: 3, calls: 1 },
    Kind { make: between_order::one_field, turns: 4, calls: 1 },
    Kind { make: between_order::two_wrong, turns: 6, calls: 1 },
    Kind { make: between_order::but_one, turns: 2, calls: 1 },
    Kind { make: between_order::values, turns: 4, calls: 1 },
    Kind { make: between_order::same, turns: 1, calls: 1 },
    Kind { make: between_checks::limit, turns: 3, calls: 4 },
    Kind { make: between_checks::due, turns: 1, calls: 4 },
    Kind { make: between_checks::ends_of_heights, turns: 2, calls: 1 },
    Kind { make: between_checks::band, turns: 3, calls: 1 },
    Kind { make: between_checks::promised, turns: 6, calls: 7 },
    Kind { make: between_damage::damaged_sheet, turns: 15, calls: 1 },
    Kind { make: between_damage::sheet_length, turns: 10, calls: 1 },
    Kind { make: between_damage::end, turns: 22, calls: 1 },
    Kind { make: between_damage::three, turns: 1, calls: 1 },
    Kind { make: between_damage::faults, turns: 8, calls: 1 },
    Kind { make: between_damage::wild, turns: 4, calls: 1 },
    Kind { make: cells_runs::uniform, turns: 6, calls: 1 },
    Kind { make: cells_runs::inside, turns: 2, calls: 1 },
    Kind { make: cells_runs::outside, turns: 1, calls: 1 },
    Kind { make: cells_runs::short, turns: 4, calls: 1 },
    Kind { make: cells_runs::shape, turns: 5, calls: 1 },
    Kind { make: cells_runs::long, turns: 1, calls: 1 },
    Kind { make: cells_values::value, turns: 9, calls: 1 },
    Kind { make: cells_values::whole_number, turns: 3, calls: 1 },
    Kind { make: cells_values::exponent, turns: 5, calls: 1 },
    Kind { make: cells_values::pattern, turns: 2, calls: 1 },
    Kind { make: cells_faults::kind, turns: 5, calls: 1 },
    Kind { make: cells_faults::zero_byte, turns: 2, calls: 1 },
    Kind { make: cells_faults::silence, turns: 1, calls: 1 },
    Kind { make: cells_faults::two_wrong, turns: 1, calls: 1 },
    Kind { make: cells_faults::far_down, turns: 1, calls: 1 },
    Kind { make: cells_damage::length, turns: 1, calls: 1 },
    Kind { make: cells_damage::room, turns: 2, calls: 1 },
    Kind { make: cells_damage::faults, turns: 2, calls: 1 },
    Kind { make: shields::alone, turns: 3, calls: 1 },
    Kind { make: shields::row, turns: 2, calls: 1 },
    Kind { make: shields::bad_row, turns: 1, calls: 1 },
    Kind { make: shields::ends, turns: 3, calls: 1 },
    Kind { make: shields::unlike, turns: 1, calls: 1 },
    Kind { make: shield_limits::limit, turns: 2, calls: 2 },
    Kind { make: shield_limits::pair, turns: 1, calls: 2 },
    Kind { make: shield_limits::heights, turns: 1, calls: 3 },
    Kind { make: shield_limits::between, turns: 1, calls: 7 },
    Kind { make: first_rows::uniform, turns: 3, calls: 1 },
    Kind { make: first_rows::mixed, turns: 2, calls: 1 },
    Kind { make: first_rows::sized, turns: 1, calls: 1 },
    Kind { make: first_rows::far_down, turns: 1, calls: 1 },
    Kind { make: first_rows::alone, turns: 3, calls: 1 },
    Kind { make: first_rows::families, turns: 1, calls: 1 },
    Kind { make: first_rows::not_due, turns: 1, calls: 1 },
    Kind { make: first_rows::shape, turns: 1, calls: 1 },
    Kind { make: first_damage::one_bad, turns: 2, calls: 1 },
    Kind { make: first_damage::two_bad, turns: 1, calls: 1 },
    Kind { make: first_damage::bad_far_down, turns: 1, calls: 1 },
    Kind { make: first_damage::end, turns: 7, calls: 1 },
    Kind { make: first_damage::wild, turns: 1, calls: 1 },
    Kind { make: first_damage::faults, turns: 3, calls: 1 },
    Kind { make: first_sheets::sheet_length, turns: 1, calls: 1 },
    Kind { make: first_sheets::damaged_sheet, turns: 6, calls: 1 },
    Kind { make: first_sheets::no_rows, turns: 1, calls: 1 },
    Kind { make: first_damage::count, turns: 1, calls: 1 },
    Kind { make: first_damage::damaged_count, turns: 1, calls: 1 },
    Kind { make: first_damage::broken_number, turns: 8, calls: 1 },
    Kind { make: first_damage::behind, turns: 1, calls: 1 },
    Kind { make: first_damage::cut, turns: 2, calls: 1 },
    Kind { make: first_damage::two_places, turns: 1, calls: 1 },
    Kind { make: first_damage::same_damage, turns: 2, calls: 1 },
    Kind { make: first_damage::shaken, turns: 1, calls: 1 },
];

/// The number of calls in a block.
pub fn block_length() -> usize {
    KINDS.iter().map(|kind| kind.turns as usize * kind.calls).sum()
}

/// The turns of a block; they depend on the seed and the block's number alone.
pub fn block(lists: &Lists, seed: u64, number: u64) -> impl Iterator<Item = Turn> {
    let mut random = Random::new(seed, number);
    KINDS.iter().flat_map(|kind| (0..kind.turns).map(move |turn| (kind, turn))).map(move |(kind, turn)| {
        let turn = (kind.make)(&mut random, lists, number * kind.turns + turn);
        assert_eq!(turn.calls.len(), kind.calls);
        turn
    })
}

/// The whole call on a job under a sheet, with a buffer that is long enough.
pub fn verdict<const N: usize>(random: &mut Random, job: &Fields<N>, sheet: &[u16; 251]) -> Call
where
    Fields<N>: AnyJob,
{
    let most = Fields::<N>::REPORT_MOST;
    let report = random.within(most, most + 12) as usize;
    Call::Verdict { sheet: sheets::to_bytes(sheet), file: files::whole(job), report, fill: random.next() }
}
