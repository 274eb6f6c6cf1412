//! The differential run: blocks of calls on one or more threads, with the same result for a seed whatever their number.

use crate::call::Call;
use crate::compare::{Answer, both};
use crate::coverage::{Cell, Table};
use crate::demand3::{heights_fault, job, pair_fault};
use crate::inputs::heights::{pair_cell, report_cell};
use crate::inputs::required::refusal_cell;
use crate::inputs::{Lists, Planned, Relation, Turn, block, block_length};
use crate::inputs::{cells_damage, first_damage};
use crate::paper::file::{self, Content};
use crate::paper::{heights, sheet};
use crate::reading::{self, Report};
use crate::{round_trip, rows_judged, throughout};
use std::sync::Mutex;
use std::sync::atomic::{AtomicU64, Ordering};

/// What to run: the number of calls, the seed, the threads, and after how many differing calls to stop.
pub struct Plan {
    pub calls: u64,
    pub seed: u64,
    pub threads: u64,
    pub stop: usize,
}

/// Differing calls by number with what is to be printed, the coverage, and what was tried beside the calls.
pub struct Outcome {
    pub differing: Vec<(u64, String)>,
    pub table: Table,
    pub trials: Trials,
}

/// What is tried of the library's answers alone.
#[derive(Default)]
pub struct Trials {
    /// Jobs whose heights were scanned.
    pub scans: u64,
    /// Jobs between two ends whose reports were held against what was told of the ends.
    pub between: u64,
    /// Books whose first failing row was held against the reports of the rows.
    pub books: u64,
}

impl Trials {
    fn add(&mut self, other: &Trials) {
        self.scans += other.scans;
        self.between += other.between;
        self.books += other.books;
    }
}

/// Differing calls, shared by the threads; no call at or behind `end` is made.
struct Found {
    differing: Mutex<Vec<(u64, String)>>,
    end: AtomicU64,
    stop: usize,
}

impl Found {
    fn add(&self, call: u64, text: String) {
        let mut differing = self.differing.lock().expect("no thread stops while it holds the list");
        differing.push((call, text));
        differing.sort();
        if differing.len() >= self.stop {
            self.end.fetch_min(differing[self.stop - 1].0 + 1, Ordering::SeqCst);
        }
    }
}

/// Runs the plan.
pub fn run(plan: &Plan, lists: &Lists) -> Outcome {
    let found = Found { differing: Mutex::new(Vec::new()), end: AtomicU64::new(plan.calls), stop: plan.stop };
    let mut outcome = Outcome { differing: Vec::new(), table: Table::default(), trials: Trials::default() };
    let shared = &found;
    std::thread::scope(|scope| {
        let spawn = |thread| scope.spawn(move || worker(plan, lists, shared, thread));
        let threads: Vec<_> = (0..plan.threads).map(spawn).collect();
        for thread in threads {
            let (table, trials) = thread.join().expect("a thread of the run stopped");
            outcome.table.add(&table);
            outcome.trials.add(&trials);
        }
    });
    outcome.differing = found.differing.into_inner().expect("all threads have ended");
    outcome.differing.truncate(plan.stop);
    outcome
}

fn worker(plan: &Plan, lists: &Lists, found: &Found, thread: u64) -> (Table, Trials) {
    let (mut table, mut trials) = (Table::default(), Trials::default());
    for number in (thread..).step_by(plan.threads as usize) {
        let mut first = number * block_length() as u64;
        if first >= found.end.load(Ordering::SeqCst) {
            break;
        }
        for turn in block(lists, plan.seed, number) {
            take(&turn, first, found, &mut table, &mut trials);
            first += turn.calls.len() as u64;
        }
    }
    (table, trials)
}

/// The calls of one turn, the first of them numbered `first`.
fn take(turn: &Turn, first: u64, found: &Found, table: &mut Table, trials: &mut Trials) {
    let (mut told, mut reports) = (None, Vec::<(&Call, Report)>::new());
    for (number, planned) in (first..).zip(&turn.calls) {
        if number >= found.end.load(Ordering::SeqCst) {
            return;
        }
        let (library, twin) = both(&planned.call);
        if library != twin {
            found.add(number, difference(&planned.call, &library, &twin));
        }
        for tried in alone(&planned.call, &library) {
            match tried {
                Ok(cell) => table.count(cell),
                Err(fault) => found.add(number, format!("{fault}\n  again: --case {}", planned.call)),
            }
        }
        trials.books += u64::from(matches!(planned.call, Call::FirstFailing { .. }) && library.refusal() == 0);
        told = told.or(throughout::told(&planned.call, &library));
        let report = count(planned, &library, table);
        reports.extend(report.map(|report| (&planned.call, report)));
        if let Some(report) = report.filter(|report| number % SCAN_EVERY == 0 && !report.is_support) {
            trials.scans += 1;
            scan_fault(&planned.call, &report).into_iter().for_each(|text| found.add(number, text));
        }
    }
    if turn.relation == Relation::Between {
        trials.between += reports.len().saturating_sub(2) as u64;
    }
    if let Some((option, fault)) = related(turn, told, &reports, table) {
        let words: Vec<String> = turn.calls.iter().map(|planned| planned.call.to_string()).collect();
        found.add(first, format!("{fault}\n  again: {option} {}", words.join(" ")));
    }
}

/// What is tried of the library's answer to one call by other calls of the library: its cell, or what is broken.
pub fn alone(call: &Call, library: &Answer) -> impl Iterator<Item = Result<Cell, String>> {
    [round_trip::tried(call, library), rows_judged::tried(call, library)].into_iter().flatten()
}

/// What has to hold among the reports of a turn and does not, with the option by which it is tried again.
fn related(
    turn: &Turn,
    told: Option<[u32; 14]>,
    reports: &[(&Call, Report)],
    table: &mut Table,
) -> Option<(&'static str, String)> {
    match (turn.relation, reports) {
        (Relation::Nothing, _) => None,
        (Relation::Pair, [first, second]) => {
            let cell = job(first.0).map(|job| pair_cell(&job, [&first.1, &second.1]));
            cell.into_iter().for_each(|cell| table.count(cell));
            pair_fault(first, second).map(|fault| ("--pair", fault))
        }
        (Relation::Pair, _) => Some(("--pair", "pair: one of the two was not accepted".to_string())),
        (Relation::Heights, _) => heights_fault(reports).map(|fault| ("--heights", fault)),
        (Relation::Between, _) => between(turn, told, reports, table).map(|fault| ("--between", fault)),
    }
}

/// What was told of two ends against the reports of both and of the jobs between them.
fn between(turn: &Turn, told: Option<[u32; 14]>, reports: &[(&Call, Report)], table: &mut Table) -> Option<String> {
    let Some(told) = told.filter(|_| reports.len() + 1 == turn.calls.len()) else {
        return Some("between: an end or a job between was not accepted".to_string());
    };
    throughout::cells(&told).for_each(|cell| table.count(cell));
    throughout::fault(&told, reports)
}

/// Every so many calls the stability height is also found by a scan of all heights.
const SCAN_EVERY: u64 = 701;

fn scan_fault(call: &Call, report: &Report) -> Option<String> {
    let Call::Verdict { sheet, file, .. } = call else { return None };
    let (sheet, Content::Job(job)) = (sheet::read(sheet).ok()?, file::read(file).ok()?) else { return None };
    let (greatest, passing) = heights::stability_by_scan(&job, &sheet);
    let bisected = heights::stability(&job, &sheet);
    let through = greatest.map_or(0, |height| height as usize + 1);
    let same = greatest == bisected && greatest == report.stability && passing == through;
    (!same).then(|| {
        let told = format!("scan {greatest:?} with {passing} heights passing, bisection {bisected:?}");
        format!("{told}, library {:?}\n  again: --case {call}", report.stability)
    })
}

/// Counts the cells that the library's answer fills; gives the report where it is one.
fn count(planned: &Planned, library: &Answer, table: &mut Table) -> Option<Report> {
    let is_report = matches!(planned.call, Call::Verdict { .. }) && library.refusal() == 0;
    let report = if is_report { reading::read(library.bytes()) } else { None };
    for &(cell, expect) in &planned.cells {
        if expect.is_met(library, report.as_ref()) {
            table.count(cell);
        }
    }
    if let Some((report, job)) = report.zip(job(&planned.call)) {
        table.count(report_cell(&job, &report));
    }
    if library.refusal() != 0 {
        table.count(refusal_cell(kind(&planned.call), library.refusal(), library.place()));
    }
    report
}

/// Refusals are counted by these kinds: verdict, write and read of jobs 0 to 2, of supports 3 to 5; books 6 and 7;
/// two ends 8; load cells 11; first failing rows 12.
fn kind(call: &Call) -> u32 {
    let is_support = |file: &[u8]| file.first() == Some(&3);
    match call {
        Call::Verdict { file, .. } => 3 * u32::from(is_support(file)),
        Call::Write { .. } => 1,
        Call::WriteSupport { .. } => 4,
        Call::Read { file, .. } => 2 + 3 * u32::from(is_support(file)),
        Call::WriteBook { .. } => 6,
        Call::ReadBook { .. } => 7,
        Call::Between { .. } => 8,
        Call::Cells { .. } => cells_damage::KIND,
        Call::FirstFailing { .. } => first_damage::KIND,
    }
}

/// The differing call in words by which it can be run again, and what each side gave.
pub fn difference(call: &Call, library: &Answer, twin: &Answer) -> String {
    let mut text = format!("again: --case {call}\n  library: {}\n  twin:    {}", told(call, library), told(call, twin));
    if library.written != twin.written && library.lent() == twin.lent() {
        text += "\n  bytes beside the lent buffer differ";
    }
    if library.read != twin.read {
        text += "\n  bytes lent for reading differ";
    }
    if let Some(at) = (0..twin.lent().len()).find(|&at| library.lent()[at] != twin.lent()[at]) {
        text += &format!("\n  the lent buffers differ first at byte {at}");
    }
    text
}

/// An answer in words: what was returned, and the lent buffer as text where it is a report.
pub fn told(call: &Call, answer: &Answer) -> String {
    let returned = match answer.refusal() {
        0 => format!("length {}", answer.returned),
        refusal => format!("refusal {refusal} at {}", answer.place()),
    };
    let lent = match call {
        Call::Verdict { .. } => String::from_utf8_lossy(answer.lent()).escape_debug().to_string(),
        Call::Between { .. } | Call::FirstFailing { .. } => format!("{:?}", answer.numbers()),
        _ => answer.lent().iter().map(|byte| format!("{byte:02x}")).collect(),
    };
    format!("{returned}, buffer {lent}")
}
