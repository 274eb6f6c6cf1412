//! The twin of the library: the papers written out on their own, and the run that compares the two call by call.

mod answers;
mod call;
mod compare;
mod coverage;
mod demand3;
mod hand_books;
mod inputs;
mod marked;
mod marked_between;
mod marked_books;
mod marked_cells;
mod marked_first_failing;
mod marked_heights;
mod marked_shields;
mod marked_supports;
mod options;
mod paper;
mod random;
mod reading;
mod records;
mod round_trip;
mod rows_judged;
mod run;
mod throughout;

use call::Call;
use coverage::Cell;
use inputs::{Lists, Relation, required};
use options::Task;
use run::Plan;
use std::io::Write;
use std::process::ExitCode;

/// Fewer calls than this need not fill every cell.
const FULL: u64 = 100_000;

fn main() -> ExitCode {
    let words: Vec<String> = std::env::args().skip(1).collect();
    let done = match options::read(&words) {
        Ok(Task::Run { plan, table }) => Ok(differential(&plan, table)),
        Ok(Task::Paper) => Ok(paper_cases()),
        Ok(Task::Answers) => answers::answer_lines(std::io::stdin().lock(), std::io::stdout().lock()).map(|()| true),
        Ok(Task::Case(call)) => Ok(one_call(&call)),
        Ok(Task::Related(relation, calls)) => related(relation, &calls),
        Ok(Task::Record { plan, path }) => record(&plan, &path),
        Err(message) => Err(message),
    };
    match done {
        Ok(true) => ExitCode::SUCCESS,
        Ok(false) => ExitCode::from(1),
        Err(message) => {
            eprintln!("twin: {message}");
            ExitCode::from(2)
        }
    }
}

fn differential(plan: &Plan, whole_table: bool) -> bool {
    let lists = Lists::new();
    let required = required::cells(&lists);
    let outcome = run::run(plan, &lists);
    let differing = &outcome.differing;
    for (number, text) in differing {
        println!("call {number} differs\n  {text}");
    }
    // How far the other threads came by then is chance, and so would be the table.
    if differing.len() >= plan.stop {
        println!("seed {}, stopped at call {}: {} differ", plan.seed, differing[plan.stop - 1].0, differing.len());
        return false;
    }
    if whole_table {
        outcome.table.print_whole();
    }
    let trials = &outcome.trials;
    println!("seed {}, {} jobs with all 6,001 heights scanned", plan.seed, trials.scans);
    println!("{} jobs between two ends held against what was told of the ends", trials.between);
    println!("{} books whose first failing row was held against reports of the rows", trials.books);
    println!("{} cells required:", required.len());
    outcome.table.print(&required);
    let all_met = plan.calls < FULL || none_is_empty(&outcome.table.empty(&required));
    println!("{} calls, {} differ", plan.calls, differing.len());
    differing.is_empty() && all_met
}

fn none_is_empty(empty: &[&Cell]) -> bool {
    for cell in empty.iter().take(20) {
        println!("empty cell: {} {:?}", cell.group, cell.key);
    }
    if !empty.is_empty() {
        println!("{} required cells are empty", empty.len());
    }
    empty.is_empty()
}

fn paper_cases() -> bool {
    let (failing, cases) = marked::failing();
    for name in &failing {
        println!("not so: {name}");
    }
    println!("{cases} marked cases and searches, {} fail", failing.len());
    failing.is_empty()
}

fn one_call(call: &Call) -> bool {
    let (library, twin) = compare::both(call);
    println!("library: {}\ntwin:    {}", run::told(call, &library), run::told(call, &twin));
    if library != twin {
        println!("{}", run::difference(call, &library, &twin));
    }
    let broken: Vec<String> = run::alone(call, &library).filter_map(Result::err).collect();
    broken.iter().for_each(|fault| println!("{fault}"));
    let same = library == twin && broken.is_empty();
    println!("1 calls, {} differ", u8::from(!same));
    same
}

/// Demand 3, or what a pair of supports or two ends have to keep, once more on the calls of a turn.
fn related(relation: Relation, calls: &[Call]) -> Result<bool, String> {
    let (mut told, mut reports) = (None, Vec::new());
    for call in calls {
        let library = compare::library(call);
        println!("library: {}", run::told(call, &library));
        if matches!(call, Call::Between { .. }) {
            told = throughout::told(call, &library);
            continue;
        }
        let report = if library.refusal() == 0 { reading::read(library.bytes()) } else { None };
        reports.push((call, report.ok_or("a call was not answered with a report")?));
    }
    let fault = match (relation, reports.as_slice()) {
        (Relation::Pair, [first, second]) if first.1.is_support == second.1.is_support => {
            demand3::pair_fault(first, second)
        }
        (Relation::Pair, _) => {
            return Err("--pair takes two verdict calls, both on scaffold jobs or both on supports".to_string());
        }
        (_, reports) if reports.iter().any(|(_, report)| report.is_support) => {
            return Err("only scaffold jobs are so related: a support reports no height".to_string());
        }
        (Relation::Between, reports) => {
            throughout::fault(&told.ok_or("--between begins with a between call that is not refused")?, reports)
        }
        (_, reports) => demand3::heights_fault(reports),
    };
    println!("{}", fault.as_deref().unwrap_or("what is asked of them holds"));
    Ok(fault.is_none())
}

/// The inputs of a run, one call a line, for the mutation check.
fn record(plan: &Plan, path: &str) -> Result<bool, String> {
    let said = |error: std::io::Error| format!("{path}: {error}");
    let mut out = std::io::BufWriter::new(std::fs::File::create(path).map_err(said)?);
    let lists = Lists::new();
    let turns = (0..).flat_map(|number| inputs::block(&lists, plan.seed, number));
    for planned in turns.flat_map(|turn| turn.calls).take(plan.calls as usize) {
        writeln!(out, "{}", planned.call).map_err(said)?;
    }
    out.flush().map_err(said)?;
    Ok(true)
}
