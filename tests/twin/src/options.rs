//! The command line.

use crate::call::{Call, parse};
use crate::inputs::Relation;
use crate::run::Plan;

pub const USAGE: &str = "usage: twin [CALLS] [--seed N] [--threads N] [--stop N] [--table]
       twin --paper
       twin --answers
       twin --case CALL | --pair CALL CALL | --heights CALL .. | --between CALL CALL CALL ..
       twin --record FILE [CALLS] [--seed N]
A CALL is the words that a differing call printed: verdict sheet=HEX file=HEX report=LENGTH fill=N,
write numbers=N,N,.. file=LENGTH fill=N, write-support numbers=N,N,.. file=LENGTH fill=N, read file=HEX fill=N,
write-book numbers=N,N,.. book=LENGTH fill=N, read-book book=HEX numbers=COUNT fill=N,
between sheet=HEX mild=N,N,.. harsh=N,N,.. fill=N, cells records=HEX,HEXxTIMES,.. w=N out=LENGTH fill=N, or
first-failing sheet=HEX book=HEX fill=N.
--answers reads lines \"SHEET FILE\", each the bytes in hexadecimal or '-' for none, lines
\"between SHEET MILD HARSH\", each job 25 numbers with commas between them, lines \"cells RECORDS W ROOM\", the
records in hexadecimal, HEXxTIMES where they repeat, or '-' for none, and lines \"first SHEET BOOK\", the bytes as of
a file, and gives the twin's answers.";

/// What is asked for.
pub enum Task {
    Run { plan: Plan, table: bool },
    Paper,
    Answers,
    Case(Call),
    Related(Relation, Vec<Call>),
    Record { plan: Plan, path: String },
}

pub fn read(words: &[String]) -> Result<Task, String> {
    let words: Vec<&str> = words.iter().flat_map(|word| word.split_whitespace()).collect();
    match words.split_first() {
        Some((&"--paper", [])) => Ok(Task::Paper),
        Some((&"--answers", [])) => Ok(Task::Answers),
        Some((&alone @ ("--paper" | "--answers"), _)) => Err(format!("{alone} stands alone\n{USAGE}")),
        Some((&"--case", rest)) => parse(rest).map(Task::Case),
        Some((&"--pair", rest)) => related(Relation::Pair, rest),
        Some((&"--heights", rest)) => related(Relation::Heights, rest),
        Some((&"--between", rest)) => related(Relation::Between, rest),
        Some((&"--record", rest)) => {
            let (path, rest) = rest.split_first().ok_or(format!("--record needs a file\n{USAGE}"))?;
            plan(rest).map(|(plan, _)| Task::Record { plan, path: path.to_string() })
        }
        _ => plan(&words).map(|(plan, table)| Task::Run { plan, table }),
    }
}

/// Verdict calls, one after another; behind a between call where its ends are meant. Either kind has five words.
fn related(relation: Relation, words: &[&str]) -> Result<Task, String> {
    if words.is_empty() {
        return Err(format!("no call given\n{USAGE}"));
    }
    let call = |(number, words): (usize, &[&str])| match (parse(words)?, relation, number) {
        (call @ Call::Between { .. }, Relation::Between, 0) => Ok(call),
        (call @ Call::Verdict { .. }, ..) => Ok(call),
        _ => Err("only verdict calls are related, behind one between call with --between".to_string()),
    };
    let calls: Result<Vec<Call>, String> = words.chunks(5).enumerate().map(call).collect();
    calls.map(|calls| Task::Related(relation, calls))
}

fn plan(words: &[&str]) -> Result<(Plan, bool), String> {
    let cores = std::thread::available_parallelism().map_or(1, |cores| cores.get() as u64);
    let mut plan = Plan { calls: 1_000_000, seed: 1, threads: cores.min(2), stop: 5 };
    let (mut table, mut counted) = (false, false);
    let mut words = words.iter();
    while let Some(&word) = words.next() {
        let mut value = |least: u64, most: u64| number(word, words.next().copied(), least, most);
        match word {
            "--seed" => plan.seed = value(0, u64::MAX)?,
            "--threads" => plan.threads = value(1, 64)?,
            "--stop" => plan.stop = value(1, 1_000)? as usize,
            "--table" => table = true,
            _ if counted || word.starts_with('-') => return Err(format!("'{word}' is not understood\n{USAGE}")),
            _ => {
                plan.calls = number("CALLS", Some(word), 1, 1_000_000_000_000)?;
                counted = true;
            }
        }
    }
    Ok((plan, table))
}

fn number(name: &str, word: Option<&str>, least: u64, most: u64) -> Result<u64, String> {
    let value = word.and_then(|word| word.parse().ok()).filter(|value| (least..=most).contains(value));
    value.ok_or(format!("{name} needs a whole number from {least} to {most}, not '{}'\n{USAGE}", word.unwrap_or("")))
}
