//! The coverage table: which kinds of input were met, counted by what the library answered.

use crate::compare::Answer;
use crate::reading::Report;
use std::collections::BTreeMap;

/// A kind of input: its group, and up to four numbers that tell it from the others of the group.
#[derive(Clone, Copy, PartialEq, Eq, PartialOrd, Ord, Debug)]
pub struct Cell {
    pub group: &'static str,
    pub key: [u32; 4],
}

pub fn cell(group: &'static str, key: [u32; 4]) -> Cell {
    Cell { group, key }
}

/// What the library has to answer for a cell to count as met.
#[derive(Clone, Copy, PartialEq, Debug)]
pub enum Expect {
    Anything,
    Success,
    Length(u64),
    Number(u64),
    Refusal(u64, u64),
    Verdict(usize, u8),
    Poles(bool),
    Height(Option<u32>),
    Column(u32),
    /// What is told of a check between two ends.
    Told(usize, u32),
    /// The stability heights of two ends.
    Ends([u32; 2]),
    /// The number of a load cell's record, from 0.
    Greatest(usize, u32),
    /// The place of the first failing row and the number of rows judged.
    First([u32; 2]),
}

impl Expect {
    /// Whether an answer, read as a report where it is one, is the expected one.
    pub fn is_met(self, answer: &Answer, report: Option<&Report>) -> bool {
        match self {
            Expect::Anything => true,
            Expect::Success => answer.refusal() == 0,
            Expect::Length(length) => answer.returned == length,
            Expect::Number(number) => answer.refusal() == number,
            Expect::Refusal(number, place) => (answer.refusal(), answer.place()) == (number, place),
            Expect::Verdict(check, verdict) => report.is_some_and(|report| report.verdict(check) == verdict),
            Expect::Poles(pass) => report.is_some_and(|report| report.poles_pass() == pass),
            Expect::Height(height) => report.is_some_and(|report| report.stability == height),
            Expect::Column(z) => report.is_some_and(|report| report.column == z),
            Expect::Told(check, told) => answer.refusal() == 0 && answer.numbers()[check - 1] == told,
            Expect::Ends(heights) => answer.refusal() == 0 && answer.numbers()[12..] == heights,
            Expect::Greatest(record, number) => answer.refusal() == 0 && answer.numbers().get(record) == Some(&number),
            Expect::First(told) => answer.refusal() == 0 && answer.numbers() == told,
        }
    }
}

/// The cells met, and how often.
#[derive(Default)]
pub struct Table(pub BTreeMap<Cell, u64>);

impl Table {
    pub fn count(&mut self, cell: Cell) {
        *self.0.entry(cell).or_insert(0) += 1;
    }

    pub fn add(&mut self, other: &Table) {
        for (&cell, count) in &other.0 {
            *self.0.entry(cell).or_insert(0) += count;
        }
    }

    pub fn empty<'a>(&self, required: &'a [Cell]) -> Vec<&'a Cell> {
        required.iter().filter(|cell| !self.0.contains_key(cell)).collect()
    }

    /// One line for each group: cells met, cells required, least and greatest count of those required.
    pub fn print(&self, required: &[Cell]) {
        let mut groups: BTreeMap<&str, Vec<u64>> = BTreeMap::new();
        for cell in required {
            groups.entry(cell.group).or_default().push(self.0.get(cell).copied().unwrap_or(0));
        }
        for (group, counts) in groups {
            let met = counts.iter().filter(|&&count| count > 0).count();
            let (least, most) = (counts.iter().min().unwrap_or(&0), counts.iter().max().unwrap_or(&0));
            println!("  {group}: {met} of {} cells met, {least} to {most} times each", counts.len());
        }
    }

    /// Every cell with its count.
    pub fn print_whole(&self) {
        for (cell, count) in &self.0 {
            println!("  {} {:?}: {count}", cell.group, cell.key);
        }
    }
}
