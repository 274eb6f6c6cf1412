//! Document 01 with requests 1/14 to 9/14, in its own order and in exact fractions: what the library is compared with.

pub mod between;
pub mod book;
pub mod calls;
pub mod cells;
pub mod checks;
pub mod constants;
pub mod figures;
pub mod file;
pub mod first_failing;
pub mod fraction;
pub mod heights;
pub mod job;
pub mod order;
pub mod refusal;
pub mod report;
pub mod sheet;
pub mod support;
