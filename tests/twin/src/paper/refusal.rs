//! A refusal with its place, the one 64-bit number that a call returns, and what stands for none in an answer.

/// "None" in an answer of numbers.
pub const NONE: u32 = 4_294_967_295;

/// The number and the place of "Numbers for what can't be judged".
#[derive(Clone, Copy, PartialEq, Eq, Debug)]
pub struct Refusal {
    pub number: u64,
    pub place: u64,
}

/// A refusal as a failed result.
pub fn refuse<T>(number: u64, place: u64) -> Result<T, Refusal> {
    Err(Refusal { number, place })
}

/// The length alone, or refusal × 4,294,967,296 + place, a place above 4,294,967,295 being given as that.
pub fn one_number(result: Result<usize, Refusal>) -> u64 {
    match result {
        Ok(length) => length as u64,
        Err(refusal) => refusal.number * 4_294_967_296 + refusal.place.min(4_294_967_295),
    }
}
