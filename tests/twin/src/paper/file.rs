//! The job file: numbers in groups of seven bits, read and written. A book takes its groups from here.

use super::job::{self, Fields, Job};
use super::refusal::{Refusal, refuse};
use super::support::{self, Support};

/// What a file holds.
pub enum Content {
    Job(Job),
    Support(Support),
}

/// A first number of 3 marks a support; with any other the file is read as 25 numbers.
pub fn read(bytes: &[u8]) -> Result<Content, Refusal> {
    match read_number(bytes) {
        Some((3, _)) => read_fields(bytes, support::accept).map(Content::Support),
        _ => read_fields(bytes, job::accept).map(Content::Job),
    }
}

/// Refusal 3, and 4 and 5 where they occur.
type Accept<const N: usize> = fn(&Fields<N>) -> Result<(), Refusal>;

/// Reading: 6, 7, 3, 4, 5.
fn read_fields<const N: usize>(bytes: &[u8], accept: Accept<N>) -> Result<Fields<N>, Refusal> {
    let mut fields = Fields([0; N]);
    let at = read_numbers(bytes, 0, &mut fields.0).or_else(|at| refuse(6, at as u64))?;
    if at < bytes.len() {
        return refuse(7, at as u64);
    }
    accept(&fields)?;
    Ok(fields)
}

/// Numbers from an offset on, one after another: the offset behind the last, or that of the first damaged one.
pub fn read_numbers(bytes: &[u8], from: usize, numbers: &mut [u32]) -> Result<usize, usize> {
    let mut at = from;
    for number in numbers {
        let (value, length) = read_number(&bytes[at..]).ok_or(at)?;
        *number = value;
        at += length;
    }
    Ok(at)
}

/// The number at the start and its length; none if it is cut off, not shortest or too great.
fn read_number(bytes: &[u8]) -> Option<(u32, usize)> {
    let length = 1 + bytes.iter().position(|byte| byte & 0x80 == 0)?;
    let is_shortest = length == 1 || bytes[length - 1] != 0;
    if length > 5 || !is_shortest {
        return None;
    }
    let mut value = 0u64;
    for (group, byte) in bytes[..length].iter().enumerate() {
        value += u64::from(byte & 0x7F) << (7 * group);
    }
    u32::try_from(value).ok().map(|value| (value, length))
}

/// Writing a file: 3, 4, 5, 8.
pub fn write<const N: usize>(fields: &Fields<N>, accept: Accept<N>, bytes: &mut [u8]) -> Result<usize, Refusal> {
    accept(fields)?;
    write_numbers(&fields.0, bytes)
}

/// Refusal 8 in bytes; else each number goes into what is left after the one before.
pub fn write_numbers(numbers: &[u32], bytes: &mut [u8]) -> Result<usize, Refusal> {
    let needed = numbers.iter().map(|&number| groups(number).len()).sum();
    if bytes.len() < needed {
        return refuse(8, needed as u64);
    }
    let mut at = 0;
    for &number in numbers {
        at += write_number(number, &mut bytes[at..]);
    }
    Ok(at)
}

/// A number's groups, low group first, top bit set on every byte but the last.
pub fn groups(number: u32) -> Vec<u8> {
    let mut groups = Vec::with_capacity(5);
    let mut rest = number;
    while rest > 0x7F {
        groups.push((rest & 0x7F) as u8 | 0x80);
        rest >>= 7;
    }
    groups.push(rest as u8);
    groups
}

fn write_number(number: u32, left: &mut [u8]) -> usize {
    let groups = groups(number);
    left[..groups.len()].copy_from_slice(&groups);
    groups.len()
}
