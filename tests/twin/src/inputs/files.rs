//! Job files and what a book shares with them: whole ones, and ones broken at a chosen number or byte.

use crate::paper::file::groups;
use crate::paper::job::{Fields, Job};
use crate::random::Random;

pub fn whole<const N: usize>(job: &Fields<N>) -> Vec<u8> {
    of(&job.0)
}

/// The groups of numbers, one after another.
pub fn of(numbers: &[u32]) -> Vec<u8> {
    numbers.iter().flat_map(|&number| groups(number)).collect()
}

/// A job whose file has 42 bytes, the most that an accepted job takes.
pub fn longest_job() -> Job {
    Fields([
        1, 1, 130, 150, 180, 2, 3000, 3, 4, 2, 3000, 16_384, 128, 300, 300, 1000, 1, 200, 1, 240, 1, 16_384, 4, 200,
        2000,
    ])
}

/// Groups broken at one of the numbers, counted from 0, and the offset of that number's first byte.
/// Ways: 0 cut before it, 1 cut inside it, 2 not shortest, 3 too great, 4 six bytes.
pub fn broken(random: &mut Random, numbers: &[u32], number: usize, way: usize) -> (Vec<u8>, usize) {
    let mut bytes = of(&numbers[..number]);
    let offset = bytes.len();
    match way {
        0 => return (bytes, offset),
        1 => {
            let long = groups(random.pick(&[128, 16_384, 2_097_152, u32::MAX]));
            bytes.extend_from_slice(&long[..1 + random.below(long.len() - 1)]);
            return (bytes, offset);
        }
        2 => bytes.extend_from_slice(&overlong(random, numbers[number])),
        3 => {
            let last = random.pick(&[0x10, 0x1F, 0x7F, 0x20, 0x40]);
            let low = random.pick(&[0x80, 0xFF]);
            bytes.extend_from_slice(&[low, low, low, low, last]);
        }
        _ => bytes.extend_from_slice(&[0x81, 0x80, 0x80, 0x80, 0x80, random.pick(&[0, 1])]),
    }
    bytes.extend_from_slice(&of(&numbers[number + 1..]));
    (bytes, offset)
}

// The value is kept and a last group of zero is added, 80 00 being the shortest such form.
fn overlong(random: &mut Random, value: u32) -> Vec<u8> {
    let mut bytes = groups(value >> random.pick(&[0, 0, 4, 11]));
    let last = bytes.len() - 1;
    bytes[last] |= 0x80;
    while bytes.len() < 4 && random.once_in(3) {
        bytes.push(0x80);
    }
    bytes.push(0);
    bytes
}

/// Groups with other damage: bits turned, bytes put in or left out, random bytes, five-byte numbers, or nothing at all.
pub fn shaken(random: &mut Random, numbers: &[u32]) -> Vec<u8> {
    let mut bytes = of(numbers);
    match random.below(7) {
        0 => {
            let at = random.below(bytes.len());
            bytes[at] ^= 1 << random.below(8);
        }
        1 => drop(bytes.remove(random.below(bytes.len()))),
        2 => bytes.insert(random.below(bytes.len() + 1), random.next() as u8),
        3 => {
            let length = random.below(130);
            bytes = random.bytes(length);
        }
        4 => bytes = (0..numbers.len() + random.below(3)).flat_map(|_| groups(random.next() as u32)).collect(),
        5 => bytes.extend_from_slice(&of(numbers)),
        _ => {
            let length = random.below(60);
            bytes = random.bytes(length).iter().map(|byte| byte & 0x7F).collect();
        }
    }
    bytes
}
