//! The column sheet: refusals 1 and 2, and the stability factor φ.

use super::fraction::{Fraction, d};
use super::refusal::{Refusal, refuse};

/// Entry k is the stability factor in thousandths at slenderness k.
#[derive(Clone)]
pub struct Sheet(pub [u16; 251]);

/// The sheet from its bytes, 502 of them, each entry low byte first.
pub fn read(bytes: &[u8]) -> Result<Sheet, Refusal> {
    if bytes.len() != 502 {
        return refuse(1, bytes.len() as u64);
    }
    let mut entries = [0; 251];
    for (k, pair) in bytes.chunks(2).enumerate() {
        entries[k] = u16::from(pair[0]) + 256 * u16::from(pair[1]);
    }
    match (0..=250).find(|&k| is_damaged(&entries, k)) {
        Some(k) => refuse(2, k as u64),
        None => Ok(Sheet(entries)),
    }
}

fn is_damaged(entries: &[u16; 251], k: usize) -> bool {
    let entry = entries[k];
    entry == 0 || entry > 1_000 || (k > 0 && entry > entries[k - 1]) || (k == 250 && entry < 117)
}

impl Sheet {
    /// φ at Z: up to 250 on the straight line between neighbouring entries, and 7320 / Z² above.
    pub fn stability_factor(&self, z: Fraction) -> Fraction {
        if z > d!(250) {
            return d!(7320) / (z * z);
        }
        // A whole Z is its own neighbour on both sides, so that nothing after entry 250 is read.
        let (before, after) = (z.down(), z.up());
        let past = z - Fraction::whole(before);
        (d!(1) - past) * self.entry(before) + past * self.entry(after)
    }

    /// The stability factor at slenderness k.
    fn entry(&self, k: i128) -> Fraction {
        Fraction::of(i128::from(self.0[k as usize]), 1000)
    }
}
