//! Circuit files for tests and measurements, from fixed seeds.
#![deny(missing_docs)]

mod family;
mod rng;

pub use family::{Family, FAMILIES};
pub use rng::Rng;

/// Number, first link and last link of a circuit.
pub type Circuit = (u32, u16, u16);

/// The circuit file of some circuits: 8 bytes each, low byte first.
pub fn encode(circuits: &[Circuit]) -> Vec<u8> {
    let mut bytes = Vec::with_capacity(8 * circuits.len());
    for (number, first, last) in circuits {
        bytes.extend(number.to_le_bytes());
        bytes.extend(first.to_le_bytes());
        bytes.extend(last.to_le_bytes());
    }
    bytes
}

/// 19 circuits for 21 links and two wavelengths: 10 pairs of fibres of 01, and two fibres of R-1. They are
/// [2j − 1, 2j + 1] for j from 1 to 10, each twice, but the first once.
pub fn ladder() -> Vec<Circuit> {
    let rungs = (1..=10).flat_map(|j| [(2 * j - 1, 2 * j + 1); 2]);
    let numbered = (1..).zip(rungs.skip(1));
    numbered.map(|(number, (a, b))| (number, a, b)).collect()
}

/// A grid, 1 or 2, and a number of wavelengths that it allows, up to so many.
pub fn grid_and_wavelengths(most: usize, rng: &mut Rng) -> (usize, usize) {
    let (grid, limit) = [(1, 40), (2, 80)][rng.within(0, 1)];
    (grid, rng.within(1, most.min(limit)))
}

/// Circuit numbers for a file: no two alike, and none 0.
#[derive(Clone, Copy, Debug, PartialEq, Eq)]
pub enum Numbers {
    /// 1, 2, 3, ..
    Rising,
    /// Spread over 32 bits, in no order.
    Shuffled,
}

impl Numbers {
    /// The number of circuit i, counted from 0.
    pub fn of(self, i: usize) -> u32 {
        let rising = i as u32 + 1;
        match self {
            Self::Rising => rising,
            Self::Shuffled => scrambled(rising),
        }
    }
}

/// A permutation of the 32-bit numbers that maps only 0 to 0.
fn scrambled(x: u32) -> u32 {
    let x = (x ^ (x >> 16)).wrapping_mul(0x7FEB_352D);
    let x = (x ^ (x >> 15)).wrapping_mul(0x846C_A68B);
    x ^ (x >> 16)
}
