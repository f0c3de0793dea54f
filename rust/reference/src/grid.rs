//! the grids.
use crate::Slip;

/// The most wavelengths of a grid.
pub(crate) fn limit(grid: usize, slip: Slip) -> usize {
    match grid {
        2 if slip != Slip::OneLimit => 80,
        _ => 40,
    }
}

/// The frequency of a wavelength of grid 1 or 2, in GHz: it has a channel, and channel 0 is 193,100 GHz.
pub fn frequency(grid: usize, wavelength: u16) -> i32 {
    let v = i32::from(wavelength);
    let (channel, spacing) = match grid {
        2 => (v - 21, 50),
        _ => (v - 11, 100),
    };
    193_100 + spacing * channel
}
