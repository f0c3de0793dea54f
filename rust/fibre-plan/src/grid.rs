//! The grids of frequencies.

/// A grid of ITU-T G.694.1: how many wavelengths a fibre may carry, and their frequencies. A plan does not depend on it
/// otherwise.
#[derive(Clone, Copy, Debug, PartialEq, Eq, Hash)]
pub enum Grid {
    /// Grid 1: up to 40 wavelengths, 100 GHz apart.
    Ghz100,
    /// Grid 2: up to 80 wavelengths, 50 GHz apart.
    Ghz50,
}

impl Grid {
    /// Its number, as [`plan_bytes`](crate::plan_bytes) takes it.
    pub const fn number(self) -> usize {
        match self {
            Self::Ghz100 => 1,
            Self::Ghz50 => 2,
        }
    }

    /// The most wavelengths that a fibre may carry.
    pub const fn max_wavelengths(self) -> usize {
        match self {
            Self::Ghz100 => 40,
            Self::Ghz50 => 80,
        }
    }

    /// The frequency of a wavelength, in GHz.
    ///
    /// ```
    /// use fibre_plan::Grid;
    ///
    /// assert_eq!([1, 11, 40].map(|v| Grid::Ghz100.frequency(v)), [192_100, 193_100, 196_000]);
    /// assert_eq!([1, 21, 80].map(|v| Grid::Ghz50.frequency(v)), [192_100, 193_100, 196_050]);
    /// ```
    pub const fn frequency(self, wavelength: u16) -> u32 {
        match self {
            Self::Ghz100 => 192_000 + 100 * wavelength as u32,
            Self::Ghz50 => 192_050 + 50 * wavelength as u32,
        }
    }
}
