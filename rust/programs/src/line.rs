//! What is said of a line.

/// Links, wavelengths, and the grid where it is named: without it, it is grid 1.
#[derive(Clone, Copy, Debug, PartialEq, Eq)]
pub struct Line {
    /// How many links it has.
    pub n: u16,
    /// How many wavelengths a fibre carries.
    pub w: u16,
    /// The grid, where it is named.
    pub grid: Option<u16>,
}

impl From<(u16, u16)> for Line {
    fn from((n, w): (u16, u16)) -> Self {
        Self { n, w, grid: None }
    }
}

impl From<(u16, u16, u16)> for Line {
    fn from((n, w, grid): (u16, u16, u16)) -> Self {
        let grid = Some(grid);
        Self { n, w, grid }
    }
}

impl Line {
    /// Its numbers: two, or three where the grid is named.
    pub fn numbers(&self) -> impl Iterator<Item = u16> {
        [self.n, self.w].into_iter().chain(self.grid)
    }

    /// The bytes of `line.rec`: 4, or 6 where the grid is named.
    pub fn bytes(&self) -> Vec<u8> {
        self.numbers().flat_map(u16::to_le_bytes).collect()
    }

    /// The grid that is meant.
    pub fn grid_meant(&self) -> usize {
        self.grid.unwrap_or(1).into()
    }
}
