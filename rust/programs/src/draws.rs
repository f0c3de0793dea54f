//! Lines with circuits, each made from its number alone, so that a failure can be had again.
use crate::Line;
use inputs::{grid_and_wavelengths, Circuit, Numbers, Rng, FAMILIES};

/// A line that is accepted; some of grid 1 do not name it.
fn accepted_line(rng: &mut Rng) -> Line {
    let (grid, w) = grid_and_wavelengths(80, rng);
    let named = grid != 1 || rng.once_in(2);
    Line {
        n: rng.within(1, 40) as u16,
        w: w as u16,
        grid: named.then_some(grid as u16),
    }
}

/// A line with up to 120 circuits; some have a fault.
pub fn random_line(seed: u64) -> (Line, Vec<Circuit>) {
    let rng = &mut Rng::new(seed);
    let mut line = accepted_line(rng);
    let (family, n) = (FAMILIES[rng.within(0, 5)], line.n);
    let mut circuits = family.circuits(rng.within(0, 120), n.into(), Numbers::Shuffled, rng);
    rng.shuffle(&mut circuits);
    let at = rng.within(0, circuits.len().saturating_sub(1));
    match rng.within(0, 11) {
        0 => line.n = [0, 513, 600][rng.within(0, 2)],
        1 => line.w = [0, 41, 81, 256][rng.within(0, 3)],
        2 if !circuits.is_empty() => circuits[at].0 = 0,
        3 if !circuits.is_empty() => {
            let (number, first, last) = circuits[at];
            let (first, last) = [(0, last), (n + 1, last), (first, n + 1)][rng.within(0, 2)];
            circuits[at] = (number, first, last);
        }
        4 if !circuits.is_empty() => circuits[at].0 = circuits[0].0,
        5 => line.grid = [0, 3, 257, 65_535].map(Some)[rng.within(0, 3)],
        _ => (),
    }
    (line, circuits)
}
