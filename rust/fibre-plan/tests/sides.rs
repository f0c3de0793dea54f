//! One side of an idle link, planned alone, has the wavelengths and the fibre spans of the full plan.
use fibre_plan::{plan, Circuit, Grid, Line, Plan};
use inputs::{grid_and_wavelengths, Numbers, Rng};
use std::collections::HashMap;

/// What a circuit is given: first and last link of its fibre, and its wavelength; and the fibre's layer.
type Place = ((u16, u16, u16), u16);

/// A file of circuits on a line with an idle link.
struct Drawn {
    line: Line,
    idle: u16,
    circuits: Vec<Circuit>,
}

/// A circuit that does not use the idle link, which is not the line's only one.
fn beside(number: u32, links: u16, idle: u16, rng: &mut Rng) -> Circuit {
    let right = idle == 1 || (idle < links && rng.once_in(2));
    let (low, high) = if right {
        (idle + 1, links)
    } else {
        (1, idle - 1)
    };
    let first = rng.within(low.into(), high.into()) as u16;
    let last = rng.within(first.into(), high.into()) as u16;
    Circuit {
        number,
        first,
        last,
    }
}

/// A random file of up to so many circuits on a line of up to so many links and wavelengths.
fn drawn([most_links, most_wavelengths, most_circuits]: [usize; 3], rng: &mut Rng) -> Drawn {
    let links = rng.within(2, most_links);
    let idle = rng.within(1, links) as u16;
    let many = rng.within(0, most_circuits);
    let number = |i| Numbers::Shuffled.of(i);
    let circuits = (0..many).map(|i| beside(number(i), links as u16, idle, rng));
    let circuits = circuits.collect();
    let (grid, wavelengths) = grid_and_wavelengths(most_wavelengths, rng);
    let line = Line {
        links,
        wavelengths,
        grid: [Grid::Ghz100, Grid::Ghz50][grid - 1],
    };
    Drawn {
        line,
        idle,
        circuits,
    }
}

/// What a plan gives to each circuit, by its number.
fn places(plan: &Plan) -> HashMap<u32, Place> {
    let place = |at: &fibre_plan::Assignment| {
        let fibre = &plan.fibres[usize::from(at.fibre) - 1];
        let span_and_wavelength = (fibre.first, fibre.last, at.wavelength);
        (at.circuit, (span_and_wavelength, fibre.layer))
    };
    plan.assignments.iter().map(place).collect()
}

/// Both sides are planned alone, with their circuits in another order. Whether a layer differs from that of the full plan.
fn each_side_is_as_in_the_full_plan(file: &Drawn, rng: &mut Rng) -> bool {
    let all = places(&plan(file.line, &file.circuits).unwrap());
    let (mut left, mut right): (Vec<Circuit>, Vec<Circuit>) =
        file.circuits.iter().partition(|c| c.last < file.idle);
    assert!(right.iter().all(|c| file.idle < c.first));
    let mut differs = false;
    for side in [&mut left, &mut right] {
        rng.shuffle(side);
        let alone = places(&plan(file.line, side).unwrap());
        assert_eq!(alone.len(), side.len());
        for circuit in side {
            let (one, two) = (alone[&circuit.number], all[&circuit.number]);
            assert_eq!(one.0, two.0, "{circuit:?}");
            differs |= one.1 != two.1;
        }
    }
    differs
}

/// So many files; in how many of them a layer differs.
fn files(count: u64, most: [usize; 3]) -> usize {
    let differs = |seed: &u64| {
        let mut rng = Rng::new(*seed);
        let file = drawn(most, &mut rng);
        each_side_is_as_in_the_full_plan(&file, &mut rng)
    };
    (0..count).filter(differs).count()
}

#[test]
fn each_side_of_an_idle_link() {
    assert!(files(20_000, [12, 6, 14]) > 4_000);
}

#[test]
fn each_side_of_an_idle_link_of_a_long_line() {
    assert!(files(100, [512, 80, 2048]) > 50);
}
