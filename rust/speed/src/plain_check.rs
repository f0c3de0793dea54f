//! The check as a Rust programmer would write it: the same tests and rules, no proof. For clashes there are two ways.
use crate::baseline::{accepted_circuits, needs, unless, Circuit, Refused};
use std::collections::HashMap;

/// What is found: length and floor, or the rule that is broken and its place.
pub type Found = Result<[usize; 2], (u32, usize)>;

/// What a check answers.
pub type Answer = Result<Found, Refused>;

pub struct Fibre {
    number: u16,
    pub first: u16,
    pub last: u16,
}

impl Fibre {
    pub fn length(&self) -> usize {
        usize::from(self.last - self.first) + 1
    }
}

pub struct Assignment {
    circuit: u32,
    pub fibre: u16,
    pub wavelength: u16,
}

/// The number in two bytes of a record.
fn two(record: &[u8], at: usize) -> u16 {
    u16::from_le_bytes([record[at], record[at + 1]])
}

/// Test 16 of one list.
fn accepted_list(list: &[u8], most: usize, place: usize) -> Result<(), Refused> {
    let whole = list.len().is_multiple_of(8) && list.len() / 8 <= most;
    unless(whole, 16).map_err(|(number, _, end)| (number, place, end))
}

pub fn read_fibres(list: &[u8]) -> Vec<Fibre> {
    let read = |record: &[u8]| Fibre {
        number: two(record, 0),
        first: two(record, 2),
        last: two(record, 4),
    };
    list.chunks_exact(8).map(read).collect()
}

pub fn read_assignments(list: &[u8]) -> Vec<Assignment> {
    let read = |record: &[u8]| Assignment {
        circuit: u32::from_le_bytes([record[0], record[1], record[2], record[3]]),
        fibre: two(record, 4),
        wavelength: two(record, 6),
    };
    list.chunks_exact(8).map(read).collect()
}

/// Rule 1 or 2, if the fibre at an index breaks one.
pub fn fibre_fault(n: usize, at: usize, fibre: &Fibre) -> Option<u32> {
    if usize::from(fibre.number) != at + 1 {
        Some(1)
    } else if fibre.first == 0 || fibre.last < fibre.first || n < usize::from(fibre.last) {
        Some(2)
    } else {
        None
    }
}

/// The lowest of rules 4 to 7 that an assignment breaks, if any.
pub fn assignment_fault(
    w: usize,
    circuit: &Circuit,
    fibres: &[Fibre],
    assignment: &Assignment,
) -> Option<u32> {
    if assignment.circuit != circuit.number {
        return Some(4);
    }
    let index = usize::from(assignment.fibre).checked_sub(1);
    let Some(fibre) = index.and_then(|at| fibres.get(at)) else {
        return Some(5);
    };
    if circuit.first < fibre.first || fibre.last < circuit.last {
        Some(6)
    } else if !(1..=w).contains(&usize::from(assignment.wavelength)) {
        Some(7)
    } else {
        None
    }
}

/// Whether two circuits have one fibre and wavelength and share a link: by fibre, wavelength and first link, neighbours then
/// do.
fn any_clash(circuits: &[Circuit], assignments: &[Assignment]) -> bool {
    let place = |(c, a): (&Circuit, &Assignment)| ((a.fibre, a.wavelength), c.first, c.last);
    let mut order: Vec<_> = circuits.iter().zip(assignments).map(place).collect();
    order.sort_unstable();
    order.windows(2).any(|pair| {
        let [(one, _, last), (two, first, _)] = [pair[0], pair[1]];
        one == two && first <= last
    })
}

/// A way to find the first assignment that clashes with an earlier one, as an index.
type Clash = fn(&[Circuit], &[Assignment]) -> Option<usize>;

/// By what each fibre and wavelength carries so far.
pub fn by_hashing(circuits: &[Circuit], assignments: &[Assignment]) -> Option<usize> {
    let mut carried: HashMap<(u16, u16), Vec<&Circuit>> = HashMap::new();
    circuits.iter().zip(assignments).position(|(c, a)| {
        let others = carried.entry((a.fibre, a.wavelength)).or_default();
        let clash = others
            .iter()
            .any(|o| o.first <= c.last && c.first <= o.last);
        others.push(c);
        clash
    })
}

/// By sorting, which tells whether there is one; only then it is looked for.
pub fn by_sorting(circuits: &[Circuit], assignments: &[Assignment]) -> Option<usize> {
    if !any_clash(circuits, assignments) {
        return None;
    }
    let clash = |i: usize, j: usize| {
        let [one, two] = [i, j].map(|at| (assignments[at].fibre, assignments[at].wavelength));
        one == two && circuits[i].first <= circuits[j].last && circuits[j].first <= circuits[i].last
    };
    (0..assignments.len()).find(|&j| (0..j).any(|i| clash(i, j)))
}

/// The first broken rule and its place, if any.
pub fn fault(
    (n, w): (usize, usize),
    circuits: &[Circuit],
    fibres: &[Fibre],
    assignments: &[Assignment],
    first_clash: Clash,
) -> Option<(u32, usize)> {
    let faulty = |(at, fibre)| Some((fibre_fault(n, at, fibre)?, at + 1));
    if let Some(found) = fibres.iter().enumerate().find_map(faulty) {
        return Some(found);
    }
    if assignments.len() != circuits.len() {
        return Some((3, 0));
    }
    let faulty = |(at, (c, a)): (usize, _)| Some((assignment_fault(w, c, fibres, a)?, at + 1));
    let mut pairs = circuits.iter().zip(assignments).enumerate();
    let found = pairs.find_map(faulty);
    let sound = found.map_or(assignments.len(), |(_, place)| place - 1);
    let clash = first_clash(&circuits[..sound], &assignments[..sound]);
    clash.map(|at| (8, at + 1)).or(found)
}

/// Checks the plan of two lists.
pub fn check(
    n: usize,
    w: usize,
    grid: usize,
    file: &[u8],
    fibres: &[u8],
    assignments: &[u8],
    first_clash: Clash,
) -> Answer {
    let circuits = accepted_circuits(n, w, grid, file)?;
    accepted_list(fibres, 4096, 1)?;
    accepted_list(assignments, 2048, 2)?;
    let (fibres, assignments) = (read_fibres(fibres), read_assignments(assignments));
    if let Some(fault) = fault((n, w), &circuits, &fibres, &assignments, first_clash) {
        return Ok(Err(fault));
    }
    let total = fibres.iter().map(Fibre::length).sum();
    Ok(Ok([total, needs(n, w, &circuits).iter().sum()]))
}
