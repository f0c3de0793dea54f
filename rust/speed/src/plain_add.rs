//! The addition as a Rust programmer would write it: the same tests, the same bytes, no proof. For places there are two ways.
use crate::baseline::{
    accepted_ends, accepted_line, needs, numbers, read_circuits, settle, unless, unless_at,
    write_assignment, write_fibres, Answer, Circuit, Plan, Refused,
};
use crate::plain_check::{by_sorting, fault, read_assignments, read_fibres, Assignment, Fibre};
use std::collections::{HashMap, HashSet};

/// What is old: the circuit file, and how many records each of the two lists begins with.
#[derive(Clone, Copy)]
pub struct Old<'a> {
    pub circuits: &'a [u8],
    pub fibres: usize,
    pub assignments: usize,
}

/// What the old fibres are, and where each old circuit is carried.
struct OldPlan {
    fibres: Vec<Fibre>,
    assignments: Vec<Assignment>,
}

/// Fibre number and wavelength of each circuit that an old fibre has a place for.
pub type Places = Vec<Option<(u16, u16)>>;

/// What the old fibres carry.
pub trait Carried {
    /// Nothing, on so many fibres.
    fn nothing(fibres: usize) -> Self;

    /// Puts a circuit on a fibre, with a wavelength.
    fn put(&mut self, c: &Circuit, place: (u16, u16));

    /// Whether no circuit with this fibre and wavelength shares a link with a circuit.
    fn is_free(&self, c: &Circuit, place: (u16, u16)) -> bool;

    /// The lowest fibre that spans a circuit and has a wavelength free there, and the lowest such wavelength.
    fn lowest(&self, w: usize, fibres: &[Fibre], c: &Circuit) -> Option<(u16, u16)>;
}

/// What a circuit has on a fibre.
struct Rider {
    first: u16,
    last: u16,
    wavelength: u16,
}

impl Rider {
    fn meets(&self, c: &Circuit) -> bool {
        self.first <= c.last && c.first <= self.last
    }
}

/// The circuits of each fibre; where one is looked for, a bit for each wavelength.
pub struct Lists(Vec<Vec<Rider>>);

impl Carried for Lists {
    fn nothing(fibres: usize) -> Self {
        Self((0..fibres).map(|_| Vec::new()).collect())
    }

    fn put(&mut self, c: &Circuit, (fibre, wavelength): (u16, u16)) {
        self.0[usize::from(fibre) - 1].push(Rider {
            first: c.first,
            last: c.last,
            wavelength,
        });
    }

    fn is_free(&self, c: &Circuit, (fibre, wavelength): (u16, u16)) -> bool {
        let mut riders = self.0[usize::from(fibre) - 1].iter();
        !riders.any(|r| r.wavelength == wavelength && r.meets(c))
    }

    fn lowest(&self, w: usize, fibres: &[Fibre], c: &Circuit) -> Option<(u16, u16)> {
        for (number, (fibre, riders)) in (1..).zip(fibres.iter().zip(&self.0)) {
            if c.first < fibre.first || fibre.last < c.last {
                continue;
            }
            let there = riders.iter().filter(|r| r.meets(c));
            // There is no wavelength 0.
            let busy = there.fold(1u128, |busy, r| busy | 1 << r.wavelength);
            let lowest = busy.trailing_ones() as u16;
            if usize::from(lowest) <= w {
                return Some((number, lowest));
            }
        }
        None
    }
}

/// First and last link of the circuits of each fibre and wavelength.
pub struct Hashed(HashMap<(u16, u16), Vec<(u16, u16)>>);

impl Carried for Hashed {
    fn nothing(_: usize) -> Self {
        Self(HashMap::new())
    }

    fn put(&mut self, c: &Circuit, place: (u16, u16)) {
        self.0.entry(place).or_default().push((c.first, c.last));
    }

    fn is_free(&self, c: &Circuit, place: (u16, u16)) -> bool {
        let mut there = self.0.get(&place).into_iter().flatten();
        !there.any(|&(first, last)| first <= c.last && c.first <= last)
    }

    fn lowest(&self, w: usize, fibres: &[Fibre], c: &Circuit) -> Option<(u16, u16)> {
        let spanning = (1..)
            .zip(fibres)
            .filter(|(_, f)| f.first <= c.first && c.last <= f.last);
        let mut each = spanning.flat_map(|(number, _)| (1..=w as u16).map(move |v| (number, v)));
        each.find(|place| self.is_free(c, *place))
    }
}

/// Gives circuits, which stand by rising number, the places that old fibres have.
pub fn place<C: Carried>(carried: &mut C, w: usize, fibres: &[Fibre], order: &[Circuit]) -> Places {
    let mut found = |c: &Circuit| {
        let place = carried.lowest(w, fibres, c)?;
        carried.put(c, place);
        Some(place)
    };
    order.iter().map(&mut found).collect()
}

/// A refusal's place, counted on from so many records.
fn counted_on<T>(result: Result<T, Refused>, before: usize) -> Result<T, Refused> {
    result.map_err(|(number, place, end)| (number, before + place, end))
}

/// The circuits of both files that none of the tests 1 to 7 and 12 refuses, and the old numbers.
fn accepted_files(
    [n, w, grid]: [usize; 3],
    old: &[u8],
    new: &[u8],
) -> Result<([Vec<Circuit>; 2], HashSet<u32>), Refused> {
    unless(
        old.len().is_multiple_of(8) && new.len().is_multiple_of(8),
        1,
    )?;
    unless(old.len() / 8 + new.len() / 8 <= 2048, 2)?;
    accepted_line(n, w, grid)?;
    let files = [old, new].map(read_circuits);
    let [old, new] = &files;
    let zero = |c: &Circuit| c.number == 0;
    unless_at(old.iter().position(zero), 5)?;
    counted_on(unless_at(new.iter().position(zero), 5), old.len())?;
    accepted_ends(n, old)?;
    counted_on(accepted_ends(n, new), old.len())?;
    let old_numbers = numbers(old).map_err(|at| (7, at + 1, 0))?;
    numbers(new).map_err(|at| (7, old.len() + at + 1, 0))?;
    Ok((files, old_numbers))
}

/// Whether a list of so many bytes has room for so many old records and some more.
pub fn has_room(bytes: usize, old: usize, more: usize) -> bool {
    let records = old.checked_add(more);
    let needed = records.and_then(|records| records.checked_mul(8));
    needed.is_some_and(|needed| needed <= bytes)
}

/// The old plan, if test 13 does not refuse it.
fn accepted_plan(
    [n, w]: [usize; 2],
    old: Old,
    circuits: &[Circuit],
    [fibres, assignments]: [&[u8]; 2],
) -> Result<OldPlan, Refused> {
    unless(old.fibres <= 2048 && old.assignments == circuits.len(), 13)?;
    let fibres = read_fibres(&fibres[..8 * old.fibres]);
    let assignments = read_assignments(&assignments[..8 * old.assignments]);
    let broken = fault((n, w), circuits, &fibres, &assignments, by_sorting);
    unless(broken.is_none(), 13)?;
    Ok(OldPlan {
        fibres,
        assignments,
    })
}

/// The circuits that have no place, as a file of their own.
pub fn left(circuits: &[Circuit], places: &Places) -> Vec<Circuit> {
    let without = circuits.iter().zip(places).filter(|(_, p)| p.is_none());
    let place = |(at, (c, _)): (usize, (&Circuit, _))| Circuit {
        place: at as u16,
        ..*c
    };
    without.enumerate().map(place).collect()
}

/// Fibre number and wavelength of each circuit: its place, or what the plan of those that are left gives it.
pub fn given(old_fibres: usize, places: &Places, rest: &Plan) -> Vec<(u16, u16)> {
    let mut of_left = 0..;
    let planned = |at: usize| {
        let (fibre, wavelength) = rest.place(at);
        ((old_fibres + fibre) as u16, wavelength as u16)
    };
    let each = places.iter().copied();
    each.map(|place| place.unwrap_or_else(|| planned(of_left.next().unwrap_or(0))))
        .collect()
}

/// Adds circuits to the plan at the start of two lists.
pub fn add<C: Carried>(
    [n, w, grid]: [usize; 3],
    old: Old,
    added: &[u8],
    fibres: &mut [u8],
    assignments: &mut [u8],
    work: &mut [u8],
) -> Answer {
    let ([circuits, new], old_numbers) = accepted_files([n, w, grid], old.circuits, added)?;
    unless(has_room(fibres.len(), old.fibres, new.len()), 8)?;
    unless(has_room(assignments.len(), old.assignments, new.len()), 9)?;
    let zeroed = 4 * n + 4 * (circuits.len() + new.len());
    unless(zeroed <= work.len(), 10)?;
    let plan = accepted_plan([n, w], old, &circuits, [fibres, assignments])?;
    let repeated = new.iter().position(|c| old_numbers.contains(&c.number));
    counted_on(unless_at(repeated, 14), circuits.len())?;

    let mut order = new.clone();
    order.sort_by_key(|c| c.number);
    let mut carried = C::nothing(plan.fibres.len());
    for (c, a) in circuits.iter().zip(&plan.assignments) {
        carried.put(c, (a.fibre, a.wavelength));
    }
    let places = place(&mut carried, w, &plan.fibres, &order);
    let left = left(&order, &places);
    let rest = settle(w, &left, &needs(n, w, &left));
    write_fibres(fibres, old.fibres, &rest.fibres);
    for (c, (fibre, wavelength)) in order.iter().zip(given(old.fibres, &places, &rest)) {
        write_assignment(assignments, old.assignments + c.at(), c, fibre, wavelength);
    }
    work[..zeroed].fill(0);
    let old_total: usize = plan.fibres.iter().map(Fibre::length).sum();
    let new_total: usize = rest.fibres.iter().map(|f| f.last - f.first + 1).sum();
    let floor = needs(n, w, &[&circuits[..], &new].concat()).iter().sum();
    let count = old.fibres + rest.fibres.len();
    Ok([count, old_total + new_total, floor])
}
