//! One case of an addition: the same plan and the same new file to each.
use crate::baseline::Answer;
use crate::case::{Areas, Case, GRID};
use crate::plain_add::{self, Carried, Hashed, Lists};
use crate::ways::{self, Call, Times};

/// What the calls are given.
struct Given {
    line: [usize; 3],
    old: Vec<u8>,
    added: Vec<u8>,
    old_fibres: usize,
}

/// Ours, and plain Rust's two.
const ADDERS: [Call<Given, Areas, 3>; 3] = [ours, plain::<Lists>, plain::<Hashed>];

fn ours(given: &Given, to: &mut Areas) -> Answer {
    let old = fibre_plan::Old {
        circuits: &given.old,
        fibres: given.old_fibres,
        assignments: given.old.len() / 8,
    };
    let (f, a, k) = (&mut to.fibres, &mut to.assignments, &mut to.work);
    fibre_plan::add_bytes(given.line, old, &given.added, f, a, k)
        .map(|c| [c.fibres, c.total, c.floor])
        .map_err(|r| (r.number(), r.place(), r.end()))
}

fn plain<C: Carried>(given: &Given, to: &mut Areas) -> Answer {
    let old = plain_add::Old {
        circuits: &given.old,
        fibres: given.old_fibres,
        assignments: given.old.len() / 8,
    };
    let (f, a, k) = (&mut to.fibres, &mut to.assignments, &mut to.work);
    plain_add::add::<C>(given.line, old, &given.added, f, a, k)
}

/// The best of so many rounds for the file of a case: the first circuits, so many, are planned, and the others are added.
pub fn measure(case: &Case, old: usize, rounds: usize) -> Times {
    let mut circuits = case.file();
    let added = circuits.split_off(8 * old);
    let mut before = Areas::new(case);
    before.fill();
    let planned = case.ours(&circuits, &mut before);
    let [old_fibres, ..] = planned.expect("a plan");
    before.fibres.resize(8 * old_fibres + added.len(), 0xA5);
    let given = Given {
        line: [case.links, case.wavelengths, GRID],
        old: circuits,
        added,
        old_fibres,
    };
    ways::measure(&given, &before, ADDERS, rounds)
}
