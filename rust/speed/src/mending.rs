//! One case of a mending: the same damaged register to each.
use crate::case::{Areas, Case, GRID};
use crate::plain_add::{Carried, Hashed, Lists};
use crate::plain_mend;
use crate::ways::{self, Answer, Call, Times};
use inputs::Rng;

/// What the calls are given.
struct Given {
    line: [usize; 3],
    circuits: Vec<u8>,
    old_fibres: usize,
}

/// Fibres, assignments, report and work area.
type Lent = [Vec<u8>; 4];

/// Ours, and plain Rust's two.
const MENDERS: [Call<Given, Lent, 4>; 3] = [ours, plain::<Lists>, plain::<Hashed>];

fn ours(given: &Given, to: &mut Lent) -> Answer<4> {
    let [f, a, r, k] = to;
    fibre_plan::mend_bytes(given.line, &given.circuits, given.old_fibres, f, a, r, k)
        .map(|c| [c.plan.fibres, c.plan.total, c.plan.floor, c.lines])
        .map_err(|r| (r.number(), r.place(), r.end()))
}

fn plain<C: Carried>(given: &Given, to: &mut Lent) -> Answer<4> {
    let areas = to.each_mut().map(Vec::as_mut_slice);
    plain_mend::mend::<C>(given.line, &given.circuits, given.old_fibres, areas)
}

/// Damages so many of a hundred records: exchanged, zeroed, random, or another circuit's place.
fn damage(assignments: &mut [u8], share: usize) {
    let mut rng = Rng::new(share as u64);
    let last = assignments.len() / 8 - 1;
    for at in (0..assignments.len()).step_by(8) {
        let other = 8 * rng.within(0, last);
        if rng.within(1, 100) > share {
            continue;
        }
        match rng.within(0, 3) {
            0 => (0..8).for_each(|i| assignments.swap(at + i, other + i)),
            1 => assignments[at..at + 8].fill(0),
            2 => rng.fill(&mut assignments[at..at + 8]),
            _ => assignments.copy_within(other + 4..other + 8, at + 4),
        }
    }
}

/// The best of so many rounds for the register of a case, of which so many of a hundred assignments are damaged.
pub fn measure(case: &Case, share: usize, rounds: usize) -> Times {
    let circuits = case.file();
    let mut areas = Areas::new(case);
    areas.fill();
    let planned = case.ours(&circuits, &mut areas);
    let [old_fibres, ..] = planned.expect("a plan");
    areas.fibres.resize(8 * old_fibres + circuits.len(), 0xA5);
    damage(&mut areas.assignments, share);
    areas.work.fill(0xA5);
    let report = vec![0xA5; fibre_plan::report_bytes(case.circuits)];
    let before = [areas.fibres, areas.assignments, report, areas.work];
    let given = Given {
        line: [case.links, case.wavelengths, GRID],
        circuits,
        old_fibres,
    };
    ways::measure(&given, &before, MENDERS, rounds)
}
