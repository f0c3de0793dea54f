//! The mending as a Rust programmer would write it: the same tests, the same bytes, no proof. For places there are two ways.
use crate::baseline::{
    accepted_circuits, needs, settle, unless, unless_at, write_assignment, write_fibres, Circuit,
    Refused,
};
use crate::plain_add::{given, has_room, left, place, Carried};
use crate::plain_check::{
    assignment_fault, fibre_fault, read_assignments, read_fibres, Assignment, Fibre,
};

/// The old fibres, if test 20 does not refuse them.
fn accepted_fibres(n: usize, list: &[u8], count: usize) -> Result<Vec<Fibre>, Refused> {
    unless(count <= 2048, 20)?;
    let fibres = read_fibres(&list[..8 * count]);
    let mut numbered = fibres.iter().enumerate();
    let faulty = numbered.position(|(at, fibre)| fibre_fault(n, at, fibre).is_some());
    unless_at(faulty, 20)?;
    Ok(fibres)
}

/// The circuits that are not kept, by rising number; what is kept is put on the fibres.
fn not_kept<C: Carried>(
    w: usize,
    circuits: &[Circuit],
    fibres: &[Fibre],
    found: &[Assignment],
    carried: &mut C,
) -> Vec<Circuit> {
    let mut order = circuits.to_vec();
    order.sort_by_key(|c| c.number);
    order.retain(|c| {
        let a = &found[c.at()];
        let place = (a.fibre, a.wavelength);
        let kept = assignment_fault(w, c, fibres, a).is_none() && carried.is_free(c, place);
        if kept {
            carried.put(c, place);
        }
        !kept
    });
    order
}

/// Writes a line of the report.
fn write_line(line: &mut [u8], c: &Circuit, found: &Assignment, given: (u16, u16)) {
    line[..4].copy_from_slice(&c.number.to_le_bytes());
    let fields = [found.fibre, found.wavelength, given.0, given.1];
    for (bytes, field) in line[4..].chunks_exact_mut(2).zip(fields) {
        bytes.copy_from_slice(&field.to_le_bytes());
    }
}

/// Mends the register in two lists, the first of which begins with so many fibres. The areas are these two, the report and the work area.
pub fn mend<C: Carried>(
    [n, w, grid]: [usize; 3],
    file: &[u8],
    old_fibres: usize,
    [fibres, assignments, report, work]: [&mut [u8]; 4],
) -> Result<[usize; 4], Refused> {
    let circuits = accepted_circuits(n, w, grid, file)?;
    let m = circuits.len();
    unless(has_room(fibres.len(), old_fibres, m), 8)?;
    unless(4 * n + 4 * m <= work.len(), 10)?;
    let one_each = assignments.len() == 8 * m;
    unless(one_each, 16).map_err(|(number, _, end)| (number, 2, end))?;
    let old = accepted_fibres(n, fibres, old_fibres)?;
    unless(12 * m <= report.len(), 23)?;

    let found = read_assignments(assignments);
    let mut carried = C::nothing(old.len());
    let rest = not_kept(w, &circuits, &old, &found, &mut carried);
    let places = place(&mut carried, w, &old, &rest);
    let left = left(&rest, &places);
    let plan = settle(w, &left, &needs(n, w, &left));
    write_fibres(fibres, old_fibres, &plan.fibres);
    let all_given = given(old_fibres, &places, &plan);
    for ((c, given), line) in rest.iter().zip(all_given).zip(report.chunks_exact_mut(12)) {
        write_assignment(assignments, c.at(), c, given.0, given.1);
        write_line(line, c, &found[c.at()], given);
    }
    work[..4 * n + 4 * m].fill(0);
    let old_total: usize = old.iter().map(Fibre::length).sum();
    let new_total: usize = plan.fibres.iter().map(|f| f.last - f.first + 1).sum();
    let floor = needs(n, w, &circuits).iter().sum();
    let count = old_fibres + plan.fibres.len();
    Ok([count, old_total + new_total, floor, rest.len()])
}
