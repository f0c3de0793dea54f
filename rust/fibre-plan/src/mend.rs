//! A damaged register, mended.
use crate::{
    abi, counts_or_refusal, fibre_bytes, records, report_bytes, work_bytes, Assignment, Circuit,
    Counts, Fibre, Line, Plan, Refusal, ReportLine, MAX_CIRCUITS, MAX_LINKS, MAX_OLD_FIBRES,
};

/// A register that was mended, and what was done.
#[derive(Clone, Debug, PartialEq, Eq, Hash)]
pub struct Mended {
    /// The plan that is now in the register: its fibres begin with those that were there.
    pub plan: Plan,
    /// A line for each circuit that was not kept, by rising number.
    pub report: Vec<ReportLine>,
}

/// The numbers of a register that was mended.
#[derive(Clone, Copy, Debug, PartialEq, Eq, Hash)]
pub struct MendCounts {
    /// Those of the whole plan.
    pub plan: Counts,
    /// How many lines the report has: one for each circuit that was not kept.
    pub lines: usize,
}

/// Mends a register: circuits, fibres, and a damaged list of assignments, one for each circuit.
///
/// By rising number, an assignment is kept if it breaks none of the rules 4 to 7 of [`Rule`](crate::Rule) and clashes with none that
/// was kept before; it stays where it is, byte for byte. When it is known who is kept, the others take their turns by rising number, as
/// in [`Plan::add`]: each gets the lowest-numbered fibre that spans it and has a wavelength free there, and the lowest such wavelength.
/// Those that fit nowhere are planned together, as [`plan`](crate::plan) plans them, and their fibres follow those that were there;
/// their layers are counted from 1.
///
/// The assignments stand in the order of the circuits. What belongs to a circuit is the assignment at its place, even if that names
/// another. A register without faults stays as it is.
///
/// ```
/// use fibre_plan::{check, mend, plan, Circuit, Finding, Grid, Line, Refusal, ReportLine};
///
/// let line = Line { links: 5, wavelengths: 2, grid: Grid::Ghz100 };
/// let circuits = [
///     Circuit { number: 10, first: 1, last: 3 },
///     Circuit { number: 20, first: 2, last: 5 },
/// ];
/// let plan = plan(line, &circuits)?;
/// let mut assignments = plan.assignments.clone();
/// assert_eq!(mend(line, &circuits, &plan.fibres, &assignments)?.report, []);
/// // Circuit 20 has the place of circuit 10 in the register.
/// assignments[1].wavelength = 1;
/// let mended = mend(line, &circuits, &plan.fibres, &assignments)?;
/// assert_eq!(mended.plan, plan);
/// let given = ReportLine {
///     circuit: 20,
///     found_fibre: 1,
///     found_wavelength: 1,
///     given_fibre: 1,
///     given_wavelength: 2,
/// };
/// assert_eq!(mended.report, [given]);
/// let refused = mend(line, &circuits, &plan.fibres, &assignments[1..]);
/// assert_eq!(refused, Err(Refusal::AssignmentList));
/// # Ok::<(), Refusal>(())
/// ```
///
/// # Errors
///
/// The first [`Refusal`] of the table that applies: one of 2 to 7 for the circuits, 16 if there is not one assignment for each circuit,
/// or 20 for the fibres, since the records are whole, the grid is one of the two, and the areas are large enough.
pub fn mend(
    line: Line,
    circuits: &[Circuit],
    fibres: &[Fibre],
    assignments: &[Assignment],
) -> Result<Mended, Refusal> {
    // Past the limits the answer is a refusal, which needs no room.
    let bytes = records::encode(circuits, MAX_CIRCUITS, Circuit::to_bytes);
    let many = circuits.len().min(MAX_CIRCUITS);
    let mut fibres = records::encode(fibres, MAX_OLD_FIBRES, Fibre::to_bytes);
    let old_fibres = fibres.len() / records::RECORD_BYTES;
    fibres.resize(fibre_bytes(old_fibres + many), 0);
    let mut assignments = records::encode(assignments, MAX_CIRCUITS, Assignment::to_bytes);
    let mut report = vec![0; report_bytes(many)];
    let mut work = vec![0; work_bytes(line.links.min(MAX_LINKS), many)];
    let counts = mend_bytes(
        [line.links, line.wavelengths, line.grid.number()],
        &bytes,
        old_fibres,
        &mut fibres,
        &mut assignments,
        &mut report,
        &mut work,
    )?;
    let plan = Plan {
        fibres: records::decode(&fibres, counts.plan.fibres, Fibre::from_bytes),
        assignments: records::decode(&assignments, many, Assignment::from_bytes),
        total: counts.plan.total,
        floor: counts.plan.floor,
    };
    let report = records::decode(&report, counts.lines, ReportLine::from_bytes);
    Ok(Mended { plan, report })
}

/// Mends the register of circuit records, fibre records and assignment records, with no allocation. The line is links, wavelengths and
/// grid; any numbers are taken, and 1 and 2 are the grids of [`Grid`](crate::Grid). `fibres` begins with so many old records as
/// `old_fibres` says; any number may be named. `assignments` is exactly one record for each circuit.
///
/// Where it mends, the fibre records that are added follow the old ones in `fibres`, the assignment of each circuit that is not kept
/// stands in its own record, the lines fill the start of `report`, and the first [`work_bytes`] bytes of `work` are zero; every other
/// byte is as it was. Where it refuses, no byte is changed.
///
/// ```
/// use fibre_plan::{mend_bytes, Refusal};
///
/// let circuits = [7, 0, 0, 0, 1, 0, 1, 0, 5, 0, 0, 0, 1, 0, 2, 0];
/// let mut fibres = [9; 24];
/// fibres[..8].copy_from_slice(&[1, 0, 1, 0, 1, 0, 1, 0]);
/// // Circuit 7 is kept, and what stands for circuit 5 is lost.
/// let mut assignments = [7, 0, 0, 0, 1, 0, 1, 0, 0, 0, 0, 0, 0, 0, 3, 0];
/// let (mut report, mut work) = ([9; 24], [9; 16]);
/// let line = [2, 1, 1];
/// let (f, a, r, k) = (&mut fibres, &mut assignments, &mut report, &mut work);
/// let counts = mend_bytes(line, &circuits, 1, f, a, r, k)?;
/// assert_eq!((counts.plan.fibres, counts.plan.total, counts.plan.floor), (2, 3, 3));
/// assert_eq!(fibres[8..], [2, 0, 1, 0, 2, 0, 1, 0, 9, 9, 9, 9, 9, 9, 9, 9]);
/// assert_eq!(assignments, [7, 0, 0, 0, 1, 0, 1, 0, 5, 0, 0, 0, 2, 0, 1, 0]);
/// assert_eq!(counts.lines, 1);
/// assert_eq!(report[..12], [5, 0, 0, 0, 0, 0, 3, 0, 2, 0, 1, 0]);
/// assert_eq!(report[12..], [9; 12]);
/// fibres[8] = 3;
/// let (f, a, r, k) = (&mut fibres, &mut assignments, &mut report, &mut work);
/// let refused = mend_bytes(line, &circuits, 2, f, a, r, k);
/// assert_eq!(refused, Err(Refusal::FibreRoom));
/// let refused = mend_bytes(line, &circuits[..8], 2, f, &mut a[..8], r, k);
/// assert_eq!(refused, Err(Refusal::FibreRecord { place: 2 }));
/// # Ok::<(), Refusal>(())
/// ```
///
/// # Errors
///
/// The first [`Refusal`] of the table that applies.
pub fn mend_bytes(
    line: [usize; 3],
    circuits: &[u8],
    old_fibres: usize,
    fibres: &mut [u8],
    assignments: &mut [u8],
    report: &mut [u8],
    work: &mut [u8],
) -> Result<MendCounts, Refusal> {
    let answer = abi::mend(
        line,
        circuits,
        old_fibres,
        fibres,
        assignments,
        report,
        work,
    );
    let plan = counts_or_refusal(answer.plan)?;
    let lines = answer.lines;
    Ok(MendCounts { plan, lines })
}
