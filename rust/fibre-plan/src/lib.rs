//! A fibre planner that is proved.
//!
//! A line has links 1 to n. A circuit uses some consecutive links. [`plan`] gives every circuit a
//! fibre and a wavelength, so that no two circuits that share a link share both. The same circuits
//! get the same fibres and wavelengths whatever their order.
//!
//! No fibre is dark, not even on one of its links: each link of a fibre is used by a circuit that
//! the fibre carries. So there is at most one fibre a circuit. Over each link there are at most
//! twice as many fibres, and in all at most twice the length, that any valid plan needs.
//!
//! The work is done by a library in Rattle whose contract fixes the answer and every byte that it
//! writes, for every input. This crate turns its records into Rust types and back; that part is
//! tested and not proved.
//!
//! ```
//! use fibre_plan::{plan, Circuit, Grid, Line, Refusal};
//!
//! let line = Line { links: 5, wavelengths: 2, grid: Grid::Ghz100 };
//! let circuits = [
//!     Circuit { number: 10, first: 1, last: 3 },
//!     Circuit { number: 20, first: 2, last: 5 },
//! ];
//! let plan = plan(line, &circuits)?;
//! assert_eq!(plan.fibres.len(), 1);
//! assert_eq!((plan.assignments[1].circuit, plan.assignments[1].wavelength), (20, 2));
//! assert_eq!(line.grid.frequency(2), 192_200);
//! assert_eq!((plan.total, plan.floor), (5, 5));
//! # Ok::<(), Refusal>(())
//! ```
//!
//! [`Plan::add`] adds circuits to a plan and moves none that is there.
//!
//! [`mend`] puts a damaged register in order: what is sound stays, and what is not gets a place again.
//!
//! [`check`] says of a plan that anybody made whether it is valid, and if not, which rule it breaks first, and where.
#![deny(missing_docs)]
#![deny(unsafe_op_in_unsafe_fn)]

mod abi;
mod add;
mod check;
mod grid;
mod mend;
mod records;
mod refusal;

pub use add::{add_bytes, Old};
pub use check::{check, check_bytes, Finding, Rule};
pub use grid::Grid;
pub use mend::{mend, mend_bytes, MendCounts, Mended};
pub use records::{Assignment, Circuit, Fibre, ReportLine, RECORD_BYTES, REPORT_LINE_BYTES};
pub use refusal::{End, Refusal};

/// The most links that a line may have.
pub const MAX_LINKS: usize = 512;

/// The most circuits that are planned or checked at once; where some are added, with the old ones.
pub const MAX_CIRCUITS: usize = 2048;

/// The most fibres of a plan that circuits are added to, or of a register that is mended.
pub const MAX_OLD_FIBRES: usize = 2048;

/// The most fibres of a plan that is checked.
pub const MAX_FIBRES: usize = 4096;

/// A line, and what its fibres carry.
#[derive(Clone, Copy, Debug, PartialEq, Eq, Hash)]
pub struct Line {
    /// How many links it has, from 1 to [`MAX_LINKS`].
    pub links: usize,
    /// How many wavelengths each fibre carries, from 1 to the grid's [`Grid::max_wavelengths`].
    pub wavelengths: usize,
    /// The grid of the wavelengths.
    pub grid: Grid,
}

/// The three numbers of a plan.
#[derive(Clone, Copy, Debug, PartialEq, Eq, Hash)]
pub struct Counts {
    /// How many fibres there are.
    pub fibres: usize,
    /// The sum over the fibres of the links that they span.
    pub total: usize,
    /// A length that no valid plan can be shorter than; `total` is at most twice that where nothing was added or mended.
    pub floor: usize,
}

/// A plan: a list of fibres and, for each circuit, one of them and a wavelength. Each link of each
/// fibre that was planned here is used by a circuit on it.
#[derive(Clone, Debug, PartialEq, Eq, Hash)]
pub struct Plan {
    /// The fibres, in the order of their numbers.
    pub fibres: Vec<Fibre>,
    /// An assignment for each circuit, in the order of the circuits.
    pub assignments: Vec<Assignment>,
    /// The sum over the fibres of the links that they span.
    pub total: usize,
    /// A length that no valid plan can be shorter than; `total` is at most twice that where nothing was added or mended.
    pub floor: usize,
}

/// The bytes that a fibre list must have, for so many circuits: there is at most one fibre a circuit. Where circuits are added, for so
/// many old fibres and new circuits; where a register is mended, for so many of its fibres and its circuits.
pub const fn fibre_bytes(circuits: usize) -> usize {
    circuits.saturating_mul(RECORD_BYTES)
}

/// The bytes that an assignment list must have, for so many circuits, old or new.
pub const fn assignment_bytes(circuits: usize) -> usize {
    circuits.saturating_mul(RECORD_BYTES)
}

/// The bytes that the report of a mending must have, for so many circuits.
pub const fn report_bytes(circuits: usize) -> usize {
    circuits.saturating_mul(REPORT_LINE_BYTES)
}

/// The bytes that a work area must have, for so many links and circuits, old or new.
pub const fn work_bytes(links: usize, circuits: usize) -> usize {
    links.saturating_add(circuits).saturating_mul(4)
}

/// Plans circuits on a line.
///
/// ```
/// use fibre_plan::{plan, Circuit, End, Grid, Line, Refusal};
///
/// let line = Line { links: 5, wavelengths: 80, grid: Grid::Ghz50 };
/// let past_the_line = [Circuit { number: 7, first: 5, last: 6 }];
/// let refused = plan(line, &past_the_line).unwrap_err();
/// assert_eq!(refused, Refusal::Ends { place: 1, end: End::LastPastLine });
/// assert_eq!(refused.to_string(), "refusal 6, record 1: last link past the line");
/// let line = Line { grid: Grid::Ghz100, ..line };
/// assert_eq!(plan(line, &past_the_line), Err(Refusal::Wavelengths));
/// ```
///
/// # Errors
///
/// The first [`Refusal`] of the table that applies: one of 2 to 7, since the records are whole, the
/// grid is one of the two, and the areas are large enough.
pub fn plan(line: Line, circuits: &[Circuit]) -> Result<Plan, Refusal> {
    // Past the limits the answer is a refusal, which needs no room.
    let bytes = records::encode(circuits, MAX_CIRCUITS, Circuit::to_bytes);
    let many = circuits.len().min(MAX_CIRCUITS);
    let mut fibres = vec![0; fibre_bytes(many)];
    let mut assignments = vec![0; assignment_bytes(many)];
    let mut work = vec![0; work_bytes(line.links.min(MAX_LINKS), many)];
    let counts = plan_bytes(
        line.links,
        line.wavelengths,
        line.grid.number(),
        &bytes,
        &mut fibres,
        &mut assignments,
        &mut work,
    )?;
    Ok(Plan {
        fibres: records::decode(&fibres, counts.fibres, Fibre::from_bytes),
        assignments: records::decode(&assignments, many, Assignment::from_bytes),
        total: counts.total,
        floor: counts.floor,
    })
}

/// Plans circuit records on lent areas, with no allocation. Any number is taken for the grid; 1 and
/// 2 are those of [`Grid`].
///
/// Where it plans, the fibre records fill the start of `fibres`, the assignment records the start
/// of `assignments`, and the first [`work_bytes`] bytes of `work` are zero; every other byte is
/// as it was. Where it refuses, no byte is changed. What was in the three areas does not matter.
///
/// ```
/// use fibre_plan::{plan_bytes, Refusal};
///
/// let circuits = [7, 0, 0, 0, 1, 0, 1, 0];
/// let (mut fibres, mut assignments, mut work) = ([0; 8], [0; 8], [0; 8]);
/// let counts = plan_bytes(1, 1, 1, &circuits, &mut fibres, &mut assignments, &mut work)?;
/// assert_eq!((counts.fibres, counts.total, counts.floor), (1, 1, 1));
/// assert_eq!(fibres, [1, 0, 1, 0, 1, 0, 1, 0]);
/// assert_eq!(assignments, [7, 0, 0, 0, 1, 0, 1, 0]);
/// let refused = plan_bytes(1, 1, 3, &circuits, &mut fibres, &mut assignments, &mut work);
/// assert_eq!(refused, Err(Refusal::Grid));
/// let backwards = [7, 0, 0, 0, 1, 0, 0, 0];
/// let refused = plan_bytes(1, 1, 1, &backwards, &mut fibres, &mut assignments, &mut work);
/// let numbers = refused.map_err(|r| (r.number(), r.place(), r.end()));
/// assert_eq!(numbers, Err((6, 1, 2)));
/// # Ok::<(), Refusal>(())
/// ```
///
/// # Errors
///
/// The first [`Refusal`] of the table that applies.
pub fn plan_bytes(
    links: usize,
    wavelengths: usize,
    grid: usize,
    circuits: &[u8],
    fibres: &mut [u8],
    assignments: &mut [u8],
    work: &mut [u8],
) -> Result<Counts, Refusal> {
    let answer = abi::plan(
        links,
        wavelengths,
        grid,
        circuits,
        fibres,
        assignments,
        work,
    );
    counts_or_refusal(answer)
}

/// The answer as types.
fn counts_or_refusal(answer: abi::PlanAnswer) -> Result<Counts, Refusal> {
    match answer.refusal {
        0 => Ok(Counts {
            fibres: answer.fibres,
            total: answer.total,
            floor: answer.floor,
        }),
        number => Err(Refusal::from_table(
            number,
            answer.place as usize,
            answer.end,
        )),
    }
}
