//! The planner's method in plain Rust, written from the scope paper and the change requests alone, for comparison.
//!
//! It follows the papers sentence by sentence and does not try to be fast.
#![deny(missing_docs)]

mod add;
mod check;
mod grid;
mod lit;
mod mend;
mod paired;
mod records;
mod sheet;
mod slips;
mod table;

#[doc(hidden)]
pub use add::add_with;
pub use add::{add, Old};
#[doc(hidden)]
pub use check::check_with;
pub use check::{check, Finding};
pub use grid::frequency;
pub use lit::lit;
#[doc(hidden)]
pub use mend::mend_with;
pub use mend::{mend, Mended};
pub use paired::paired;
pub use records::Circuit;
#[doc(hidden)]
pub use slips::{
    Slip, ADD_SLIPS, BASE_SLIPS, CHECK_SLIPS, END_SLIPS, GRID_SLIPS, LIT_SLIPS, MEND_SLIPS,
};

use std::ops::RangeInclusive;

/// What is said of the line; each number may be wrong.
#[derive(Clone, Copy, Debug, PartialEq, Eq)]
pub struct Line {
    /// How many links it has.
    pub n: usize,
    /// How many wavelengths a fibre carries.
    pub w: usize,
    /// The grid.
    pub grid: usize,
}

/// How many fibres, their total length, and the floor.
#[derive(Clone, Copy, Debug, PartialEq, Eq)]
pub struct Counts {
    /// How many fibres there are.
    pub fibres: usize,
    /// The sum over the fibres of the links that they span.
    pub total: usize,
    /// The sum over the links of c(i).
    pub floor: usize,
}

/// The number of a refusal, its place and its end.
#[derive(Clone, Copy, Debug, PartialEq, Eq)]
pub struct Refused {
    /// Its number in the table.
    pub number: u32,
    /// The record, counted from 1, or 0.
    pub place: usize,
    /// For refusal 6: 1, first link zero; 2, first past last; 3, last past the line. For others 0.
    pub end: u32,
}

/// A fibre of a layer.
#[derive(Clone, Debug, PartialEq, Eq)]
pub struct Fibre {
    /// The links that it spans.
    pub span: RangeInclusive<usize>,
    /// Its layer, counted from 1.
    pub layer: usize,
}

/// Where a circuit is carried.
#[derive(Clone, Copy, Debug, PartialEq, Eq)]
pub struct Place {
    /// The number of its fibre: that fibre's place in the list, counted from 1.
    pub fibre: usize,
    /// Its wavelength.
    pub wavelength: usize,
}

/// What stands for the place of a circuit that no row took, as a mistake may have it.
const NOWHERE: Place = Place {
    fibre: 0,
    wavelength: 0,
};

/// A list of fibres and, for each circuit in file order, where it is carried.
#[derive(Clone, Debug, PartialEq, Eq)]
pub struct Plan {
    /// The fibres, in the order of their numbers.
    pub fibres: Vec<Fibre>,
    /// The places, in the order of the circuit file.
    pub places: Vec<Place>,
}

/// Each link's c(i), at index i; index 0 is no link.
pub fn needs(n: usize, w: usize, circuits: &[Circuit], slip: Slip) -> Vec<usize> {
    let load = |i: usize| circuits.iter().filter(|c| c.links().contains(&i)).count();
    let need = |i| match slip {
        Slip::RoundedDown => load(i) / w,
        _ => load(i).div_ceil(w),
    };
    let mut c: Vec<usize> = (0..=n).map(need).collect();
    if slip == Slip::LargestLoad {
        let top = c.iter().copied().max().unwrap_or(0);
        c[1..].fill(top);
    }
    c
}

/// The maximal runs of links 1 to n for which p holds, from left to right.
fn runs(n: usize, p: impl Fn(usize) -> bool) -> Vec<RangeInclusive<usize>> {
    let mut found = Vec::new();
    let mut i = 1;
    while i <= n {
        let first = i;
        while i <= n && p(i) {
            i += 1;
        }
        if first < i {
            found.push(first..=i - 1);
        }
        i += 1;
    }
    found
}

/// The plan of R-1, where link i needs c(i).
fn lit_plan(n: usize, w: usize, circuits: &[Circuit], c: &[usize], slip: Slip) -> Plan {
    lit(n, circuits, &paired(n, w, circuits, c, slip), slip)
}

/// Plans the circuit records on lent areas.
///
/// # Errors
///
/// The first refusal of the table that applies; then no byte is changed.
pub fn plan(
    line: Line,
    circuits: &[u8],
    fibres: &mut [u8],
    assignments: &mut [u8],
    work: &mut [u8],
) -> Result<Counts, Refused> {
    plan_with(Slip::None, line, circuits, fibres, assignments, work)
}

/// The same with a mistake.
///
/// # Errors
///
/// As `plan`.
#[doc(hidden)]
pub fn plan_with(
    slip: Slip,
    line: Line,
    circuits: &[u8],
    fibres: &mut [u8],
    assignments: &mut [u8],
    work: &mut [u8],
) -> Result<Counts, Refused> {
    let lengths = [fibres.len(), assignments.len(), work.len()];
    let circuits = table::accepted(line, circuits, lengths, slip)?;
    let Line { n, w, .. } = line;
    let c = needs(n, w, &circuits, slip);
    let plan = lit_plan(n, w, &circuits, &c, slip);

    for (i, fibre) in plan.fibres.iter().enumerate() {
        records::put(fibres, i, fibre.record(i + 1));
    }
    for (j, (circuit, place)) in circuits.iter().zip(&plan.places).enumerate() {
        records::put(assignments, j, circuit.assigned(*place));
    }
    if slip != Slip::WorkNotZeroed {
        work[..4 * n + 4 * circuits.len()].fill(0);
    }
    let floor = c.iter().sum();
    Ok(Counts {
        fibres: plan.fibres.len(),
        total: match slip {
            Slip::TwiceTheFloor => 2 * floor,
            _ => plan.fibres.iter().map(|f| f.length(slip)).sum(),
        },
        floor,
    })
}

impl Fibre {
    /// The number of links that it spans.
    fn length(&self, slip: Slip) -> usize {
        self.span.clone().count() - usize::from(slip == Slip::LastLessFirst)
    }
}
