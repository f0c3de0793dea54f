//! The check of a plan.
use crate::{abi, records, Assignment, Circuit, Fibre, Line, Refusal, MAX_CIRCUITS, MAX_FIBRES};
use std::fmt;

/// A rule that a plan must keep, named by how it is broken.
#[derive(Clone, Copy, Debug, PartialEq, Eq, Hash)]
#[non_exhaustive]
pub enum Rule {
    /// 1: a fibre's number is not its place in the list.
    FibreNumber,
    /// 2: a fibre's first link is 0, or past its last, or its last link is past the line.
    FibreSpan,
    /// 3: there are not as many assignments as circuits.
    AssignmentCount,
    /// 4: an assignment does not have the number of the circuit at its place.
    CircuitNumber,
    /// 5: there is no fibre of that number.
    NoSuchFibre,
    /// 6: the fibre does not span the circuit.
    NotSpanned,
    /// 7: the wavelength is not 1 to the line's number of wavelengths.
    Wavelength,
    /// 8: an earlier assignment has the same fibre and wavelength, and its circuit shares a link with this one.
    Clash,
    /// What this crate's table does not have: the archive is newer.
    Other {
        /// Its number.
        number: u32,
    },
}

impl Rule {
    /// The rule with a number of the table.
    fn from_table(number: u32) -> Self {
        match number {
            1 => Self::FibreNumber,
            2 => Self::FibreSpan,
            3 => Self::AssignmentCount,
            4 => Self::CircuitNumber,
            5 => Self::NoSuchFibre,
            6 => Self::NotSpanned,
            7 => Self::Wavelength,
            8 => Self::Clash,
            number => Self::Other { number },
        }
    }

    /// Its number in the table.
    pub const fn number(self) -> u32 {
        match self {
            Self::FibreNumber => 1,
            Self::FibreSpan => 2,
            Self::AssignmentCount => 3,
            Self::CircuitNumber => 4,
            Self::NoSuchFibre => 5,
            Self::NotSpanned => 6,
            Self::Wavelength => 7,
            Self::Clash => 8,
            Self::Other { number } => number,
        }
    }

    /// How it is broken.
    const fn text(self) -> &'static str {
        match self {
            Self::FibreNumber => "its number is not its place",
            Self::FibreSpan => "first link 0 or past the last, or last link past the line",
            Self::AssignmentCount => "not as many assignments as circuits",
            Self::CircuitNumber => "not the circuit number of that place",
            Self::NoSuchFibre => "no such fibre",
            Self::NotSpanned => "the fibre does not span the circuit",
            Self::Wavelength => "the wavelength is not 1 to the line's number of wavelengths",
            Self::Clash => "it clashes with an earlier assignment",
            Self::Other { .. } => "this crate has no words for it",
        }
    }
}

impl fmt::Display for Rule {
    fn fmt(&self, f: &mut fmt::Formatter<'_>) -> fmt::Result {
        f.write_str(self.text())
    }
}

/// What is said of a plan that was checked.
#[derive(Clone, Copy, Debug, PartialEq, Eq, Hash)]
pub enum Finding {
    /// No rule is broken: the plan is valid.
    Yes {
        /// The sum over the fibres of the links that they span.
        length: usize,
        /// A length that no valid plan can be shorter than.
        floor: usize,
    },
    /// A rule is broken. Fibres come first, then rule 3, then assignments; of a list it is the first faulty record, and that
    /// record's lowest rule.
    No {
        /// The rule.
        rule: Rule,
        /// The fibre (rules 1 and 2) or the assignment (4 to 8), counted from 1; for rule 3, 0.
        place: usize,
    },
}

impl fmt::Display for Finding {
    fn fmt(&self, f: &mut fmt::Formatter<'_>) -> fmt::Result {
        let (rule, place) = match *self {
            Self::Yes { length, floor } => {
                return write!(f, "valid: length {length}, floor {floor}")
            }
            Self::No { rule, place } => (rule, place),
        };
        write!(f, "rule {}", rule.number())?;
        match (rule.number(), place) {
            (_, 0) => (),
            (1 | 2, _) => write!(f, ", fibre {place}")?,
            _ => write!(f, ", assignment {place}")?,
        }
        write!(f, ": {rule}")
    }
}

/// Checks a plan of circuits on a line, whoever made it. The layers of its fibres do not matter.
///
/// ```
/// use fibre_plan::{check, plan, Circuit, Finding, Grid, Line, Refusal, Rule};
///
/// let line = Line { links: 5, wavelengths: 2, grid: Grid::Ghz100 };
/// let circuits = [
///     Circuit { number: 10, first: 1, last: 3 },
///     Circuit { number: 20, first: 2, last: 5 },
/// ];
/// let mut plan = plan(line, &circuits)?;
/// let found = check(line, &circuits, &plan.fibres, &plan.assignments)?;
/// assert_eq!(found, Finding::Yes { length: plan.total, floor: plan.floor });
/// plan.assignments[1].wavelength = 1;
/// let found = check(line, &circuits, &plan.fibres, &plan.assignments)?;
/// assert_eq!(found, Finding::No { rule: Rule::Clash, place: 2 });
/// assert_eq!(found.to_string(), "rule 8, assignment 2: it clashes with an earlier assignment");
/// # Ok::<(), Refusal>(())
/// ```
///
/// # Errors
///
/// The first [`Refusal`] of the table that applies: one of 2 to 7 for the circuits, or 16 for a list that is too long, since
/// the records are whole and the grid is one of the two.
pub fn check(
    line: Line,
    circuits: &[Circuit],
    fibres: &[Fibre],
    assignments: &[Assignment],
) -> Result<Finding, Refusal> {
    check_bytes(
        line.links,
        line.wavelengths,
        line.grid.number(),
        &records::encode(circuits, MAX_CIRCUITS, Circuit::to_bytes),
        &records::encode(fibres, MAX_FIBRES, Fibre::to_bytes),
        &records::encode(assignments, MAX_CIRCUITS, Assignment::to_bytes),
    )
}

/// Checks the plan that fibre and assignment records hold for circuit records, with no allocation. Any number is taken for
/// the grid; 1 and 2 are those of [`Grid`](crate::Grid).
///
/// ```
/// use fibre_plan::{check_bytes, Finding, Refusal, Rule};
///
/// let circuits = [7, 0, 0, 0, 1, 0, 1, 0];
/// let fibres = [1, 0, 1, 0, 2, 0, 0, 0];
/// let assignments = [7, 0, 0, 0, 1, 0, 1, 0];
/// let found = check_bytes(2, 1, 1, &circuits, &fibres, &assignments)?;
/// assert_eq!(found, Finding::Yes { length: 2, floor: 1 });
/// let found = check_bytes(1, 1, 1, &circuits, &fibres, &assignments)?;
/// assert_eq!(found, Finding::No { rule: Rule::FibreSpan, place: 1 });
/// let refused = check_bytes(2, 1, 1, &circuits, &fibres[1..], &assignments).unwrap_err();
/// assert_eq!((refused.number(), refused.place()), (16, 1));
/// # Ok::<(), Refusal>(())
/// ```
///
/// # Errors
///
/// The first [`Refusal`] of the table that applies: one of 1 to 7 or 12 for the circuits, then 16 for the two lists.
pub fn check_bytes(
    links: usize,
    wavelengths: usize,
    grid: usize,
    circuits: &[u8],
    fibres: &[u8],
    assignments: &[u8],
) -> Result<Finding, Refusal> {
    let answer = abi::check(links, wavelengths, grid, circuits, fibres, assignments);
    let place = answer.place as usize;
    match (answer.refusal, answer.rule) {
        (0, 0) => Ok(Finding::Yes {
            length: answer.length,
            floor: answer.floor,
        }),
        (0, rule) => Ok(Finding::No {
            rule: Rule::from_table(rule),
            place,
        }),
        (number, _) => Err(Refusal::from_table(number, place, answer.end)),
    }
}

#[cfg(test)]
mod tests {
    use super::Rule;

    #[test]
    fn each_number_is_handed_on() {
        for number in 1..=9 {
            assert_eq!(Rule::from_table(number).number(), number);
        }
    }
}
