//! the check of a plan that somebody else made.
use crate::records::{self, Circuit};
use crate::{needs, table, Fibre, Line, Place, Refused, Slip};
use std::ops::RangeInclusive;

/// What is said of a plan.
#[derive(Clone, Copy, Debug, PartialEq, Eq)]
pub enum Finding {
    /// No rule is broken.
    Yes {
        /// The sum over the fibres of the links that they span.
        length: usize,
        /// The sum over the links of c(i).
        floor: usize,
    },
    /// The first rule that is broken.
    No {
        /// Its number, from 1 to 8.
        rule: u32,
        /// The fibre (rules 1 and 2) or the assignment (4 to 8), counted from 1; for rule 3, 0.
        place: usize,
    },
}

/// A plan to be checked: what stands in its three lists.
pub(crate) struct Plan {
    line: Line,
    pub circuits: Vec<Circuit>,
    /// Each fibre with its number.
    pub fibres: Vec<(usize, Fibre)>,
    /// Each circuit number with its place.
    pub assignments: Vec<(u32, Place)>,
    slip: Slip,
}

impl Plan {
    /// The plan that two lists of whole records hold for some circuits.
    pub fn read(
        line: Line,
        circuits: Vec<Circuit>,
        fibres: &[u8],
        assignments: &[u8],
        slip: Slip,
    ) -> Self {
        Self {
            line,
            circuits,
            fibres: fibres.chunks(8).map(records::fibre).collect(),
            assignments: assignments.chunks(8).map(records::assignment).collect(),
            slip,
        }
    }

    /// Whether it breaks no rule.
    pub fn is_sound(&self) -> bool {
        self.fault().is_none()
    }

    /// The same with only some of its circuits and their assignments.
    pub fn with_only(&self, some: &[bool]) -> Self {
        let of_some = |at: &usize| some[*at];
        let indices: Vec<usize> = (0..self.circuits.len()).filter(of_some).collect();
        Self {
            line: self.line,
            circuits: indices.iter().map(|&at| self.circuits[at]).collect(),
            fibres: self.fibres.clone(),
            assignments: indices.iter().map(|&at| self.assignments[at]).collect(),
            slip: self.slip,
        }
    }

    /// Whether the fibre at an index breaks rule 1 or 2.
    fn fibre_breaks(&self, at: usize, rule: u32) -> bool {
        let (number, fibre) = &self.fibres[at];
        let (first, last) = (*fibre.span.start(), *fibre.span.end());
        let layer_counts = self.slip == Slip::LayerNotIgnored;
        match rule {
            1 => *number != at + 1,
            _ => {
                first == 0
                    || first > last
                    || last > self.line.n
                    || (layer_counts && fibre.layer == 0)
            }
        }
    }

    /// The fibre of a number, if there is one.
    fn fibre(&self, number: usize) -> Option<&Fibre> {
        let (_, fibre) = self.fibres.get(number.checked_sub(1)?)?;
        Some(fibre)
    }

    /// Whether the assignments at two indices have one fibre and wavelength, and their circuits share a link.
    pub fn clash(&self, one: usize, two: usize) -> bool {
        let alike = self.assignments[one].1 == self.assignments[two].1;
        let overlap = || self.circuits[one].overlaps(&self.circuits[two]);
        alike && (self.slip == Slip::ClashWithoutOverlap || overlap())
    }

    /// Whether the assignment at an index breaks a rule from 4 to 8.
    pub fn assignment_breaks(&self, at: usize, rule: u32) -> bool {
        let circuit = &self.circuits[at];
        let (number, place) = self.assignments[at];
        let fibre = self.fibre(place.fibre);
        let spans = |f: &Fibre| circuit.links().all(|i| f.span.contains(&i));
        let top = self.line.w + usize::from(self.slip == Slip::OneWavelengthMore);
        match rule {
            4 => number != circuit.number,
            5 => fibre.is_none(),
            6 => !fibre.is_some_and(spans),
            7 => !(1..=top).contains(&place.wavelength),
            _ => (0..at).any(|earlier| self.clash(earlier, at)),
        }
    }

    /// The first faulty record of so many, and its lowest rule.
    fn first_fault(
        &self,
        many: usize,
        rules: RangeInclusive<u32>,
        breaks: fn(&Self, usize, u32) -> bool,
    ) -> Option<(u32, usize)> {
        let mut faults = (0..many).flat_map(|at| {
            let broken = rules.clone().filter(move |&rule| breaks(self, at, rule));
            broken.map(move |rule| (rule, at))
        });
        match self.slip {
            Slip::RuleByRule => faults.min(),
            _ => faults.next(),
        }
    }

    /// The first faulty fibre and its lowest rule.
    pub fn faulty_fibre(&self) -> Option<(u32, usize)> {
        let found = self.first_fault(self.fibres.len(), 1..=2, Self::fibre_breaks);
        found.map(|(rule, at)| (rule, at + 1))
    }

    /// Rule 3.
    fn faulty_count(&self) -> Option<(u32, usize)> {
        (self.assignments.len() != self.circuits.len()).then_some((3, 0))
    }

    /// The first faulty assignment and its lowest rule.
    fn faulty_assignment(&self) -> Option<(u32, usize)> {
        let many = self.assignments.len().min(self.circuits.len());
        let (rule, at) = self.first_fault(many, 4..=8, Self::assignment_breaks)?;
        Some(match (self.slip, rule) {
            (Slip::FiveForSix, 5 | 6) => (11 - rule, at + 1),
            (Slip::EarlierOfTwo, 8) => {
                let earlier = (0..at).find(|&earlier| self.clash(earlier, at));
                (8, earlier.map_or(0, |at| at + 1))
            }
            _ => (rule, at + 1),
        })
    }

    /// The first rule that is broken, and its place.
    fn fault(&self) -> Option<(u32, usize)> {
        type Part = fn(&Plan) -> Option<(u32, usize)>;
        let fibres: Part = Plan::faulty_fibre;
        let [count, assignments]: [Part; 2] = [Plan::faulty_count, Plan::faulty_assignment];
        let order = match self.slip {
            Slip::CountFirst => [count, fibres, assignments],
            Slip::CountLast => [fibres, assignments, count],
            _ => [fibres, count, assignments],
        };
        order.into_iter().find_map(|part| part(self))
    }

    /// What is said of it.
    fn finding(&self) -> Finding {
        let slip = self.slip;
        if let Some((rule, place)) = self.fault() {
            return Finding::No { rule, place };
        }
        let needs = needs(self.line.n, self.line.w, &self.circuits, slip);
        Finding::Yes {
            length: self.fibres.iter().map(|(_, f)| f.length(slip)).sum(),
            floor: needs.iter().sum(),
        }
    }
}

/// Checks the plan that two lists hold for the circuit records.
///
/// # Errors
///
/// The first refusal of the table that applies.
pub fn check(
    line: Line,
    circuits: &[u8],
    fibres: &[u8],
    assignments: &[u8],
) -> Result<Finding, Refused> {
    check_with(Slip::None, line, circuits, fibres, assignments)
}

/// The same with a mistake.
///
/// # Errors
///
/// As `check`.
#[doc(hidden)]
pub fn check_with(
    slip: Slip,
    line: Line,
    circuits: &[u8],
    fibres: &[u8],
    assignments: &[u8],
) -> Result<Finding, Refused> {
    let lists = table::accepted_lists(fibres, assignments, slip);
    if slip == Slip::ListsFirst {
        lists?;
    }
    let circuits = table::accepted_circuits(line, circuits, slip)?;
    lists?;
    Ok(Plan::read(line, circuits, fibres, assignments, slip).finding())
}
