//! Circuits added to a plan.
use crate::{
    abi, assignment_bytes, counts_or_refusal, fibre_bytes, records, work_bytes, Assignment,
    Circuit, Counts, Fibre, Line, Plan, Refusal, MAX_CIRCUITS, MAX_LINKS, MAX_OLD_FIBRES,
};

impl Plan {
    /// Adds circuits to this plan of other circuits on a line, whoever made it, and moves none of those: the fibres and the
    /// assignments of the plan that comes out begin with this one's. Only these two lists are read here, not the two numbers.
    ///
    /// The new circuits take their turns by rising number. Each gets the lowest-numbered fibre of this plan that spans it and has
    /// a wavelength free there, and the lowest such wavelength. Those that fit nowhere are planned together, as
    /// [`plan`](crate::plan) plans them, and their fibres follow the old ones; their layers are counted from 1. The new assignments
    /// follow the old ones in the order of `added`.
    ///
    /// The line need not be the one that the plan was made for: other numbers of links and wavelengths are taken if the plan is valid
    /// with them. After k additions to a plan of [`plan`](crate::plan) there are over each link at most 2k fibres more than twice as
    /// many as its circuits need, with the least number of wavelengths that was given.
    ///
    /// ```
    /// use fibre_plan::{check, plan, Circuit, Finding, Grid, Line, Refusal};
    ///
    /// let line = Line { links: 5, wavelengths: 2, grid: Grid::Ghz100 };
    /// let mut circuits = vec![
    ///     Circuit { number: 10, first: 1, last: 3 },
    ///     Circuit { number: 20, first: 2, last: 5 },
    /// ];
    /// let old = plan(line, &circuits)?;
    /// let added = [
    ///     Circuit { number: 40, first: 4, last: 5 },
    ///     Circuit { number: 30, first: 1, last: 2 },
    /// ];
    /// let new = old.add(line, &circuits, &added)?;
    /// assert_eq!(new.fibres[..1], old.fibres);
    /// assert_eq!(new.assignments[..2], old.assignments);
    /// // Circuit 40 fits beside 10 on the old fibre; 30 gets a fibre of its own.
    /// assert_eq!((new.assignments[2].fibre, new.assignments[2].wavelength), (1, 1));
    /// assert_eq!((new.assignments[3].fibre, new.fibres[1].last), (2, 2));
    /// let again = new.add(line, &circuits, &added);
    /// assert_eq!(again, Err(Refusal::OldPlan));
    /// circuits.extend(added);
    /// let (length, floor) = (new.total, new.floor);
    /// let found = check(line, &circuits, &new.fibres, &new.assignments)?;
    /// assert_eq!(found, Finding::Yes { length, floor });
    /// let refused = new.add(line, &circuits, &added).unwrap_err();
    /// assert_eq!(refused, Refusal::OldNumber { place: 5 });
    /// assert_eq!(refused.to_string(), "refusal 14, record 5: its number stands in the old file");
    /// # Ok::<(), Refusal>(())
    /// ```
    ///
    /// # Errors
    ///
    /// The first [`Refusal`] of the table that applies: one of 2 to 7, 13 or 14, since the records are whole, the grid is one of the
    /// two, and the areas are large enough.
    pub fn add(
        &self,
        line: Line,
        circuits: &[Circuit],
        added: &[Circuit],
    ) -> Result<Self, Refusal> {
        // Past the limits the answer is a refusal, which needs no room.
        let old_bytes = records::encode(circuits, MAX_CIRCUITS, Circuit::to_bytes);
        let added_bytes = records::encode(added, MAX_CIRCUITS, Circuit::to_bytes);
        let mut fibres = records::encode(&self.fibres, MAX_OLD_FIBRES, Fibre::to_bytes);
        let mut assignments =
            records::encode(&self.assignments, MAX_CIRCUITS, Assignment::to_bytes);
        let old = Old {
            circuits: &old_bytes,
            fibres: fibres.len() / records::RECORD_BYTES,
            assignments: assignments.len() / records::RECORD_BYTES,
        };
        let new = added.len().min(MAX_CIRCUITS);
        fibres.resize(fibre_bytes(old.fibres + new), 0);
        assignments.resize(assignment_bytes(old.assignments + new), 0);
        let both = (circuits.len().min(MAX_CIRCUITS) + new).min(MAX_CIRCUITS);
        let mut work = vec![0; work_bytes(line.links.min(MAX_LINKS), both)];
        let counts = add_bytes(
            [line.links, line.wavelengths, line.grid.number()],
            old,
            &added_bytes,
            &mut fibres,
            &mut assignments,
            &mut work,
        )?;
        Ok(Self {
            fibres: records::decode(&fibres, counts.fibres, Fibre::from_bytes),
            assignments: records::decode(&assignments, both, Assignment::from_bytes),
            total: counts.total,
            floor: counts.floor,
        })
    }
}

/// What is old where circuits are added: the circuit file, and how many records each of the two lists begins with. Any number may be
/// named.
#[derive(Clone, Copy, Debug, PartialEq, Eq)]
pub struct Old<'a> {
    /// The circuit records that the plan is of.
    pub circuits: &'a [u8],
    /// How many old records the fibre list begins with.
    pub fibres: usize,
    /// How many old records the assignment list begins with: as many as there are old circuits, or the plan is refused with 13.
    pub assignments: usize,
}

/// Adds circuit records to the plan that stands at the start of two lent lists, with no allocation. The line is links,
/// wavelengths and grid; any numbers are taken, and 1 and 2 are the grids of [`Grid`](crate::Grid).
///
/// Where it adds, the fibre records that are added follow the old ones in `fibres`, the new assignment records the old ones in
/// `assignments`, and the first [`work_bytes`] bytes of `work`, for the circuits of both files, are zero; every other byte is as
/// it was. The numbers are those of the whole plan. Where it refuses, no byte is changed.
///
/// ```
/// use fibre_plan::{add_bytes, Old, Refusal};
///
/// let circuits = [7, 0, 0, 0, 1, 0, 1, 0];
/// let old = Old { circuits: &circuits, fibres: 1, assignments: 1 };
/// let mut fibres = [1, 0, 1, 0, 1, 0, 1, 0, 9, 9, 9, 9, 9, 9, 9, 9];
/// let mut assignments = [7, 0, 0, 0, 1, 0, 1, 0, 9, 9, 9, 9, 9, 9, 9, 9];
/// let mut work = [9; 16];
/// let added = [5, 0, 0, 0, 1, 0, 2, 0];
/// let counts = add_bytes([2, 1, 1], old, &added, &mut fibres, &mut assignments, &mut work)?;
/// assert_eq!((counts.fibres, counts.total, counts.floor), (2, 3, 3));
/// assert_eq!(fibres, [1, 0, 1, 0, 1, 0, 1, 0, 2, 0, 1, 0, 2, 0, 1, 0]);
/// assert_eq!(assignments, [7, 0, 0, 0, 1, 0, 1, 0, 5, 0, 0, 0, 2, 0, 1, 0]);
/// assert_eq!(work, [0; 16]);
/// let old = Old { fibres: 0, ..old };
/// let refused = add_bytes([2, 1, 1], old, &added, &mut fibres, &mut assignments, &mut work);
/// assert_eq!(refused, Err(Refusal::OldPlan));
/// # Ok::<(), Refusal>(())
/// ```
///
/// # Errors
///
/// The first [`Refusal`] of the table that applies.
pub fn add_bytes(
    line: [usize; 3],
    old: Old<'_>,
    added: &[u8],
    fibres: &mut [u8],
    assignments: &mut [u8],
    work: &mut [u8],
) -> Result<Counts, Refusal> {
    counts_or_refusal(abi::add(line, old, added, fibres, assignments, work))
}
