//! a damaged register is mended.
use crate::records::{self, Circuit};
use crate::{add, check, table, Counts, Fibre, Line, Place, Refused, Slip};

/// What is said of a register that was mended.
#[derive(Clone, Copy, Debug, PartialEq, Eq)]
pub struct Mended {
    /// The numbers of the whole plan.
    pub counts: Counts,
    /// How many lines the report has: one for each circuit that was not kept.
    pub lines: usize,
}

/// A register as it is mended: its circuits, the fibres of the caller and the assignments so far, and which of these count.
struct Mending {
    register: check::Plan,
    /// Which circuits are kept where they were found.
    kept: Vec<bool>,
    /// Which circuits have a place.
    placed: Vec<bool>,
}

/// Whether an assignment breaks none of R-7's rules 4 to 7.
fn is_sound(register: &check::Plan, at: usize, slip: Slip) -> bool {
    let lowest = 4 + u32::from(slip == Slip::RuleFourNotSeen);
    !(lowest..=7).any(|rule| register.assignment_breaks(at, rule))
}

/// Which circuits are kept: by rising number, those whose assignment is sound and clashes with none kept before.
fn kept(register: &check::Plan, slip: Slip) -> Vec<bool> {
    let mut kept = vec![false; register.circuits.len()];
    let mut before = Vec::new();
    let turns = match slip {
        Slip::KeptByPlace => Slip::TurnsByPlace,
        Slip::KeptFalling => Slip::TurnsFalling,
        _ => Slip::None,
    };
    for at in add::turns(&register.circuits, turns) {
        let sound = is_sound(register, at, slip);
        kept[at] = sound && !before.iter().any(|&other| register.clash(other, at));
        if kept[at] || (sound && slip == Slip::ClashWithNotKept) {
            before.push(at);
        }
    }
    kept
}

/// How many circuits are not kept.
pub fn lines(register: &check::Plan, slip: Slip) -> usize {
    let kept = kept(register, slip);
    kept.iter().filter(|kept| !**kept).count()
}

/// The mistake of one pass: a circuit that is not kept is placed at once, before later ones are kept.
fn in_one_pass(line: Line, mut register: check::Plan, slip: Slip) -> Mending {
    let many = register.circuits.len();
    let [mut kept, mut placed] = [0, 1].map(|_| vec![false; many]);
    for at in add::turns(&register.circuits, Slip::None) {
        let clashes = |other: usize| placed[other] && register.clash(other, at);
        kept[at] = is_sound(&register, at, slip) && !(0..many).any(clashes);
        placed[at] = kept[at];
        if !kept[at] {
            let so_far = register.with_only(&placed);
            let alone = add::added_plan(line, &so_far, &[register.circuits[at]], slip);
            if alone.fibres.is_empty() {
                register.assignments[at].1 = alone.places[0];
                placed[at] = true;
            }
        }
    }
    Mending {
        register,
        kept,
        placed,
    }
}

/// The assignments as a mistake has them: each circuit's is the first that names it, if one does.
fn looked_up(register: &check::Plan) -> Vec<(u32, Place)> {
    let all = &register.assignments;
    let of = |(circuit, own): (&Circuit, &(u32, Place))| {
        let named = all.iter().find(|(number, _)| *number == circuit.number);
        *named.unwrap_or(own)
    };
    register.circuits.iter().zip(all).map(of).collect()
}

impl Mending {
    /// Decides who is kept.
    fn new(line: Line, register: check::Plan, slip: Slip) -> Self {
        if slip == Slip::OnePass {
            return in_one_pass(line, register, slip);
        }
        let kept = kept(&register, slip);
        Self {
            register,
            placed: kept.clone(),
            kept,
        }
    }

    /// The circuits that have no place.
    fn rest(&self) -> Vec<Circuit> {
        let all = self.register.circuits.iter().zip(&self.placed);
        let without = all.filter(|(_, placed)| !**placed);
        without.map(|(circuit, _)| *circuit).collect()
    }

    /// Places the rest as additions do; the fibres that are added, and the place of each circuit.
    fn places(&self, line: Line, slip: Slip) -> (Vec<Fibre>, Vec<Place>) {
        let taken = match slip {
            Slip::FoundCountsAsTaken => vec![true; self.placed.len()],
            _ => self.placed.clone(),
        };
        let so_far = self.register.with_only(&taken);
        let more = add::added_plan(line, &so_far, &self.rest(), slip);
        let mut given = more.places.into_iter();
        let found = self.register.assignments.iter().zip(&self.placed);
        let places = found.flat_map(|((_, place), placed)| match placed {
            true => Some(*place),
            false => given.next(),
        });
        (more.fibres, places.collect())
    }

    /// Writes each circuit that is not kept into its own record.
    fn write(&self, places: &[Place], assignments: &mut [u8], slip: Slip) {
        for (at, place) in places.iter().enumerate() {
            let circuit = self.register.circuits[at];
            let number = match slip {
                Slip::NumberNotMended => self.register.assignments[at].0,
                _ => circuit.number,
            };
            if !self.kept[at] {
                let record = Circuit { number, ..circuit }.assigned(*place);
                records::put(assignments, at, record);
            }
        }
    }

    /// The report: a line for each circuit that is not kept, by rising number.
    fn report(&self, found: &[(u32, Place)], places: &[Place], slip: Slip) -> Vec<[u8; 12]> {
        let circuits = &self.register.circuits;
        let turns = match slip {
            Slip::LinesByPlace => Slip::TurnsByPlace,
            _ => Slip::None,
        };
        let mut order = add::turns(circuits, turns);
        order.retain(|&at| !self.kept[at] || slip == Slip::LineForKept);
        let line = |at: usize| {
            let (named, was) = found[at];
            let number = match slip {
                Slip::CircuitOfRecord => named,
                _ => circuits[at].number,
            };
            let was = match slip {
                Slip::GivenForFound => places[at],
                _ => was,
            };
            let circuit = Circuit {
                number,
                ..circuits[at]
            };
            let [front, back] = [circuit.assigned(was), circuit.assigned(places[at])];
            let mut line = [0; 12];
            line[..8].copy_from_slice(&front);
            line[8..].copy_from_slice(&back[4..]);
            line
        };
        order.into_iter().map(line).collect()
    }
}

/// Writes lines to the start of the report.
fn write_report(lines: &[[u8; 12]], report: &mut [u8], slip: Slip) {
    let (start, behind) = report.split_at_mut(12 * lines.len());
    start.copy_from_slice(lines.as_flattened());
    if slip == Slip::ReportZeroed {
        behind.fill(0);
    }
}

/// Mends the register in the fibre list, which begins with so many fibres, and the assignment list. The areas are these two, the
/// report and the work area.
///
/// # Errors
///
/// The first refusal of the table that applies; then no byte is changed.
pub fn mend(
    line: Line,
    circuits: &[u8],
    old_fibres: usize,
    areas: [&mut [u8]; 4],
) -> Result<Mended, Refused> {
    mend_with(Slip::None, line, circuits, old_fibres, areas)
}

/// The same with a mistake.
///
/// # Errors
///
/// As `mend`.
#[doc(hidden)]
pub fn mend_with(
    slip: Slip,
    line: Line,
    circuits: &[u8],
    old_fibres: usize,
    [fibres, assignments, report, work]: [&mut [u8]; 4],
) -> Result<Mended, Refused> {
    let areas = [&*fibres, assignments, report, work];
    let mut register = table::accepted_mending(line, circuits, old_fibres, areas, slip)?;
    if slip == Slip::FoundByNumber {
        register.assignments = looked_up(&register);
    }
    let found = register.assignments.clone();
    let mending = Mending::new(line, register, slip);
    let (added, places) = mending.places(line, slip);
    add::write_fibres(old_fibres, &added, fibres, slip);
    mending.write(&places, assignments, slip);
    let lines = mending.report(&found, &places, slip);
    write_report(&lines, report, slip);
    let all = &mending.register.circuits;
    if slip != Slip::WorkNotZeroed {
        work[..4 * line.n + 4 * all.len()].fill(0);
    }
    let counted = match slip {
        Slip::FloorOfNewFile => mending.rest(),
        _ => all.clone(),
    };
    Ok(Mended {
        counts: add::counts(line, &mending.register, &added, &counted, slip),
        lines: lines.len(),
    })
}
