//! circuits are added to a plan, and none is moved.
use crate::records::{self, Circuit};
use crate::{check, lit_plan, needs, table, Counts, Fibre, Line, Place, Plan, Refused, Slip};

/// What is old: the circuit file, and how many records each of the two lists begins with; any number may be named.
#[derive(Clone, Copy, Debug, PartialEq, Eq)]
pub struct Old<'a> {
    /// The old circuit file.
    pub circuits: &'a [u8],
    /// How many old records the fibre list begins with.
    pub fibres: usize,
    /// How many old records the assignment list begins with.
    pub assignments: usize,
}

/// An old fibre, and the circuits on it with their wavelengths.
struct Strand {
    fibre: Fibre,
    riders: Vec<(Circuit, usize)>,
}

impl Strand {
    /// Whether each link of a circuit lies within the fibre.
    fn spans(&self, circuit: &Circuit) -> bool {
        circuit.links().all(|i| self.fibre.span.contains(&i))
    }

    /// Whether no circuit on the fibre with this wavelength overlaps a circuit.
    fn is_free(&self, wavelength: usize, circuit: &Circuit, slip: Slip) -> bool {
        let meets = |c: &Circuit| slip == Slip::WholeFibreTaken || c.overlaps(circuit);
        let mut alike = self.riders.iter().filter(|(_, v)| *v == wavelength);
        !alike.any(|(c, _)| meets(c))
    }

    /// The lowest wavelength of w that is free for a circuit.
    fn lowest(&self, w: usize, circuit: &Circuit, slip: Slip) -> Option<usize> {
        let mut free = (1..=w).filter(|&v| self.is_free(v, circuit, slip));
        match slip {
            Slip::HighestWavelength => free.next_back(),
            _ => free.next(),
        }
    }
}

/// The lowest-numbered fibre that spans a circuit and has a free wavelength there, and the lowest such wavelength.
fn lowest_place(strands: &[Strand], w: usize, circuit: &Circuit, slip: Slip) -> Option<Place> {
    let mut spanning = (1..).zip(strands).filter(|(_, s)| s.spans(circuit));
    let on = |(fibre, strand): (usize, &Strand)| {
        let wavelength = strand.lowest(w, circuit, slip)?;
        Some(Place { fibre, wavelength })
    };
    match slip {
        Slip::FirstThatSpans => spanning.next().and_then(on),
        Slip::LowestWavelengthOfAll => spanning.filter_map(on).min_by_key(|p| p.wavelength),
        _ => spanning.find_map(on),
    }
}

/// The old fibres with what they carry.
fn strands(plan: &check::Plan, slip: Slip) -> Vec<Strand> {
    let riders = |number| {
        let all = plan.circuits.iter().zip(&plan.assignments);
        let on = all.filter(move |(_, (_, place))| place.fibre == number);
        on.map(|(circuit, (_, place))| (*circuit, place.wavelength))
    };
    let fibres = plan.fibres.iter().map(|(number, fibre)| Strand {
        fibre: fibre.clone(),
        riders: match slip {
            Slip::OldNotSeen => vec![],
            _ => riders(*number).collect(),
        },
    });
    fibres.collect()
}

/// Circuits in the order of their turns, as indices.
pub fn turns(added: &[Circuit], slip: Slip) -> Vec<usize> {
    let mut order: Vec<usize> = (0..added.len()).collect();
    match slip {
        Slip::TurnsByPlace => (),
        Slip::TurnsFalling => order.sort_by_key(|&j| std::cmp::Reverse(added[j].number)),
        _ => order.sort_by_key(|&j| added[j].number),
    }
    order
}

/// Where each new circuit is carried on an old fibre, if it is.
fn on_old_fibres(
    strands: &mut [Strand],
    w: usize,
    added: &[Circuit],
    slip: Slip,
) -> Vec<Option<Place>> {
    let mut places = vec![None; added.len()];
    for j in turns(added, slip) {
        places[j] = lowest_place(strands, w, &added[j], slip);
        if let Some(place) = places[j] {
            let riders = &mut strands[place.fibre - 1].riders;
            riders.push((added[j], place.wavelength));
        }
    }
    places
}

/// The plan of the circuits that are left: that of R-1 for all together.
fn plan_of_left(n: usize, w: usize, left: &[Circuit], slip: Slip) -> Plan {
    if slip != Slip::OneByOne {
        return lit_plan(n, w, left, &needs(n, w, left, slip), slip);
    }
    let alone = |(fibre, circuit): (usize, &Circuit)| {
        let span = circuit.links();
        let wavelength = 1;
        (Fibre { span, layer: 1 }, Place { fibre, wavelength })
    };
    let (fibres, places) = (1..).zip(left).map(alone).unzip();
    Plan { fibres, places }
}

/// The fibres that are added, and the places of all new circuits: numbers of added fibres run on from the old ones.
pub fn added_plan(line: Line, plan: &check::Plan, added: &[Circuit], slip: Slip) -> Plan {
    let mut strands = strands(plan, slip);
    let mut places = on_old_fibres(&mut strands, line.w, added, slip);
    let left = places
        .iter()
        .zip(added)
        .filter(|(place, _)| place.is_none());
    let left: Vec<Circuit> = left.map(|(_, circuit)| *circuit).collect();
    let mut rest = plan_of_left(line.n, line.w, &left, slip);
    let top = strands.iter().map(|s| s.fibre.layer).max().unwrap_or(0);
    if slip == Slip::LayersCountedOn {
        rest.fibres.iter_mut().for_each(|f| f.layer += top);
    }
    let before = match slip {
        Slip::NumberedFromOne => 0,
        _ => strands.len(),
    };
    let numbered_on = rest.places.iter().map(|place| Place {
        fibre: place.fibre + before,
        ..*place
    });
    let waiting = places.iter_mut().filter(|place| place.is_none());
    for (place, given) in waiting.zip(numbered_on) {
        *place = Some(given);
    }
    Plan {
        fibres: rest.fibres,
        places: places.into_iter().flatten().collect(),
    }
}

/// Writes fibres behind so many old ones.
pub fn write_fibres(old: usize, added: &[Fibre], fibres: &mut [u8], slip: Slip) {
    for (i, fibre) in added.iter().enumerate() {
        let number = match slip {
            Slip::NumberedFromOne => i + 1,
            _ => old + i + 1,
        };
        records::put(fibres, old + i, fibre.record(number));
    }
}

/// Writes what is added behind the old records.
fn write(
    old: Old,
    added: &[Circuit],
    plan: &Plan,
    fibres: &mut [u8],
    assignments: &mut [u8],
    slip: Slip,
) {
    write_fibres(old.fibres, &plan.fibres, fibres, slip);
    let mut order: Vec<usize> = (0..added.len()).collect();
    if slip == Slip::WrittenByNumber {
        order.sort_by_key(|&j| added[j].number);
    }
    for (i, j) in order.into_iter().enumerate() {
        let record = added[j].assigned(plan.places[j]);
        records::put(assignments, old.assignments + i, record);
    }
    if slip == Slip::OldLayersChanged {
        for record in fibres[..8 * old.fibres].chunks_mut(8) {
            record[6..8].copy_from_slice(&[1, 0]);
        }
    }
}

/// Adds circuits to the plan that stands at the start of the two lists.
///
/// # Errors
///
/// The first refusal of the table that applies; then no byte is changed.
pub fn add(
    line: Line,
    old: Old,
    added: &[u8],
    fibres: &mut [u8],
    assignments: &mut [u8],
    work: &mut [u8],
) -> Result<Counts, Refused> {
    add_with(Slip::None, line, old, added, fibres, assignments, work)
}

/// The same with a mistake.
///
/// # Errors
///
/// As `add`.
#[doc(hidden)]
pub fn add_with(
    slip: Slip,
    line: Line,
    mut old: Old,
    added: &[u8],
    fibres: &mut [u8],
    assignments: &mut [u8],
    work: &mut [u8],
) -> Result<Counts, Refused> {
    if slip == Slip::NamedAssignmentsIgnored {
        old.assignments = old.circuits.len() / 8;
    }
    let (plan, added) =
        table::accepted_addition(line, old, added, [fibres, assignments, work], slip)?;
    let more = added_plan(line, &plan, &added, slip);
    write(old, &added, &more, fibres, assignments, slip);
    let both = [&plan.circuits[..], &added].concat();
    let zeroed = match slip {
        Slip::WorkOfNewFile => added.len(),
        _ => both.len(),
    };
    // Where test 10 is a mistake, the area may be shorter.
    let end = work.len().min(4 * line.n + 4 * zeroed);
    work[..end].fill(0);
    let counted = match slip {
        Slip::FloorOfNewFile => &added,
        _ => &both,
    };
    Ok(counts(line, &plan, &more.fibres, counted, slip))
}

/// The numbers of a whole plan: its old fibres, those that are added, and the floor of some circuits.
pub fn counts(
    line: Line,
    old: &check::Plan,
    added: &[Fibre],
    counted: &[Circuit],
    slip: Slip,
) -> Counts {
    let is_counted = |_: &&Fibre| slip != Slip::NumbersOfNewFibres;
    let old_fibres = old.fibres.iter().map(|(_, f)| f).filter(is_counted);
    let all: Vec<&Fibre> = old_fibres.chain(added).collect();
    Counts {
        fibres: all.len(),
        total: all.iter().map(|f| f.length(slip)).sum(),
        floor: needs(line.n, line.w, counted, slip).iter().sum(),
    }
}
