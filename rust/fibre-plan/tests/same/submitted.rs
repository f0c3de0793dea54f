//! Plans to be checked: ours, valid ones of somebody else, and damaged ones.
use crate::areas::Input;
use crate::draws::{self, accepted, set_half, Size, LARGE, SMALL};
use crate::pages::ReadOnly;
use fibre_plan::{Assignment, Circuit, Fibre};
use inputs::Rng;
use reference::{Finding, Line, Slip};

/// The most fibres that are checked.
pub const MOST_FIBRES: usize = 4096;

/// The most assignments that are checked.
pub const MOST_ASSIGNMENTS: usize = 2048;

/// The least bytes that stand before and behind each list.
const GUARD: usize = 16;

/// A plan that is submitted: its line and its three lists.
#[derive(Clone, Debug, PartialEq, Eq)]
pub struct Submitted {
    pub line: Line,
    pub circuits: Vec<u8>,
    pub fibres: Vec<u8>,
    pub assignments: Vec<u8>,
}

/// What is found, or number, place and end of a refusal.
pub type Answer = Result<Finding, (u32, usize, u32)>;

/// What the library says of three lists.
fn answer(line: Line, [circuits, fibres, assignments]: [&[u8]; 3]) -> Answer {
    let Line { n, w, grid } = line;
    let found = fibre_plan::check_bytes(n, w, grid, circuits, fibres, assignments);
    found
        .map(|found| match found {
            fibre_plan::Finding::Yes { length, floor } => Finding::Yes { length, floor },
            fibre_plan::Finding::No { rule, place } => Finding::No {
                rule: rule.number(),
                place,
            },
        })
        .map_err(|refused| (refused.number(), refused.place(), refused.end()))
}

impl Submitted {
    fn lists(&self) -> [&[u8]; 3] {
        [&self.circuits, &self.fibres, &self.assignments]
    }

    /// What the library says, with each list between guards; they and the lists stay as they were.
    pub fn by_library(&self) -> Answer {
        let before = GUARD + (self.line.n ^ (self.circuits.len() / 8)) % 8;
        let guarded = self.lists().map(|list| {
            let mut area = vec![0xA5; before + list.len() + GUARD];
            area[before..before + list.len()].copy_from_slice(list);
            area
        });
        let [c, f, a] = &guarded;
        let lent = [c, f, a].map(|area| &area[before..area.len() - GUARD]);
        let answer = answer(self.line, lent);
        for (area, list) in guarded.iter().zip(self.lists()) {
            let (front, rest) = area.split_at(before);
            let (inner, behind) = rest.split_at(list.len());
            assert!(inner == list, "the lists are only read");
            let mut guards = front.iter().chain(behind);
            assert!(guards.all(|&byte| byte == 0xA5), "a guard was written");
        }
        answer
    }

    /// What the library says where it can neither write to the lists nor read behind them.
    pub fn by_library_on_pages(&self) -> Answer {
        let pages = self.lists().map(ReadOnly::copy);
        let [c, f, a] = &pages;
        answer(self.line, [c, f, a].map(ReadOnly::bytes))
    }

    /// What the reference says, with a mistake or none.
    pub fn by_reference(&self, slip: Slip) -> Answer {
        let [circuits, fibres, assignments] = self.lists();
        reference::check_with(slip, self.line, circuits, fibres, assignments)
            .map_err(|refused| (refused.number, refused.place, refused.end))
    }
}

/// The plan that the library writes, with its total and its floor as the check should find them.
pub fn ours(input: &Input) -> (Submitted, Finding) {
    let Line { n, w, grid } = input.line;
    let [mut fibres, mut assignments, mut work] = input.lengths.map(|length| vec![0; length]);
    let circuits = input.circuits.clone();
    let (f, a, k) = (&mut fibres, &mut assignments, &mut work);
    let counts = fibre_plan::plan_bytes(n, w, grid, &circuits, f, a, k).unwrap();
    fibres.truncate(8 * counts.fibres);
    assignments.truncate(circuits.len());
    let submitted = Submitted {
        line: input.line,
        circuits,
        fibres,
        assignments,
    };
    let yes = Finding::Yes {
        length: counts.total,
        floor: counts.floor,
    };
    (submitted, yes)
}

/// Somebody's plan as it is made.
struct Draft {
    line: Line,
    circuits: Vec<Circuit>,
    fibres: Vec<Fibre>,
    /// Fibre number and wavelength of each circuit that has them.
    places: Vec<Option<(u16, u16)>>,
}

/// The typed records of a list, or lines of a report.
pub fn typed<T, const BYTES: usize>(list: &[u8], read: impl Fn(&[u8; BYTES]) -> T) -> Vec<T> {
    let (records, _) = list.as_chunks();
    records.iter().map(read).collect()
}

/// The records of a list, by rising bytes.
pub fn sorted(list: &[u8]) -> Vec<&[u8]> {
    let mut records: Vec<&[u8]> = list.chunks_exact(8).collect();
    records.sort_unstable();
    records
}

impl Draft {
    /// The circuits of an input, none of which has a place.
    fn empty(input: &Input) -> Self {
        let circuits = typed(&input.circuits, Circuit::from_bytes);
        Self {
            line: input.line,
            places: vec![None; circuits.len()],
            circuits,
            fibres: Vec::new(),
        }
    }

    /// The plan that the library writes.
    fn ours(input: &Input) -> Self {
        let (plan, _) = ours(input);
        let assignments = typed(&plan.assignments, Assignment::from_bytes);
        let places = assignments.iter().map(|a| Some((a.fibre, a.wavelength)));
        Self {
            fibres: typed(&plan.fibres, Fibre::from_bytes),
            places: places.collect(),
            ..Self::empty(input)
        }
    }

    /// Adds a fibre that spans some links and, perhaps, more.
    fn open(&mut self, first: u16, last: u16, rng: &mut Rng) -> u16 {
        let number = self.fibres.len() as u16 + 1;
        self.fibres.push(Fibre {
            number,
            first: rng.within(1, first.into()) as u16,
            last: rng.within(last.into(), self.line.n) as u16,
            layer: rng.bits() as u16,
        });
        number
    }

    /// Whether a circuit may have a place.
    fn free(&self, at: usize, place: (u16, u16)) -> bool {
        let circuit = self.circuits[at];
        let fibre = self.fibres[usize::from(place.0) - 1];
        let clash = |(other, its): (&Circuit, &Option<(u16, u16)>)| {
            *its == Some(place) && other.first <= circuit.last && circuit.first <= other.last
        };
        let mut all = self.circuits.iter().zip(&self.places);
        fibre.first <= circuit.first && circuit.last <= fibre.last && !all.any(clash)
    }

    /// A wavelength.
    fn wavelength(&self, rng: &mut Rng) -> u16 {
        rng.within(1, self.line.w) as u16
    }

    /// Looks for another place for a circuit, some times; whether one was found.
    fn moved(&mut self, at: usize, times: usize, rng: &mut Rng) -> bool {
        let count = self.fibres.len();
        for _ in 0..if count == 0 { 0 } else { times } {
            let place = (rng.within(1, count) as u16, self.wavelength(rng));
            if self.free(at, place) {
                self.places[at] = Some(place);
                return true;
            }
        }
        false
    }

    /// Gives a circuit a fibre of its own.
    fn alone(&mut self, at: usize, rng: &mut Rng) {
        let Circuit { first, last, .. } = self.circuits[at];
        let fibre = self.open(first, last, rng);
        self.places[at] = Some((fibre, self.wavelength(rng)));
    }

    /// The plan, which has a place for each circuit.
    fn submitted(&self, input: &Input) -> Submitted {
        let assigned = |(circuit, place): (&Circuit, &Option<(u16, u16)>)| {
            let (fibre, wavelength) = place.unwrap();
            let circuit = circuit.number;
            Assignment {
                circuit,
                fibre,
                wavelength,
            }
            .to_bytes()
        };
        let all = self.circuits.iter().zip(&self.places);
        Submitted {
            line: self.line,
            circuits: input.circuits.clone(),
            fibres: self.fibres.iter().flat_map(|f| f.to_bytes()).collect(),
            assignments: all.flat_map(assigned).collect(),
        }
    }
}

/// One fibre for each circuit, numbered in any order.
pub fn one_fibre_each(input: &Input, rng: &mut Rng) -> Submitted {
    let mut draft = Draft::empty(input);
    let mut order: Vec<usize> = (0..draft.circuits.len()).collect();
    rng.shuffle(&mut order);
    for at in order {
        draft.alone(at, rng);
    }
    draft.submitted(input)
}

/// Circuits by chance on fibres that are there, or on new ones; and some dark fibres.
pub fn crowded(input: &Input, rng: &mut Rng) -> Submitted {
    let mut draft = Draft::empty(input);
    let mut order: Vec<usize> = (0..draft.circuits.len()).collect();
    rng.shuffle(&mut order);
    for at in order {
        if rng.once_in(8) {
            let link = rng.within(1, input.line.n) as u16;
            draft.open(link, link, rng);
        }
        if !draft.moved(at, 12, rng) {
            draft.alone(at, rng);
        }
    }
    draft.submitted(input)
}

/// Our plan, with some circuits moved to other places that are free.
pub fn ours_with_some_moved(input: &Input, rng: &mut Rng) -> Submitted {
    let mut draft = Draft::ours(input);
    let count = draft.circuits.len();
    for _ in 0..count {
        draft.moved(rng.within(0, count - 1), 4, rng);
    }
    draft.submitted(input)
}

/// A valid plan of somebody else.
pub fn contractors(input: &Input, rng: &mut Rng) -> Submitted {
    match rng.within(0, 2) {
        0 => one_fibre_each(input, rng),
        1 => crowded(input, rng),
        _ => ours_with_some_moved(input, rng),
    }
}

/// A valid plan of up to a size, ours or somebody else's.
pub fn valid(size: Size, rng: &mut Rng) -> Submitted {
    let input = accepted(size, rng);
    match rng.within(0, 1) {
        0 => ours(&input).0,
        _ => contractors(&input, rng),
    }
}

/// Adds dark fibres up to a number of them.
pub fn with_fibres(mut plan: Submitted, count: usize) -> Submitted {
    let number = |at: usize| at as u16 + 1;
    for at in plan.fibres.len() / 8..count {
        let dark = Fibre {
            number: number(at),
            first: 1,
            last: 1,
            layer: 0,
        };
        plan.fibres.extend(dark.to_bytes());
    }
    plan
}

/// Where two records of a list start, which may be the same; none if the list is empty.
fn two_records(list: &[u8], rng: &mut Rng) -> Option<(usize, usize)> {
    let last = (list.len() / 8).checked_sub(1)?;
    Some((8 * rng.within(0, last), 8 * rng.within(0, last)))
}

/// Exchanges some bytes of two records.
pub fn exchange(list: &mut [u8], one: usize, two: usize, len: usize) {
    for i in 0..len {
        list.swap(one + i, two + i);
    }
}

/// The number in two bytes.
fn half(list: &[u8], at: usize) -> usize {
    u16::from_le_bytes([list[at], list[at + 1]]).into()
}

/// Spoils one fibre record, or changes its layer, which spoils nothing.
pub fn spoil_fibre(list: &mut [u8], links: usize, rng: &mut Rng) {
    let Some((at, other)) = two_records(list, rng) else {
        return;
    };
    let [number, first, last] = [0, 2, 4].map(|field| half(list, at + field));
    match rng.within(0, 9) {
        0 => set_half(list, at, [0, number + 1, number ^ 256][rng.within(0, 2)]),
        1 => set_half(list, at + 2, 0),
        2 => set_half(list, at + 4, links.saturating_add(1)),
        3 => set_half(list, at + 2, last + 1),
        4 => set_half(list, at + 2, first + 1),
        5 => set_half(list, at + 4, last.saturating_sub(1)),
        6 => exchange(list, at, other, 8),
        7 => exchange(list, at + 2, other + 2, 4),
        8 => set_half(list, at + 6, rng.within(0, 1)),
        _ => list[at + rng.within(0, 7)] ^= 1 << rng.within(0, 7),
    }
}

/// Spoils one assignment record.
pub fn spoil_assignment(plan: &mut Submitted, rng: &mut Rng) {
    let (list, fibres, w) = (
        &mut plan.assignments,
        plan.fibres.len() / 8,
        plan.line.w % 100,
    );
    let Some((at, other)) = two_records(list, rng) else {
        return;
    };
    let [fibre, wavelength] = [4, 6].map(|field| half(list, at + field));
    match rng.within(0, 9) {
        0 => list[at + rng.within(0, 3)] ^= 1 << rng.within(0, 7),
        1 => list.copy_within(other..other + 4, at),
        2 => {
            let wrong = [0, fibres + 1, fibre ^ 256];
            set_half(list, at + 4, wrong[rng.within(0, 2)]);
        }
        3 => set_half(list, at + 4, rng.within(1, fibres + 1)),
        4 => {
            let wrong = [0, w + 1, wavelength ^ 256];
            set_half(list, at + 6, wrong[rng.within(0, 2)]);
        }
        5 => set_half(list, at + 6, rng.within(0, w + 1)),
        6 => list.copy_within(other + 4..other + 8, at + 4),
        7 => exchange(list, at, other, 8),
        8 => exchange(list, at + 4, other + 4, 4),
        _ => list[at + rng.within(4, 7)] ^= 1 << rng.within(0, 7),
    }
}

/// Gives each assignment one of the first wavelengths, so that many clash.
pub fn crowd(plan: &mut Submitted, rng: &mut Rng) {
    let most = rng.within(1, 3);
    for record in plan.assignments.chunks_exact_mut(8) {
        set_half(record, 6, rng.within(1, most));
    }
}

/// Spoils the line or the circuits.
fn spoil_circuits(plan: &mut Submitted, rng: &mut Rng) {
    let links = plan.line.n;
    match rng.within(0, 6) {
        0 => draws::spoil_line(&mut plan.line, rng),
        1 | 2 => draws::spoil_length(&mut plan.circuits, LARGE.circuits, rng),
        3 => {
            if let Some((one, two)) = two_records(&plan.circuits, rng) {
                exchange(&mut plan.circuits, one, two, 8);
            }
        }
        _ => draws::spoil_record(&mut plan.circuits, links, rng),
    }
}

/// Makes one of the lists longer or shorter: by some bytes, by a record, or to its limit or just past it.
fn spoil_list(plan: &mut Submitted, rng: &mut Rng) {
    let fibres = rng.once_in(2);
    let (list, most) = match fibres {
        true => (&mut plan.fibres, MOST_FIBRES),
        false => (&mut plan.assignments, MOST_ASSIGNMENTS),
    };
    match rng.within(0, 9) {
        0..=2 => draws::spoil_length(list, most, rng),
        3 => list.truncate(list.len().saturating_sub(8)),
        4 => list.extend_from_within(list.len().saturating_sub(8)..),
        5 => drop(list.drain(..list.len().min(8))),
        6 => list.clear(),
        7 => list.resize(8 * most + 8, 1),
        8 => *plan = with_fibres(plan.clone(), MOST_FIBRES),
        _ => *plan = with_fibres(plan.clone(), MOST_FIBRES + 1),
    }
}

/// One to three faults, some of which may undo each other.
pub fn damage(plan: &mut Submitted, rng: &mut Rng) {
    for _ in 0..rng.within(1, 3) {
        match rng.within(0, 11) {
            0..=2 => spoil_circuits(plan, rng),
            3..=5 => spoil_fibre(&mut plan.fibres, plan.line.n, rng),
            6 => spoil_list(plan, rng),
            7 => crowd(plan, rng),
            _ => spoil_assignment(plan, rng),
        }
    }
}

/// A small plan with one to three faults.
pub fn damaged(rng: &mut Rng) -> Submitted {
    let mut plan = valid(SMALL, rng);
    damage(&mut plan, rng);
    plan
}
