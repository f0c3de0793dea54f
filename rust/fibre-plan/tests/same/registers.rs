//! Registers to be mended: plans of ours and of somebody else's, whose assignments are damaged, and damaged calls.
use crate::added::{self, far_counts, MOST_OLD_FIBRES};
use crate::areas::{between_guards, filled, Seen};
use crate::draws::{self, set_half, Size, LARGE, SMALL};
use crate::pages::ReadOnly;
use crate::submitted::{self, exchange, ours, typed, with_fibres, Submitted};
use fibre_plan::{assignment_bytes, fibre_bytes, report_bytes, work_bytes, ReportLine};
use inputs::{grid_and_wavelengths, Rng};
use reference::{Line, Slip};
use std::ops::Range;

/// One call: the register on the line of the call, how many fibres are named, and the lengths of the areas: fibres, assignments,
/// report and work area.
#[derive(Clone, Debug)]
pub struct Mending {
    pub register: Submitted,
    pub named: usize,
    pub lengths: [usize; 4],
}

impl Mending {
    /// A call that names all fibres, with areas of just the lengths that are asked for.
    pub fn new(register: Submitted) -> Self {
        let named = register.fibres.len() / 8;
        let many = register.circuits.len() / 8;
        let lengths = [
            fibre_bytes(named + many),
            assignment_bytes(many),
            report_bytes(many),
            work_bytes(register.line.n.min(600), many),
        ];
        Self {
            register,
            named,
            lengths,
        }
    }

    /// Where each lent area stands between its guards.
    pub fn lent(&self) -> [Range<usize>; 4] {
        let many = self.register.circuits.len() / 8;
        between_guards(self.lengths, self.register.line.n, many)
    }

    /// The areas before the call, guards included: the records, and noise that depends only on the input.
    pub fn before(&self) -> [Vec<u8>; 4] {
        let Submitted {
            line,
            circuits,
            fibres,
            assignments,
        } = &self.register;
        let noise = Rng::new((line.n ^ circuits.len()) as u64);
        filled(self.lent(), [fibres, assignments, &[], &[]], noise)
    }

    /// The lent parts of the areas.
    fn parts<'a>(&self, areas: &'a mut [Vec<u8>; 4]) -> [&'a mut [u8]; 4] {
        let mut lent = self.lent().into_iter();
        areas.each_mut().map(|area| &mut area[lent.next().unwrap()])
    }

    /// What the library answers and leaves, where the circuit file is handed in.
    fn library_on(&self, file: &[u8]) -> Seen<4> {
        let Line { n, w, grid } = self.register.line;
        let mut areas = self.before();
        let [f, a, r, k] = self.parts(&mut areas);
        let answer = fibre_plan::mend_bytes([n, w, grid], file, self.named, f, a, r, k)
            .map(|c| [c.plan.fibres, c.plan.total, c.plan.floor, c.lines])
            .map_err(|r| (r.number(), r.place(), r.end()));
        Seen { answer, areas }
    }

    /// What the library answers and leaves.
    pub fn by_library(&self) -> Seen<4> {
        let file = self.register.circuits.clone();
        let seen = self.library_on(&file);
        assert_eq!(
            file, self.register.circuits,
            "the circuit bytes are only read"
        );
        seen
    }

    /// What the library answers and leaves where it can neither write to the circuit file nor read behind it.
    pub fn by_library_on_pages(&self) -> Seen<4> {
        self.library_on(ReadOnly::copy(&self.register.circuits).bytes())
    }

    /// What the reference answers and leaves, with a mistake or none.
    pub fn by_reference(&self, slip: Slip) -> Seen<4> {
        let Submitted { line, circuits, .. } = &self.register;
        let mut areas = self.before();
        let parts = self.parts(&mut areas);
        let answer = reference::mend_with(slip, *line, circuits, self.named, parts)
            .map(|m| [m.counts.fibres, m.counts.total, m.counts.floor, m.lines])
            .map_err(|r| (r.number, r.place, r.end));
        Seen { answer, areas }
    }

    /// The start of a lent area that a call left.
    fn start(&self, seen: &Seen<4>, area: usize, len: usize) -> Vec<u8> {
        seen.areas[area][self.lent()[area].clone()][..len].to_vec()
    }

    /// The register that an accepted call left.
    pub fn mended(&self, seen: &Seen<4>) -> Submitted {
        let [fibres, ..] = seen.answer.expect("a mending that was accepted");
        let circuits = self.register.circuits.clone();
        Submitted {
            line: self.register.line,
            fibres: self.start(seen, 0, 8 * fibres),
            assignments: self.start(seen, 1, circuits.len()),
            circuits,
        }
    }

    /// The report that an accepted call left.
    pub fn report(&self, seen: &Seen<4>) -> Vec<ReportLine> {
        let [.., lines] = seen.answer.expect("a mending that was accepted");
        typed(&self.start(seen, 2, 12 * lines), ReportLine::from_bytes)
    }
}

/// Damages one record of a register, in one of seven ways.
fn damage_record(register: &mut Submitted, at: usize, way: usize, rng: &mut Rng) {
    let fibres = register.fibres.len() / 8;
    let list = &mut register.assignments;
    let other = 8 * rng.within(0, list.len() / 8 - 1);
    match way {
        0 => exchange(list, at, other, 8),
        1 => exchange(list, at + 4, other + 4, 4),
        2 => list[at..at + 8].fill(0),
        3 => rng.fill(&mut list[at..at + 8]),
        4 => list.copy_within(other..other + 8, at),
        5 => list.copy_within(other + 4..other + 8, at + 4),
        _ => {
            set_half(list, at + 4, rng.within(0, fibres + 1));
            set_half(list, at + 6, rng.within(0, register.line.w + 1));
        }
    }
}

/// Damages so many of a hundred records, all in one way or each in its own.
pub fn damage(register: &mut Submitted, share: usize, rng: &mut Rng) {
    let way = rng.within(0, 9);
    for at in (0..register.assignments.len()).step_by(8) {
        if rng.within(1, 100) <= share {
            let way = if way < 7 { way } else { rng.within(0, 6) };
            damage_record(register, at, way, rng);
        }
    }
}

/// How many of a hundred records are damaged.
fn share(rng: &mut Rng) -> usize {
    [0, 1, 5, 50, 100][rng.within(0, 4)]
}

/// A valid plan, ours or somebody else's, of one planning or with an addition.
pub fn sound(size: Size, rng: &mut Rng) -> Submitted {
    match rng.once_in(2) {
        true => submitted::valid(size, rng),
        false => {
            let call = added::accepted(size, rng);
            call.whole(&call.by_library())
        }
    }
}

/// A call that is accepted. Some are on a line with other wavelengths or more links than the plan was made for, some have lost or dark
/// fibres, and half are lent more than they need.
pub fn accepted(size: Size, rng: &mut Rng) -> Mending {
    let mut register = sound(size, rng);
    match rng.within(0, 9) {
        0 | 1 => {
            let (grid, w) = grid_and_wavelengths(size.wavelengths, rng);
            (register.line.grid, register.line.w) = (grid, w);
        }
        2 => register.line.n = rng.within(register.line.n, size.links.max(register.line.n)),
        3 => {
            let many = register.fibres.len() / 8;
            register.fibres.truncate(8 * rng.within(0, many));
        }
        4 => {
            let many = register.fibres.len() / 8 + rng.within(0, 3);
            register = with_fibres(register, many);
        }
        5 => submitted::crowd(&mut register, rng),
        _ => (),
    }
    damage(&mut register, share(rng), rng);
    let mut call = Mending::new(register);
    if rng.once_in(2) {
        let more = [40, 0, 40, 40].map(|most| rng.within(0, most));
        for (length, more) in call.lengths.iter_mut().zip(more) {
            *length += more;
        }
    }
    call
}

/// A call at the limits: 512 links and 2,048 circuits, and in half of them 2,048 fibres.
pub fn full_size(rng: &mut Rng) -> Mending {
    let mut register = match rng.once_in(2) {
        true => ours(&draws::full_size(rng)).0,
        false => {
            let call = added::full_size(rng);
            call.whole(&call.by_library())
        }
    };
    if rng.once_in(2) {
        register = with_fibres(register, MOST_OLD_FIBRES);
    }
    damage(&mut register, share(rng), rng);
    Mending::new(register)
}

/// Spoils the line, the circuits or the fibres.
fn spoil_register(register: &mut Submitted, rng: &mut Rng) {
    let links = register.line.n;
    match rng.within(0, 9) {
        0..=2 => draws::spoil_line(&mut register.line, rng),
        3 => draws::spoil_length(&mut register.circuits, LARGE.circuits, rng),
        4 => *register = with_fibres(register.clone(), MOST_OLD_FIBRES + rng.within(0, 2)),
        5 | 6 => submitted::spoil_fibre(&mut register.fibres, links, rng),
        _ => draws::spoil_record(&mut register.circuits, links, rng),
    }
}

/// Names another number of fibres.
fn spoil_named(call: &mut Mending, rng: &mut Rng) {
    let many = call.register.circuits.len() / 8;
    call.named = match rng.within(0, 3) {
        0 => call.named.saturating_sub(1),
        1 => call.named + 1,
        2 => 0,
        _ => far_counts(call.named, many)[rng.within(0, 7)],
    };
}

/// Makes a lent area shorter, or longer by a record or more.
fn spoil_room(call: &mut Mending, rng: &mut Rng) {
    let length = &mut call.lengths[rng.within(0, 3)];
    *length = match rng.within(0, 5) {
        0 => length.saturating_sub(1),
        1 => length.saturating_sub(8),
        2 => length.saturating_sub(rng.within(1, 40)),
        3 => 0,
        4 => *length + 8,
        _ => *length + rng.within(1, 80),
    };
}

/// A small call with one to three faults, some of which may undo each other.
pub fn damaged(rng: &mut Rng) -> Mending {
    let mut register = accepted(SMALL, rng).register;
    let faults = rng.within(1, 3);
    for _ in 0..faults {
        if rng.once_in(2) {
            spoil_register(&mut register, rng);
        }
    }
    let mut call = Mending::new(register);
    for _ in 0..faults {
        match rng.within(0, 5) {
            0 => spoil_named(&mut call, rng),
            1 | 2 => spoil_room(&mut call, rng),
            _ => (),
        }
    }
    call
}
