//! Calls that add circuits to a plan: to ours, to valid ones of somebody else, and damaged ones.
use crate::areas::{between_guards, filled, Answer, Input, Seen};
use crate::draws::{self, set_half, Size, LARGE, SMALL};
use crate::pages::ReadOnly;
use crate::submitted::{self, contractors, ours, with_fibres, Submitted};
use fibre_plan::{assignment_bytes, fibre_bytes, work_bytes};
use inputs::{encode, grid_and_wavelengths, Circuit, Rng};
use reference::{Line, Slip};
use std::ops::Range;

/// The most fibres of a plan that circuits are added to.
pub const MOST_OLD_FIBRES: usize = 2048;

/// One call: the old plan on the line of the call, the new file, how many old fibres and assignments are named, and the lengths of
/// the three areas.
#[derive(Clone, Debug)]
pub struct Addition {
    pub old: Submitted,
    pub added: Vec<u8>,
    pub named: [usize; 2],
    pub lengths: [usize; 3],
}

impl Addition {
    /// A call that names all old records, with areas of just the lengths that are asked for.
    pub fn new(old: Submitted, added: Vec<u8>) -> Self {
        let named = [&old.fibres, &old.assignments].map(|list| list.len() / 8);
        let new = added.len() / 8;
        let lengths = [
            fibre_bytes(named[0] + new),
            assignment_bytes(named[1] + new),
            work_bytes(old.line.n.min(600), old.circuits.len() / 8 + new),
        ];
        Self {
            old,
            added,
            named,
            lengths,
        }
    }

    /// The circuit bytes of both files.
    pub fn both(&self) -> Vec<u8> {
        [&self.old.circuits[..], &self.added].concat()
    }

    /// Where each lent area stands between its guards.
    pub fn lent(&self) -> [Range<usize>; 3] {
        between_guards(self.lengths, self.old.line.n, self.both().len() / 8)
    }

    /// The areas before the call, guards included: the old records, and noise that depends only on the input.
    pub fn before(&self) -> [Vec<u8>; 3] {
        let noise = Rng::new((self.old.line.n ^ self.both().len()) as u64);
        let lists = [&self.old.fibres[..], &self.old.assignments, &[]];
        filled(self.lent(), lists, noise)
    }

    /// What is answered and left, where the two files are handed in.
    fn seen(
        &self,
        files: [&[u8]; 2],
        adder: impl Fn([&[u8]; 2], [&mut [u8]; 3]) -> Answer,
    ) -> Seen {
        let mut areas = self.before();
        let [f, a, k] = &mut areas;
        let [x, y, z] = self.lent();
        let answer = adder(files, [&mut f[x], &mut a[y], &mut k[z]]);
        Seen { answer, areas }
    }

    /// What the library answers and leaves, where the two files are handed in.
    fn library_on(&self, files: [&[u8]; 2]) -> Seen {
        let Line { n, w, grid } = self.old.line;
        let [fibres, assignments] = self.named;
        self.seen(files, |[circuits, added], [f, a, k]| {
            let old = fibre_plan::Old {
                circuits,
                fibres,
                assignments,
            };
            fibre_plan::add_bytes([n, w, grid], old, added, f, a, k)
                .map(|c| [c.fibres, c.total, c.floor])
                .map_err(|r| (r.number(), r.place(), r.end()))
        })
    }

    /// What the library answers and leaves.
    pub fn by_library(&self) -> Seen {
        let files = [self.old.circuits.clone(), self.added.clone()];
        let seen = self.library_on([&files[0], &files[1]]);
        assert!(files[0] == self.old.circuits && files[1] == self.added);
        seen
    }

    /// What the library answers and leaves where it can neither write to the files nor read behind them.
    pub fn by_library_on_pages(&self) -> Seen {
        let pages = [&self.old.circuits, &self.added].map(|file| ReadOnly::copy(file));
        let [one, two] = &pages;
        self.library_on([one.bytes(), two.bytes()])
    }

    /// What the reference answers and leaves, with a mistake or none.
    pub fn by_reference(&self, slip: Slip) -> Seen {
        let [fibres, assignments] = self.named;
        let files = [&self.old.circuits[..], &self.added];
        self.seen(files, |[circuits, added], [f, a, k]| {
            let old = reference::Old {
                circuits,
                fibres,
                assignments,
            };
            reference::add_with(slip, self.old.line, old, added, f, a, k)
                .map(|c| [c.fibres, c.total, c.floor])
                .map_err(|r| (r.number, r.place, r.end))
        })
    }

    /// The plan of both files that an accepted call left.
    pub fn whole(&self, seen: &Seen) -> Submitted {
        let [fibres, ..] = seen.answer.expect("an addition that was accepted");
        let circuits = self.both();
        let [f, a, _] = self.lent();
        let list = |area: &[u8], from: Range<usize>, len: usize| area[from][..len].to_vec();
        Submitted {
            line: self.old.line,
            fibres: list(&seen.areas[0], f, 8 * fibres),
            assignments: list(&seen.areas[1], a, circuits.len()),
            circuits,
        }
    }
}

/// The number in two bytes of each record of a list.
pub fn column(list: &[u8], at: usize) -> impl Iterator<Item = usize> + '_ {
    let records = list.chunks_exact(8);
    records.map(move |r| u16::from_le_bytes([r[at], r[at + 1]]).into())
}

/// Circuits with other ends than those of a list, of one family, on a line of so many links.
fn with_other_ends(list: &[Circuit], links: usize, rng: &mut Rng) -> Vec<Circuit> {
    let others = draws::circuits(links, list.len(), rng);
    let mix = |(one, two): (&Circuit, &Circuit)| (one.0, two.1, two.2);
    list.iter().zip(&others).map(mix).collect()
}

/// A plan of a file, ours or somebody else's.
pub fn plan_of([links, wavelengths, grid]: [usize; 3], file: Vec<u8>, rng: &mut Rng) -> Submitted {
    let input = Input::new([links, wavelengths, grid], file);
    match rng.within(0, 1) {
        0 => ours(&input).0,
        _ => contractors(&input, rng),
    }
}

/// Another line of up to a size on which a plan is valid.
pub fn other_line(plan: &Submitted, size: Size, rng: &mut Rng) -> Line {
    let ends = column(&plan.fibres, 4).chain(column(&plan.circuits, 6));
    let least_links = ends.max().unwrap_or(1);
    let least = column(&plan.assignments, 6).max().unwrap_or(1);
    let (grid, most) = match least > 40 || rng.once_in(2) {
        true => (2, size.wavelengths.min(80)),
        false => (1, size.wavelengths.min(40)),
    };
    Line {
        n: rng.within(least_links, size.links.max(least_links)),
        w: rng.within(least, most.max(least)),
        grid,
    }
}

/// The circuits of an old and a new file, of one family or two; no number is in both.
fn two_files(links: [usize; 2], many: [usize; 2], rng: &mut Rng) -> [Vec<Circuit>; 2] {
    let list = draws::circuits(links[0], many[0] + many[1], rng);
    let (old, new) = list.split_at(many[0]);
    [old.to_vec(), with_other_ends(new, links[1], rng)]
}

/// So many circuits added to a plan of so many, on a line of up to a size. Half of the calls are on another line than that of the
/// plan, and half are lent more than they need.
fn drawn(many: [usize; 2], size: Size, rng: &mut Rng) -> Addition {
    let links = rng.within(1, size.links);
    let (grid, wavelengths) = grid_and_wavelengths(size.wavelengths, rng);
    let more_links = rng.within(links, size.links);
    let [old, new] = two_files([links, more_links], many, rng);
    let mut plan = plan_of([links, wavelengths, grid], encode(&old), rng);
    if rng.once_in(2) {
        plan.line = other_line(&plan, size, rng);
    }
    plan.line.n = plan.line.n.max(more_links);
    let mut call = Addition::new(plan, encode(&new));
    if rng.once_in(2) {
        call.lengths = call.lengths.map(|length| length + rng.within(0, 40));
    }
    call
}

/// A call that is accepted.
pub fn accepted(size: Size, rng: &mut Rng) -> Addition {
    let many = rng.within(0, size.circuits);
    let old = rng.within(0, many);
    drawn([old, many - old], size, rng)
}

/// A call at the limits: 512 links, and 2,048 circuits in both files.
pub fn full_size(rng: &mut Rng) -> Addition {
    let old = [0, 1024, 1920, 2047, 2048, rng.within(0, 2048)][rng.within(0, 5)];
    let [old, new] = two_files([512; 2], [old, 2048 - old], rng);
    let (grid, wavelengths) = grid_and_wavelengths(80, rng);
    let line = [512, wavelengths, grid];
    Addition::new(plan_of(line, encode(&old), rng), encode(&new))
}

/// Gives a new record the number of an old one.
fn repeat_old_number(call: &mut Addition, rng: &mut Rng) {
    let [old, new] = [&call.old.circuits, &call.added].map(|file| file.len() / 8);
    if old > 0 && new > 0 {
        let from = 8 * rng.within(0, old - 1);
        let to = 8 * rng.within(0, new - 1);
        call.added[to..to + 4].copy_from_slice(&call.old.circuits[from..from + 4]);
    }
}

/// Gives a record of a file the number of an earlier one.
fn repeat_number(file: &mut [u8], rng: &mut Rng) {
    let many = file.len() / 8;
    if many > 1 {
        let later = rng.within(1, many - 1);
        let earlier = 8 * rng.within(0, later - 1);
        file.copy_within(earlier..earlier + 4, 8 * later);
    }
}

/// Spoils a record of both files.
fn spoil_both(call: &mut Addition, rng: &mut Rng) {
    let links = call.old.line.n;
    let repeat = rng.once_in(2);
    for file in [&mut call.old.circuits, &mut call.added] {
        match repeat {
            true => repeat_number(file, rng),
            false => draws::spoil_record(file, links, rng),
        }
    }
}

/// Spoils the line or the files.
fn spoil_files(call: &mut Addition, rng: &mut Rng) {
    let links = call.old.line.n;
    let old = rng.once_in(2);
    let others = if old { &call.added } else { &call.old.circuits }.len();
    let file = match old {
        true => &mut call.old.circuits,
        false => &mut call.added,
    };
    match rng.within(0, 8) {
        0 => draws::spoil_line(&mut call.old.line, rng),
        1 => draws::spoil_length(file, LARGE.circuits, rng),
        // One circuit too many in both files.
        2 => file.resize((8 * LARGE.circuits + 8).saturating_sub(others), 1),
        // Both files end within a record, and joined they may not.
        3 => {
            let part = rng.within(1, 7);
            call.old.circuits.extend(vec![1; part]);
            call.added.extend(vec![1; 8 - part]);
        }
        4 => repeat_old_number(call, rng),
        5 => spoil_both(call, rng),
        _ => draws::spoil_record(file, links, rng),
    }
}

/// Spoils the old plan.
fn spoil_plan(plan: &mut Submitted, rng: &mut Rng) {
    match rng.within(0, 9) {
        0 => *plan = with_fibres(plan.clone(), MOST_OLD_FIBRES + rng.within(0, 2)),
        1 => submitted::crowd(plan, rng),
        2 => plan.fibres.truncate(plan.fibres.len().saturating_sub(8)),
        3 => {
            let kept = plan.assignments.len().saturating_sub(8);
            plan.assignments.truncate(kept);
        }
        4 => plan.assignments.extend([1; 8]),
        5 => plan.line.w = plan.line.w.saturating_sub(1).max(1),
        6 | 7 => submitted::spoil_fibre(&mut plan.fibres, plan.line.n, rng),
        _ => submitted::spoil_assignment(plan, rng),
    }
}

/// Counts that a machine word has room for, but not 8 times as much, or not with some more.
pub fn far_counts(actual: usize, new: usize) -> [usize; 8] {
    let eighth = usize::MAX / 8;
    [
        usize::MAX,
        usize::MAX - new,
        usize::MAX - new.saturating_sub(1),
        eighth,
        eighth - new,
        eighth + 1,
        eighth + 1 + actual,
        usize::MAX / 2 + 1 + actual,
    ]
}

/// Names another number of old records.
fn spoil_named(call: &mut Addition, rng: &mut Rng) {
    let new = call.added.len() / 8;
    let named = &mut call.named[rng.within(0, 1)];
    *named = match rng.within(0, 3) {
        0 => named.saturating_sub(1),
        1 => *named + 1,
        2 => 0,
        _ => far_counts(*named, new)[rng.within(0, 7)],
    };
}

/// Makes a lent area shorter, or longer by a record or more.
fn spoil_room(call: &mut Addition, rng: &mut Rng) {
    let length = &mut call.lengths[rng.within(0, 2)];
    *length = match rng.within(0, 4) {
        0 | 1 => length.saturating_sub(1),
        2 => length.saturating_sub(rng.within(1, 40)),
        3 => 0,
        _ => *length + rng.within(8, 80),
    };
}

/// A small call with one to three faults, some of which may undo each other.
pub fn damaged(rng: &mut Rng) -> Addition {
    let mut call = accepted(SMALL, rng);
    let faults = rng.within(1, 3);
    for _ in 0..faults {
        match rng.within(0, 9) {
            0..=3 => spoil_files(&mut call, rng),
            4 | 5 => spoil_plan(&mut call.old, rng),
            _ => (),
        }
    }
    let mut call = Addition::new(call.old, call.added);
    for _ in 0..faults {
        match rng.within(0, 5) {
            0 => spoil_named(&mut call, rng),
            1 => spoil_room(&mut call, rng),
            _ => (),
        }
    }
    call
}

/// Writes a layer into each fibre record of a list.
pub fn write_layers(fibres: &mut [u8], mut layer: impl FnMut() -> usize) {
    for record in fibres.chunks_exact_mut(8) {
        set_half(record, 6, layer());
    }
}
