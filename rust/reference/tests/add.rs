//! R-2 on the listing of 01 as R-1 plans it: additions, refusals, and that mistakes show in them.
use inputs::{encode, Circuit};
use reference::{add_with, Line, Old, Slip, ADD_SLIPS};

/// What is added: number, total and floor of the whole plan, first link, last link and layer of each added fibre, and fibre
/// and wavelength of each new circuit.
type Added = (
    [usize; 3],
    &'static [(u16, u16, u16)],
    &'static [(u16, u16)],
);

/// What is added, or number, place and end of a refusal.
type Answer = Result<Added, (u32, usize, u32)>;

/// A plan, what is to be added, and the lent areas.
#[derive(Clone)]
struct Call {
    line: Line,
    old: Vec<Circuit>,
    /// Number, first link, last link and layer.
    fibres: Vec<[u16; 4]>,
    /// Circuit number, fibre and wavelength.
    assignments: Vec<(u32, u16, u16)>,
    added: Vec<Circuit>,
    /// The bytes by which the two files are too short.
    missing: [usize; 2],
    /// How many old fibres and assignments are named, if not as many as there are.
    named: [Option<usize>; 2],
    /// The bytes by which the three areas are longer than what is needed, or shorter.
    room: [isize; 3],
}

/// The listing with three new circuits: 15 takes the place that 50 would get, 50 the next, and there is none for 60.
fn sound() -> Call {
    Call {
        line: Line {
            n: 5,
            w: 2,
            grid: 1,
        },
        old: vec![(10, 1, 3), (20, 2, 5), (30, 1, 2), (40, 4, 5)],
        fibres: vec![[1, 1, 5, 2], [2, 2, 5, 2]],
        assignments: vec![(10, 1, 2), (20, 2, 1), (30, 1, 1), (40, 1, 2)],
        added: vec![(50, 4, 5), (15, 3, 5), (60, 1, 1)],
        missing: [0; 2],
        named: [None; 2],
        room: [0; 3],
    }
}

/// The answer to it.
const SOUND: Answer = Ok(([3, 10, 10], &[(1, 1, 1)], &[(2, 2), (1, 1), (3, 1)]));

/// The records of a fibre list.
fn fibre_bytes(fibres: &[[u16; 4]]) -> Vec<u8> {
    let fields = fibres.iter().flatten();
    fields.flat_map(|field| field.to_le_bytes()).collect()
}

impl Call {
    /// The bytes that the old records and the new circuits need in the three areas.
    fn needed(&self) -> [usize; 3] {
        let more = self.added.len();
        [
            8 * (self.fibres.len() + more),
            8 * (self.assignments.len() + more),
            4 * self.line.n.min(512) + 4 * (self.old.len() + more),
        ]
    }

    /// The three areas before the call.
    fn before(&self) -> [Vec<u8>; 3] {
        // Circuit records have the form of assignment records.
        let mut areas = [fibre_bytes(&self.fibres), encode(&self.assignments), vec![]];
        for ((area, needed), room) in areas.iter_mut().zip(self.needed()).zip(self.room) {
            area.resize(needed.checked_add_signed(room).unwrap(), 0xA5);
        }
        areas
    }

    /// The three areas after an answer.
    fn after(&self, answer: Answer) -> [Vec<u8>; 3] {
        let mut areas = self.before();
        let Ok((_, fibres, places)) = answer else {
            return areas;
        };
        let numbered = (self.fibres.len() as u16 + 1..).zip(fibres);
        let fibres: Vec<[u16; 4]> = numbered.map(|(i, &(a, b, h))| [i, a, b, h]).collect();
        let numbers = self.added.iter().map(|circuit| circuit.0);
        let assigned = numbers.zip(places).map(|(number, &(f, v))| (number, f, v));
        let assignments: Vec<Circuit> = assigned.collect();
        let starts = [8 * self.fibres.len(), 8 * self.assignments.len(), 0];
        let [.., work] = self.needed();
        let written = [fibre_bytes(&fibres), encode(&assignments), vec![0; work]];
        for ((area, from), bytes) in areas.iter_mut().zip(starts).zip(written) {
            area[from..from + bytes.len()].copy_from_slice(&bytes);
        }
        areas
    }

    /// Whether the answer is this one, and the areas are as it says.
    fn gives(&self, slip: Slip, answer: Answer) -> bool {
        let mut files = [encode(&self.old), encode(&self.added)];
        for (file, missing) in files.iter_mut().zip(self.missing) {
            file.truncate(file.len() - missing);
        }
        let old = Old {
            circuits: &files[0],
            fibres: self.named[0].unwrap_or(self.fibres.len()),
            assignments: self.named[1].unwrap_or(self.assignments.len()),
        };
        let mut areas = self.before();
        let [f, a, k] = &mut areas;
        let given = add_with(slip, self.line, old, &files[1], f, a, k)
            .map(|counts| [counts.fibres, counts.total, counts.floor])
            .map_err(|refused| (refused.number, refused.place, refused.end));
        given == answer.map(|(counts, ..)| counts) && areas == self.after(answer)
    }

    /// Adds old fibres that carry nothing, up to so many.
    fn fill_fibres(&mut self, many: u16) {
        let from = self.fibres.len() as u16 + 1;
        self.fibres.extend((from..=many).map(|i| [i, 1, 1, 0]));
    }
}

/// What is changed, and what is then answered.
type Case = (fn(&mut Call), Answer);

const ADDED: [Case; 12] = [
    (|_| (), SOUND),
    (|c| c.added.clear(), Ok(([2, 9, 6], &[], &[]))),
    // A third wavelength: 15 and 60 need no other, 50 takes it, and 60 shares it.
    (
        |c| c.line.w = 3,
        Ok(([2, 9, 7], &[], &[(1, 3), (1, 1), (1, 3)])),
    ),
    // The lowest fibre comes before the lowest wavelength.
    (
        |c| {
            c.line.w = 3;
            c.added = vec![(70, 2, 5)];
        },
        Ok(([2, 9, 6], &[], &[(1, 3)])),
    ),
    // Those that are left are planned together, in layers of their own.
    (
        |c| c.added = vec![(63, 1, 1), (61, 1, 1), (62, 1, 1)],
        Ok((
            [4, 11, 8],
            &[(1, 1, 1), (1, 1, 2)],
            &[(4, 1), (3, 1), (3, 2)],
        )),
    ),
    // The listing, added to nothing.
    (
        |c| {
            c.added = std::mem::take(&mut c.old);
            c.fibres.clear();
            c.assignments.clear();
        },
        Ok((
            [2, 9, 6],
            &[(1, 5, 2), (2, 5, 2)],
            &[(1, 2), (2, 1), (1, 1), (1, 2)],
        )),
    ),
    // A longer line, where an old fibre does not reach.
    (
        |c| {
            c.line.n = 6;
            c.added = vec![(5, 5, 6)];
        },
        Ok(([3, 11, 8], &[(5, 6, 1)], &[(3, 1)])),
    ),
    // A dark fibre is lit, and keeps its layer.
    (
        |c| c.fill_fibres(3),
        Ok(([3, 10, 10], &[], &[(2, 2), (1, 1), (3, 1)])),
    ),
    (|c| c.room = [9, 17, 3], SOUND),
    (|c| c.fibres[0][3] = 0, SOUND),
    // Nothing at all.
    (
        |c| {
            c.old.clear();
            c.fibres.clear();
            c.assignments.clear();
            c.added.clear();
        },
        Ok(([0, 0, 0], &[], &[])),
    ),
    // 2,048 old fibres are not too many.
    (
        |c| {
            c.fill_fibres(2048);
            c.added = vec![(6, 1, 2)];
        },
        Ok(([2049, 9 + 2046 + 2, 7], &[(1, 2, 1)], &[(2049, 1)])),
    ),
];

/// Refused with a number and no place.
const fn no(number: u32) -> Answer {
    Err((number, 0, 0))
}

const FILES: [Case; 25] = [
    (|c| c.missing = [1, 0], no(1)),
    (|c| c.missing = [0, 1], no(1)),
    (|c| c.missing = [3, 5], no(1)),
    (|c| c.missing = [4, 4], no(1)),
    (|c| c.added = vec![(1, 1, 1); 2045], no(2)),
    (|c| c.old = vec![(1, 1, 1); 2046], no(2)),
    (|c| (c.line.n, c.line.grid) = (0, 3), no(3)),
    (|c| c.line.n = 513, no(3)),
    (|c| (c.line.w, c.line.grid) = (0, 3), no(12)),
    (|c| c.line.w = 41, no(4)),
    (|c| c.old[3].0 = 0, Err((5, 4, 0))),
    (|c| c.added[0].0 = 0, Err((5, 5, 0))),
    (|c| c.added[2].0 = 0, Err((5, 7, 0))),
    // A zero in the new file comes before a wrong end or a repeat in the old one.
    (
        |c| {
            c.old[0].1 = 0;
            c.old[3].0 = 10;
            c.added[1].0 = 0;
        },
        Err((5, 6, 0)),
    ),
    (|c| c.old[1].1 = 6, Err((6, 2, 2))),
    (|c| c.added[1].2 = 6, Err((6, 6, 3))),
    (|c| c.added[2].1 = 0, Err((6, 7, 1))),
    // A wrong end in the new file comes before a repeat in the old one.
    (
        |c| {
            c.old[3].0 = 10;
            c.added[0].1 = 6;
        },
        Err((6, 5, 2)),
    ),
    (|c| c.old[3].0 = 10, Err((7, 4, 0))),
    (|c| c.added[2].0 = 50, Err((7, 7, 0))),
    (
        |c| {
            c.old[3].0 = 10;
            c.added[1].0 = 50;
        },
        Err((7, 4, 0)),
    ),
    // A repeat within the new file comes before a number that both files have.
    (
        |c| {
            c.added[0].0 = 10;
            c.added[2].0 = 15;
        },
        Err((7, 7, 0)),
    ),
    (|c| c.added[0].0 = 40, Err((14, 5, 0))),
    (|c| c.added[2].0 = 10, Err((14, 7, 0))),
    (
        |c| {
            c.added[1].0 = 40;
            c.added[2].0 = 10;
        },
        Err((14, 6, 0)),
    ),
];

const AREAS: [Case; 18] = [
    (|c| c.room = [-1, -1, -1], no(8)),
    (|c| c.room = [0, -1, -1], no(9)),
    (|c| c.room = [0, 0, -1], no(10)),
    (|c| c.room = [0, 0, -16], no(10)),
    (|c| c.named = [Some(3), None], no(8)),
    (|c| c.named = [None, Some(5)], no(9)),
    (|c| c.named = [Some(usize::MAX), None], no(8)),
    (|c| c.named = [Some(usize::MAX / 8), None], no(8)),
    (|c| c.named = [Some(usize::MAX / 8 + 1), None], no(8)),
    (|c| c.named = [Some(usize::MAX - 2), None], no(8)),
    (|c| c.named = [None, Some(usize::MAX)], no(9)),
    (|c| c.named = [None, Some(usize::MAX / 8 + 1)], no(9)),
    (|c| c.named = [None, Some(usize::MAX - 2)], no(9)),
    // Both lists have room for one more.
    (
        |c| {
            c.room = [8, 8, 0];
            c.named = [None, Some(5)];
        },
        no(13),
    ),
    (|c| c.named = [None, Some(3)], no(13)),
    (|c| c.named = [Some(1), None], no(13)),
    // What is behind the named fibres is no fibre, whatever stands there.
    (
        |c| {
            c.fill_fibres(3);
            c.named = [Some(2), None];
            c.added.clear();
        },
        Ok(([2, 9, 6], &[], &[])),
    ),
    (
        |c| {
            c.room = [-1, 0, 0];
            c.added[0].0 = 40;
        },
        no(8),
    ),
];

const OLD_PLANS: [Case; 20] = [
    (|c| c.fibres[1][0] = 3, no(13)),
    (|c| c.fibres[1][1] = 0, no(13)),
    (|c| c.fibres[1] = [2, 4, 3, 2], no(13)),
    (|c| c.fibres[1][2] = 6, no(13)),
    (|c| c.fill_fibres(2049), no(13)),
    (
        |c| {
            c.fill_fibres(3);
            c.fibres[2][2] = 6;
        },
        no(13),
    ),
    (|c| c.assignments[1].0 = 21, no(13)),
    (|c| c.assignments.swap(2, 3), no(13)),
    (|c| c.assignments[1].1 = 0, no(13)),
    (|c| c.assignments[1].1 = 3, no(13)),
    (|c| c.assignments[0].1 = 2, no(13)),
    (|c| c.assignments[1].2 = 0, no(13)),
    (|c| c.assignments[1].2 = 3, no(13)),
    (|c| c.assignments[3] = (40, 2, 1), no(13)),
    (|c| c.line.w = 1, no(13)),
    // A shorter line, on which the old circuits lie.
    (
        |c| {
            c.line.n = 3;
            c.old[1].2 = 3;
            c.old[3] = (40, 3, 3);
            c.added.clear();
        },
        no(13),
    ),
    (|c| c.assignments.truncate(3), no(13)),
    (|c| c.assignments.push((50, 1, 1)), no(13)),
    // 10 comes before 13, and 13 before 14.
    (
        |c| {
            c.assignments[1].2 = 0;
            c.room[2] = -1;
        },
        no(10),
    ),
    (
        |c| {
            c.assignments[1].2 = 0;
            c.added[0].0 = 40;
        },
        no(13),
    ),
];

/// All cases.
fn cases() -> impl Iterator<Item = (Call, Answer)> {
    let all = ADDED.into_iter().chain(FILES).chain(AREAS).chain(OLD_PLANS);
    all.map(|(change, answer)| {
        let mut call = sound();
        change(&mut call);
        (call, answer)
    })
}

#[test]
fn each_case() {
    for (at, (call, answer)) in cases().enumerate() {
        assert!(call.gives(Slip::None, answer), "case {at}");
    }
}

#[test]
fn each_mistake_with_r_2_shows_in_a_case() {
    for slip in ADD_SLIPS {
        let shows = cases().any(|(call, answer)| !call.gives(slip, answer));
        assert!(shows, "{slip:?} shows in no case");
    }
}
