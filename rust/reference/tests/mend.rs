//! R-11 on the listing of 01 as R-1 plans it: mendings, refusals, and that mistakes show in them.
use inputs::{encode, Circuit};
use reference::{mend_with, Line, Slip, MEND_SLIPS};

/// What is mended: number, total and floor of the whole plan, first link, last link and layer of each added fibre, and each line of the
/// report: circuit, fibre and wavelength found, fibre and wavelength given.
type Mended = (
    [usize; 3],
    &'static [(u16, u16, u16)],
    &'static [(u32, [u16; 4])],
);

/// What is mended, or number, place and end of a refusal.
type Answer = Result<Mended, (u32, usize, u32)>;

/// A register and the lent areas.
#[derive(Clone)]
struct Call {
    line: Line,
    circuits: Vec<Circuit>,
    /// Number, first link, last link and layer.
    fibres: Vec<[u16; 4]>,
    /// Circuit number, fibre and wavelength.
    assignments: Vec<(u32, u16, u16)>,
    /// The bytes by which the circuit file is too short.
    missing: usize,
    /// How many old fibres are named, if not as many as there are.
    named: Option<usize>,
    /// The bytes by which fibres, report and work area are longer than what is needed, or shorter.
    room: [isize; 3],
    /// The bytes by which the assignments are longer than one record a circuit, or shorter.
    more: isize,
}

/// The listing, in which nothing is damaged.
fn sound() -> Call {
    Call {
        line: Line {
            n: 5,
            w: 2,
            grid: 1,
        },
        circuits: vec![(10, 1, 3), (20, 2, 5), (30, 1, 2), (40, 4, 5)],
        fibres: vec![[1, 1, 5, 2], [2, 2, 5, 2]],
        assignments: vec![(10, 1, 2), (20, 2, 1), (30, 1, 1), (40, 1, 2)],
        missing: 0,
        named: None,
        room: [0; 3],
        more: 0,
    }
}

/// The answer to it.
const SOUND: Answer = Ok(([2, 9, 6], &[], &[]));

/// The records of a fibre list.
fn fibre_bytes(fibres: &[[u16; 4]]) -> Vec<u8> {
    let fields = fibres.iter().flatten();
    fields.flat_map(|field| field.to_le_bytes()).collect()
}

/// A report.
fn report_bytes(lines: &[(u32, [u16; 4])]) -> Vec<u8> {
    let bytes = |(circuit, fields): &(u32, [u16; 4])| {
        let fields = fields.iter().flat_map(|field| field.to_le_bytes());
        let line: Vec<u8> = circuit.to_le_bytes().into_iter().chain(fields).collect();
        line
    };
    lines.iter().flat_map(bytes).collect()
}

/// Makes an area so long.
fn resize(area: &mut Vec<u8>, needed: usize, more: isize) {
    area.resize(needed.checked_add_signed(more).unwrap(), 0xA5);
}

impl Call {
    /// The four areas before the call.
    fn before(&self) -> [Vec<u8>; 4] {
        let (old, many) = (self.fibres.len(), self.circuits.len());
        // Circuit records have the form of assignment records.
        let [mut fibres, mut assignments] = [fibre_bytes(&self.fibres), encode(&self.assignments)];
        let [mut report, mut work] = [vec![], vec![]];
        resize(&mut fibres, 8 * (old + many), self.room[0]);
        resize(&mut assignments, 8 * many, self.more);
        resize(&mut report, 12 * many, self.room[1]);
        resize(&mut work, self.zeroed(), self.room[2]);
        [fibres, assignments, report, work]
    }

    /// The bytes of the work area that are zeroed.
    fn zeroed(&self) -> usize {
        4 * self.line.n.min(512) + 4 * self.circuits.len()
    }

    /// The four areas after an answer.
    fn after(&self, answer: Answer) -> [Vec<u8>; 4] {
        let mut areas = self.before();
        let Ok((_, fibres, lines)) = answer else {
            return areas;
        };
        let old = self.named.unwrap_or(self.fibres.len());
        let numbered = (old as u16 + 1..).zip(fibres);
        let added: Vec<[u16; 4]> = numbered.map(|(i, &(a, b, h))| [i, a, b, h]).collect();
        let added = fibre_bytes(&added);
        areas[0][8 * old..][..added.len()].copy_from_slice(&added);
        for &(circuit, [_, _, fibre, wavelength]) in lines {
            let at = self.circuits.iter().position(|c| c.0 == circuit).unwrap();
            areas[1][8 * at..][..8].copy_from_slice(&encode(&[(circuit, fibre, wavelength)]));
        }
        let report = report_bytes(lines);
        areas[2][..report.len()].copy_from_slice(&report);
        areas[3][..self.zeroed()].fill(0);
        areas
    }

    /// Whether the answer is this one, and the areas are as it says.
    fn gives(&self, slip: Slip, answer: Answer) -> bool {
        let mut file = encode(&self.circuits);
        file.truncate(file.len() - self.missing);
        let old = self.named.unwrap_or(self.fibres.len());
        let mut areas = self.before();
        let lent = areas.each_mut().map(Vec::as_mut_slice);
        let given = mend_with(slip, self.line, &file, old, lent)
            .map(|m| (m.counts, m.lines))
            .map(|(c, lines)| ([c.fibres, c.total, c.floor], lines))
            .map_err(|refused| (refused.number, refused.place, refused.end));
        let expected = answer.map(|(counts, _, lines)| (counts, lines.len()));
        given == expected && areas == self.after(answer)
    }

    /// Adds fibres that carry nothing, up to so many.
    fn fill_fibres(&mut self, many: u16) {
        let from = self.fibres.len() as u16 + 1;
        self.fibres.extend((from..=many).map(|i| [i, 1, 1, 0]));
    }

    /// Loses all assignments.
    fn lose(&mut self) {
        self.assignments.fill((0, 0, 0));
    }
}

/// What is changed, and what is then answered.
type Case = (fn(&mut Call), Answer);

const MENDED: [Case; 24] = [
    (|_| (), SOUND),
    (|c| c.room = [9, 17, 3], SOUND),
    (|c| c.fibres[0][3] = 0, SOUND),
    // One record is lost, and the circuit gets the lowest place.
    (
        |c| c.assignments[3] = (0, 0, 0),
        Ok(([2, 9, 6], &[], &[(40, [0, 0, 1, 1])])),
    ),
    // Each of rules 4 to 7: another circuit, no such fibre, not spanned, no such wavelength.
    (
        |c| c.assignments[3].0 = 41,
        Ok(([2, 9, 6], &[], &[(40, [1, 2, 1, 1])])),
    ),
    (
        |c| c.assignments[3].1 = 3,
        Ok(([2, 9, 6], &[], &[(40, [3, 2, 1, 1])])),
    ),
    (
        |c| c.assignments[2].1 = 2,
        Ok(([2, 9, 6], &[], &[(30, [2, 1, 1, 1])])),
    ),
    (
        |c| c.assignments[1].2 = 3,
        Ok(([2, 9, 6], &[], &[(20, [2, 3, 2, 1])])),
    ),
    // A clash: the lower number is kept, wherever it stands.
    (
        |c| c.assignments[0].2 = 1,
        Ok(([2, 9, 6], &[], &[(30, [1, 1, 1, 2])])),
    ),
    (
        |c| {
            c.assignments[0].2 = 1;
            c.circuits.reverse();
            c.assignments.reverse();
        },
        Ok(([2, 9, 6], &[], &[(30, [1, 1, 1, 2])])),
    ),
    // 20 clashes with 10 and is not kept; 40 clashes only with 20 and is.
    (
        |c| {
            c.assignments[1] = (20, 1, 2);
        },
        Ok(([2, 9, 6], &[], &[(20, [1, 2, 2, 1])])),
    ),
    // 10 is lost and would get the place where 30 is kept.
    (
        |c| c.assignments[0] = (0, 0, 0),
        Ok(([2, 9, 6], &[], &[(10, [0, 0, 1, 2])])),
    ),
    // What is given is what was found: only the number was wrong.
    (
        |c| c.assignments[0].0 = 11,
        Ok(([2, 9, 6], &[], &[(10, [1, 2, 1, 2])])),
    ),
    // Two records are exchanged: neither is at its circuit's place.
    (
        |c| c.assignments.swap(0, 2),
        Ok(([2, 9, 6], &[], &[(10, [1, 1, 1, 1]), (30, [1, 2, 1, 2])])),
    ),
    // All is lost, and a fibre more is needed than before.
    (
        |c| {
            c.line.n = 3;
            c.circuits = vec![(1, 2, 3), (2, 1, 2), (3, 1, 3)];
            c.fibres = vec![[1, 1, 3, 2], [2, 2, 3, 2]];
            c.assignments = vec![(0, 0, 0); 3];
        },
        Ok((
            [3, 8, 4],
            &[(1, 3, 1)],
            &[(1, [0, 0, 1, 1]), (2, [0, 0, 1, 2]), (3, [0, 0, 3, 1])],
        )),
    ),
    // The turns are by number, not by place.
    (
        |c| {
            c.lose();
            c.circuits = vec![(40, 4, 5), (30, 1, 2), (20, 2, 5), (10, 1, 3)];
        },
        Ok((
            [3, 11, 6],
            &[(1, 2, 1)],
            &[
                (10, [0, 0, 1, 1]),
                (20, [0, 0, 1, 2]),
                (30, [0, 0, 3, 1]),
                (40, [0, 0, 1, 1]),
            ],
        )),
    ),
    // The lowest fibre comes before the lowest wavelength.
    (
        |c| {
            c.line.w = 3;
            c.assignments[1] = (20, 0, 0);
        },
        Ok(([2, 9, 5], &[], &[(20, [0, 0, 1, 3])])),
    ),
    // No fibres are left: all are planned together.
    (
        |c| c.fibres.clear(),
        Ok((
            [2, 9, 6],
            &[(1, 5, 2), (2, 5, 2)],
            &[
                (10, [1, 2, 1, 2]),
                (20, [2, 1, 2, 1]),
                (30, [1, 1, 1, 1]),
                (40, [1, 2, 1, 2]),
            ],
        )),
    ),
    // A fibre is lost: 20 gets a new one, in a layer of its own count.
    (
        |c| {
            c.fibres.truncate(1);
        },
        Ok(([2, 9, 6], &[(2, 5, 1)], &[(20, [2, 1, 2, 1])])),
    ),
    // Two layers of new fibres.
    (
        |c| {
            c.fibres = vec![[1, 5, 5, 9]];
            c.circuits = vec![(63, 1, 1), (61, 1, 1), (62, 1, 1)];
            c.assignments = vec![(63, 1, 1), (61, 1, 1), (62, 2, 1)];
        },
        Ok((
            [3, 3, 2],
            &[(1, 1, 1), (1, 1, 2)],
            &[(61, [1, 1, 2, 1]), (62, [2, 1, 2, 2]), (63, [1, 1, 3, 1])],
        )),
    ),
    // One wavelength is left: those that have the other are moved.
    (
        |c| c.line.w = 1,
        Ok((
            [3, 12, 11],
            &[(1, 3, 1)],
            &[(10, [1, 2, 3, 1]), (40, [1, 2, 1, 1])],
        )),
    ),
    // What stands behind the named fibres is no fibre, whatever it is.
    (
        |c| {
            c.fill_fibres(3);
            c.named = Some(2);
        },
        SOUND,
    ),
    // Nothing at all.
    (
        |c| {
            c.circuits.clear();
            c.fibres.clear();
            c.assignments.clear();
        },
        Ok(([0, 0, 0], &[], &[])),
    ),
    // 2,048 fibres are not too many.
    (
        |c| {
            c.fill_fibres(2048);
            c.assignments[3] = (0, 0, 0);
        },
        Ok(([2048, 9 + 2046, 6], &[], &[(40, [0, 0, 1, 1])])),
    ),
];

/// Refused with a number and no place.
const fn no(number: u32) -> Answer {
    Err((number, 0, 0))
}

const REFUSED: [Case; 42] = [
    (|c| c.missing = 1, no(1)),
    (|c| c.circuits = vec![(1, 1, 1); 2049], no(2)),
    (|c| (c.line.n, c.line.grid) = (0, 3), no(3)),
    (|c| c.line.n = 513, no(3)),
    (|c| (c.line.w, c.line.grid) = (0, 3), no(12)),
    (|c| c.line.w = 41, no(4)),
    (
        |c| (c.circuits[3].0, c.circuits[0].1) = (0, 0),
        Err((5, 4, 0)),
    ),
    (|c| c.circuits[1].1 = 6, Err((6, 2, 2))),
    (|c| c.circuits[1].2 = 6, Err((6, 2, 3))),
    (|c| c.circuits[2].1 = 0, Err((6, 3, 1))),
    (|c| c.circuits[3].0 = 10, Err((7, 4, 0))),
    (
        |c| {
            c.circuits[3].0 = 10;
            c.room = [-1; 3];
        },
        Err((7, 4, 0)),
    ),
    (|c| (c.room, c.more) = ([-1; 3], -1), no(8)),
    (|c| (c.room, c.more) = ([0, -1, -1], -1), no(10)),
    (|c| (c.room, c.more) = ([0, -1, 0], -1), Err((16, 2, 0))),
    (|c| c.more = 1, Err((16, 2, 0))),
    (|c| c.more = 8, Err((16, 2, 0))),
    (|c| c.more = -8, Err((16, 2, 0))),
    (|c| c.more = -32, Err((16, 2, 0))),
    (
        |c| {
            c.circuits.clear();
            c.more = 8;
        },
        Err((16, 2, 0)),
    ),
    (|c| c.room[1] = -1, no(23)),
    (|c| c.room[1] = -48, no(23)),
    (
        |c| {
            c.lose();
            c.room[1] = -1;
        },
        no(23),
    ),
    // Room for one more, which is none.
    (
        |c| {
            c.room[0] = 8;
            c.named = Some(3);
        },
        Err((20, 3, 0)),
    ),
    (|c| c.named = Some(3), no(8)),
    (|c| c.named = Some(usize::MAX), no(8)),
    (|c| c.named = Some(usize::MAX - 2), no(8)),
    (|c| c.named = Some(usize::MAX / 8), no(8)),
    (|c| c.named = Some(usize::MAX / 8 + 1), no(8)),
    (|c| c.named = Some(usize::MAX / 8 - 3), no(8)),
    (|c| c.fibres[1][0] = 3, Err((20, 2, 0))),
    (|c| c.fibres[1][1] = 0, Err((20, 2, 0))),
    (|c| c.fibres[1] = [2, 4, 3, 2], Err((20, 2, 0))),
    (|c| c.fibres[1][2] = 6, Err((20, 2, 0))),
    (|c| c.fibres[0] = [2, 1, 6, 2], Err((20, 1, 0))),
    // The first faulty fibre, whichever rule it breaks.
    (
        |c| {
            c.fibres[0][2] = 6;
            c.fibres[1][0] = 3;
        },
        Err((20, 1, 0)),
    ),
    (|c| c.fill_fibres(2049), no(20)),
    // Too many come before a faulty one.
    (
        |c| {
            c.fill_fibres(2049);
            c.fibres[0][0] = 2;
        },
        no(20),
    ),
    // 16 comes before 20, and 20 before 23.
    (
        |c| {
            c.fibres[0][0] = 2;
            c.more = 8;
        },
        Err((16, 2, 0)),
    ),
    (
        |c| {
            c.fill_fibres(2049);
            c.more = -1;
        },
        Err((16, 2, 0)),
    ),
    (
        |c| {
            c.fibres[0][0] = 2;
            c.room[1] = -1;
        },
        Err((20, 1, 0)),
    ),
    // A shorter line, on which the circuits lie.
    (
        |c| {
            c.line.n = 3;
            c.circuits[1].2 = 3;
            c.circuits[3] = (40, 3, 3);
        },
        Err((20, 1, 0)),
    ),
];

/// All cases.
fn cases() -> impl Iterator<Item = (Call, Answer)> {
    let all = MENDED.into_iter().chain(REFUSED);
    all.map(|(change, answer)| {
        let mut call = sound();
        change(&mut call);
        (call, answer)
    })
}

#[test]
fn each_case() {
    for (at, (call, answer)) in cases().enumerate() {
        assert!(call.gives(Slip::None, answer), "case {at}");
    }
}

#[test]
fn each_mistake_with_r_11_shows_in_a_case() {
    for slip in MEND_SLIPS {
        let shows = cases().any(|(call, answer)| !call.gives(slip, answer));
        assert!(shows, "{slip:?} shows in no case");
    }
}
