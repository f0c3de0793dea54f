//! The cases of 01 as R-1 answers them, a gap, many old pairs that become two fibres, the grids of R-5, the ends of R-6, and
//! that mistakes show in them.
use inputs::{encode, ladder, Circuit};
use reference::{
    frequency, needs, paired, plan_with, Counts, Line, Refused, Slip, END_SLIPS, GRID_SLIPS,
    LIT_SLIPS,
};

/// Fibre number and wavelength of a circuit.
type Place = (u16, u16);

/// What is planned, and what comes of it.
#[derive(Clone)]
struct Case {
    name: &'static str,
    n: usize,
    w: usize,
    circuits: Vec<Circuit>,
    /// First link, last link and layer of each fibre.
    fibres: Vec<(u16, u16, u16)>,
    places: Vec<Place>,
    total: usize,
    floor: usize,
}

/// The numbers of a plan, the fields of its fibre records, and number and place of its assignment records.
type Written = (Counts, Vec<[u16; 4]>, Vec<(u32, Place)>);

/// The four fields of two bytes of a record.
fn fields(record: &[u8]) -> [u16; 4] {
    [0, 2, 4, 6].map(|at| u16::from_le_bytes([record[at], record[at + 1]]))
}

/// The number and the place of an assignment record.
fn assigned(record: &[u8]) -> (u32, Place) {
    let [low, high, fibre, wavelength] = fields(record);
    (
        u32::from(low) + (u32::from(high) << 16),
        (fibre, wavelength),
    )
}

/// What is written with a mistake, on areas of just the lengths that are asked for.
fn written(slip: Slip, n: usize, w: usize, circuits: &[Circuit]) -> Result<Written, Refused> {
    let m = circuits.len();
    let mut lists = [vec![0xA5; 8 * m], vec![0xA5; 8 * m]];
    let [fibres, assignments] = &mut lists;
    let mut work = vec![0xA5; 4 * n + 4 * m];
    let file = encode(circuits);
    let line = Line { n, w, grid: 1 };
    let counts = plan_with(slip, line, &file, fibres, assignments, &mut work)?;
    let (records, behind) = fibres.split_at(8 * counts.fibres);
    assert!(behind.iter().all(|&byte| byte == 0xA5));
    Ok((
        counts,
        records.chunks_exact(8).map(fields).collect(),
        assignments.chunks_exact(8).map(assigned).collect(),
    ))
}

impl Case {
    /// What is written with a mistake.
    fn written(&self, slip: Slip) -> Result<Written, Refused> {
        written(slip, self.n, self.w, &self.circuits)
    }

    /// What should be written.
    fn expected(&self) -> Written {
        let numbered = |(number, &(first, last, layer))| [number, first, last, layer];
        let counts = Counts {
            fibres: self.fibres.len(),
            total: self.total,
            floor: self.floor,
        };
        let numbers = self.circuits.iter().map(|circuit| circuit.0);
        (
            counts,
            (1..).zip(&self.fibres).map(numbered).collect(),
            numbers.zip(self.places.iter().copied()).collect(),
        )
    }

    /// The same circuits in reverse order.
    fn reversed(&self, name: &'static str) -> Self {
        let mut case = self.clone();
        case.name = name;
        case.circuits.reverse();
        case.places.reverse();
        case
    }
}

/// The listing of 01, as 02 changes it.
fn listing() -> Case {
    Case {
        name: "6, the listing",
        n: 5,
        w: 2,
        circuits: vec![(10, 1, 3), (20, 2, 5), (30, 1, 2), (40, 4, 5)],
        fibres: vec![(1, 5, 2), (2, 5, 2)],
        places: vec![(1, 2), (2, 1), (1, 1), (1, 2)],
        total: 9,
        floor: 6,
    }
}

/// A fibre of 01 whose circuits leave a link between them idle, which a circuit of its twin uses.
fn gap() -> Case {
    Case {
        name: "a gap",
        n: 4,
        w: 1,
        circuits: vec![(1, 4, 4), (2, 1, 2), (3, 2, 3)],
        fibres: vec![(1, 2, 2), (4, 4, 2), (2, 3, 2)],
        places: vec![(2, 1), (1, 1), (3, 1)],
        total: 5,
        floor: 5,
    }
}

/// The cases of 01 with one link, or with no circuit.
fn least_cases() -> Vec<Case> {
    let none = Case {
        name: "1",
        n: 1,
        w: 1,
        circuits: vec![],
        fibres: vec![],
        places: vec![],
        total: 0,
        floor: 0,
    };
    let one = Case {
        name: "2",
        circuits: vec![(7, 1, 1)],
        fibres: vec![(1, 1, 1)],
        places: vec![(1, 1)],
        total: 1,
        floor: 1,
        ..none.clone()
    };
    let three = Case {
        name: "3",
        w: 2,
        circuits: vec![(1, 1, 1), (2, 1, 1), (3, 1, 1)],
        fibres: vec![(1, 1, 1), (1, 1, 2)],
        places: vec![(1, 1), (1, 2), (2, 1)],
        total: 2,
        floor: 2,
        ..none.clone()
    };
    vec![none, one, three]
}

fn cases() -> Vec<Case> {
    let apart = Case {
        name: "4",
        n: 3,
        w: 1,
        circuits: vec![(1, 1, 1), (2, 3, 3)],
        fibres: vec![(1, 1, 1), (3, 3, 1)],
        places: vec![(1, 1), (2, 1)],
        total: 2,
        floor: 2,
    };
    let above_the_floor = Case {
        name: "5",
        n: 3,
        w: 2,
        circuits: vec![(1, 1, 3), (2, 1, 2), (3, 2, 3)],
        fibres: vec![(1, 3, 2), (2, 3, 2)],
        places: vec![(1, 2), (1, 1), (2, 1)],
        total: 5,
        floor: 4,
    };
    let mut cases = least_cases();
    cases.extend([apart, above_the_floor, listing(), gap()]);
    cases.push(listing().reversed("7, the listing in reverse"));
    cases.push(gap().reversed("a gap, in reverse"));
    cases
}

#[test]
fn each_case() {
    for case in cases() {
        assert_eq!(
            case.written(Slip::None),
            Ok(case.expected()),
            "{}",
            case.name
        );
    }
}

#[test]
fn each_mistake_with_r_1_shows_in_a_case() {
    for slip in LIT_SLIPS {
        let shows = |case: &Case| case.written(slip) != Ok(case.expected());
        assert!(cases().iter().any(shows), "{slip:?} shows in no case");
    }
}

#[test]
fn ten_old_pairs_become_two_fibres() {
    let file = encode(&ladder());
    let records = file.chunks_exact(8).map(reference::Circuit::read);
    let circuits: Vec<reference::Circuit> = records.collect();
    let c = needs(21, 2, &circuits, Slip::None);
    let old = paired(21, 2, &circuits, &c, Slip::None);
    let (counts, ..) = written(Slip::None, 21, 2, &ladder()).unwrap();
    let many = [circuits.len(), old.fibres.len(), counts.fibres];
    assert_eq!(many, [19, 20, 2]);
}

#[test]
fn refusal_8_asks_8_bytes_a_circuit() {
    let file = encode(&listing().circuits);
    for (bytes, number) in [(31, Some(8)), (32, None), (0, Some(8)), (64, None)] {
        let answer = plan_with(
            Slip::None,
            Line {
                n: 5,
                w: 2,
                grid: 1,
            },
            &file,
            &mut vec![0; bytes],
            &mut [0; 32],
            &mut [0; 36],
        );
        assert_eq!(answer.err().map(|refused| refused.number), number);
    }
}

/// Links, wavelengths and grid of a line with no circuits, and its refusal, if any.
const LINES: [([usize; 3], Option<u32>); 18] = [
    ([1, 1, 1], None),
    ([1, 40, 1], None),
    ([1, 41, 1], Some(4)),
    ([1, 80, 1], Some(4)),
    ([1, 0, 1], Some(4)),
    ([1, 1, 2], None),
    ([1, 41, 2], None),
    ([512, 80, 2], None),
    ([1, 81, 2], Some(4)),
    ([1, 0, 2], Some(4)),
    ([1, 1, 0], Some(12)),
    ([1, 1, 3], Some(12)),
    ([1, 1, usize::MAX], Some(12)),
    ([1, 0, 3], Some(12)),
    ([1, 41, 0], Some(12)),
    ([1, 81, 3], Some(12)),
    ([0, 1, 3], Some(3)),
    ([513, 0, 0], Some(3)),
];

/// The refusal of a line with no circuits, if any.
fn refused(slip: Slip, [n, w, grid]: [usize; 3]) -> Option<u32> {
    let line = Line { n, w, grid };
    let answer = plan_with(slip, line, &[], &mut [], &mut [], &mut [0; 2048]);
    answer.err().map(|refused| refused.number)
}

#[test]
fn each_line_and_grid() {
    for (line, number) in LINES {
        assert_eq!(refused(Slip::None, line), number, "{line:?}");
    }
}

#[test]
fn each_mistake_with_r_5_shows_in_a_line() {
    for slip in GRID_SLIPS {
        let shows = LINES
            .iter()
            .any(|&(line, number)| refused(slip, line) != number);
        assert!(shows, "{slip:?} shows in no line");
    }
}

/// Circuits on 5 links, and number, place and end of their refusal, if any.
type Ends = (&'static [Circuit], Option<(u32, usize, u32)>);

const ENDS: [Ends; 17] = [
    (&[(1, 1, 5), (2, 5, 5)], None),
    (&[(1, 0, 1)], Some((6, 1, 1))),
    (&[(1, 0, 0)], Some((6, 1, 1))),
    (&[(1, 0, 9)], Some((6, 1, 1))),
    (&[(1, 3, 2)], Some((6, 1, 2))),
    (&[(1, 1, 0)], Some((6, 1, 2))),
    (&[(1, 6, 5)], Some((6, 1, 2))),
    (&[(1, 9, 8)], Some((6, 1, 2))),
    (&[(1, 5, 6)], Some((6, 1, 3))),
    (&[(1, 6, 6)], Some((6, 1, 3))),
    (&[(1, 1, 1), (2, 5, 6), (3, 0, 1)], Some((6, 2, 3))),
    (&[(1, 1, 1), (2, 5, 6), (3, 3, 2)], Some((6, 2, 3))),
    (&[(1, 3, 2), (2, 0, 1), (3, 5, 6)], Some((6, 1, 2))),
    (&[(0, 1, 1)], Some((5, 1, 0))),
    (&[(1, 5, 6), (0, 0, 1)], Some((5, 2, 0))),
    (&[(4, 1, 1), (4, 5, 6)], Some((6, 2, 3))),
    (&[(4, 1, 1), (4, 1, 1)], Some((7, 2, 0))),
];

/// Number, place and end of the refusal of circuits on 5 links, if any.
fn refused_ends(slip: Slip, circuits: &[Circuit]) -> Option<(u32, usize, u32)> {
    let refused = written(slip, 5, 2, circuits).err();
    refused.map(|refused| (refused.number, refused.place, refused.end))
}

#[test]
fn each_wrong_end() {
    for (circuits, refused) in ENDS {
        assert_eq!(refused_ends(Slip::None, circuits), refused, "{circuits:?}");
    }
}

#[test]
fn each_mistake_with_r_6_shows_in_a_file() {
    for slip in END_SLIPS {
        let shows = |&(circuits, refused): &Ends| refused_ends(slip, circuits) != refused;
        assert!(ENDS.iter().any(shows), "{slip:?} shows in no file");
    }
}

#[test]
fn other_refusals_have_no_end() {
    let file = encode(&[(1, 1, 1)]);
    let refused = |line, file: &[u8], [f, a, k]: [usize; 3]| {
        let mut areas = [vec![0; f], vec![0; a], vec![0; k]];
        let [f, a, k] = &mut areas;
        let refused = plan_with(Slip::None, line, file, f, a, k).unwrap_err();
        (refused.number, refused.place, refused.end)
    };
    let line = |n, w, grid| Line { n, w, grid };
    for (number, line, file, lengths) in [
        (1, line(1, 1, 1), &file[..7], [8; 3]),
        (2, line(1, 1, 1), &file.repeat(2049), [8; 3]),
        (3, line(0, 1, 1), &file, [8; 3]),
        (12, line(1, 1, 3), &file, [8; 3]),
        (4, line(1, 41, 1), &file, [8; 3]),
        (8, line(1, 1, 1), &file, [7, 8, 8]),
        (9, line(1, 1, 1), &file, [8, 7, 8]),
        (10, line(1, 1, 1), &file, [8, 8, 7]),
    ] {
        assert_eq!(refused(line, file, lengths), (number, 0, 0));
    }
}

#[test]
fn frequencies() {
    for (v, ghz) in [(1, 192_100), (11, 193_100), (40, 196_000)] {
        assert_eq!(frequency(1, v), ghz);
    }
    for (v, ghz) in [(1, 192_100), (2, 192_150), (21, 193_100), (80, 196_050)] {
        assert_eq!(frequency(2, v), ghz);
    }
}
