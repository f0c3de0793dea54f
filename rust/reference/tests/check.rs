//! R-7 on a plan of the listing of 01, with faults, and that mistakes show in them.
use inputs::{encode, Circuit};
use reference::{check_with, Finding, Line, Slip, CHECK_SLIPS};

/// What is found, or number, place and end of a refusal.
type Answer = Result<Finding, (u32, usize, u32)>;

/// The three lists of a plan, and the bytes by which the last two are too short.
#[derive(Clone)]
struct Plan {
    line: Line,
    circuits: Vec<Circuit>,
    /// Number, first link, last link and layer.
    fibres: Vec<[u16; 4]>,
    /// Circuit number, fibre and wavelength.
    assignments: Vec<(u32, u16, u16)>,
    missing: [usize; 2],
}

/// A valid plan: that of R-1, and a third fibre that carries nothing.
fn sound() -> Plan {
    Plan {
        line: Line {
            n: 5,
            w: 2,
            grid: 1,
        },
        circuits: vec![(10, 1, 3), (20, 2, 5), (30, 1, 2), (40, 4, 5)],
        fibres: vec![[1, 1, 5, 2], [2, 2, 5, 2], [3, 1, 1, 0]],
        assignments: vec![(10, 1, 2), (20, 2, 1), (30, 1, 1), (40, 1, 2)],
        missing: [0; 2],
    }
}

/// What is said of the valid plan.
const YES: Answer = yes(10, 6);

const fn yes(length: usize, floor: usize) -> Answer {
    Ok(Finding::Yes { length, floor })
}

const fn no(rule: u32, place: usize) -> Answer {
    Ok(Finding::No { rule, place })
}

impl Plan {
    /// What is said of it, with a mistake or none.
    fn found(&self, slip: Slip) -> Answer {
        let fibres = self.fibres.iter().flatten();
        let mut fibres: Vec<u8> = fibres.flat_map(|field| field.to_le_bytes()).collect();
        // Circuit records have the form of assignment records.
        let mut assignments = encode(&self.assignments);
        for (list, missing) in [&mut fibres, &mut assignments]
            .into_iter()
            .zip(self.missing)
        {
            list.truncate(list.len() - missing);
        }
        let circuits = encode(&self.circuits);
        check_with(slip, self.line, &circuits, &fibres, &assignments)
            .map_err(|refused| (refused.number, refused.place, refused.end))
    }

    /// Adds fibres that carry nothing, up to so many.
    fn fill_fibres(&mut self, many: u16) {
        let from = self.fibres.len() as u16 + 1;
        self.fibres.extend((from..=many).map(|i| [i, 1, 1, 1]));
    }
}

/// What is changed, and what is then said.
type Case = (fn(&mut Plan), Answer);

const FIBRES: [Case; 12] = [
    (|_| (), YES),
    (|p| p.fibres.iter_mut().for_each(|f| f[3] = 0), YES),
    (|p| p.fibres[1][0] = 3, no(1, 2)),
    (|p| p.fibres.swap(0, 2), no(1, 1)),
    (|p| p.fibres[1][1] = 0, no(2, 2)),
    (|p| p.fibres[1] = [2, 4, 3, 2], no(2, 2)),
    (|p| p.fibres[1][2] = 6, no(2, 2)),
    (|p| p.fibres[1] = [9, 4, 3, 2], no(1, 2)),
    (
        |p| {
            p.fibres[0][2] = 6;
            p.fibres[1][0] = 1;
        },
        no(2, 1),
    ),
    (
        |p| {
            p.fibres[2] = [3, 0, 1, 0];
            p.assignments.clear();
        },
        no(2, 3),
    ),
    (|p| p.fill_fibres(4096), yes(10 + 4093, 6)),
    (
        |p| {
            p.fill_fibres(4096);
            p.assignments[3].1 = 4096;
        },
        no(6, 4),
    ),
];

const ASSIGNMENTS: [Case; 18] = [
    (|p| p.assignments.truncate(3), no(3, 0)),
    (|p| p.assignments.push((50, 1, 1)), no(3, 0)),
    (|p| p.circuits.truncate(3), no(3, 0)),
    (
        |p| {
            p.assignments.truncate(3);
            p.assignments[0].0 = 11;
        },
        no(3, 0),
    ),
    (|p| p.assignments[1].0 = 21, no(4, 2)),
    (|p| p.assignments.swap(2, 3), no(4, 3)),
    (|p| p.assignments[1].1 = 0, no(5, 2)),
    (|p| p.assignments[1].1 = 4, no(5, 2)),
    (|p| p.assignments[1].1 = 3, no(6, 2)),
    (|p| p.fibres[1][1] = 3, no(6, 2)),
    (|p| p.fibres[1][2] = 4, no(6, 2)),
    (|p| p.assignments[1].2 = 0, no(7, 2)),
    (|p| p.assignments[1].2 = 3, no(7, 2)),
    (|p| p.line.w = 1, no(7, 1)),
    // Circuit 20 meets 10 on links 2 and 3, and 30 on link 2.
    (|p| p.assignments[1] = (20, 1, 2), no(8, 2)),
    (|p| p.assignments[1] = (20, 1, 1), no(8, 3)),
    (|p| p.assignments[3] = (40, 1, 1), YES),
    (|p| p.assignments[3] = (40, 2, 1), no(8, 4)),
];

const REFUSED: [Case; 14] = [
    (|p| p.line.n = 0, Err((3, 0, 0))),
    (|p| p.line.grid = 3, Err((12, 0, 0))),
    (|p| p.line.w = 41, Err((4, 0, 0))),
    (|p| p.circuits[1].0 = 0, Err((5, 2, 0))),
    (|p| p.circuits[1].2 = 6, Err((6, 2, 3))),
    (|p| p.circuits[1].0 = 10, Err((7, 2, 0))),
    (|p| p.fill_fibres(4097), Err((16, 1, 0))),
    (|p| p.missing = [1, 0], Err((16, 1, 0))),
    (|p| p.missing = [0, 1], Err((16, 2, 0))),
    (|p| p.missing = [1, 1], Err((16, 1, 0))),
    (|p| p.assignments.resize(2049, (50, 1, 1)), Err((16, 2, 0))),
    (|p| p.assignments.resize(2048, (50, 1, 1)), no(3, 0)),
    (
        |p| {
            p.missing = [1, 1];
            p.circuits[3].0 = 30;
        },
        Err((7, 4, 0)),
    ),
    (
        |p| {
            p.missing = [0, 1];
            p.fibres[0][0] = 2;
        },
        Err((16, 2, 0)),
    ),
];

/// All cases.
fn cases() -> impl Iterator<Item = (Plan, Answer)> {
    let all = FIBRES.into_iter().chain(ASSIGNMENTS).chain(REFUSED);
    all.map(|(change, answer)| {
        let mut plan = sound();
        change(&mut plan);
        (plan, answer)
    })
}

#[test]
fn each_case() {
    for (at, (plan, answer)) in cases().enumerate() {
        assert_eq!(plan.found(Slip::None), answer, "case {at}");
    }
}

#[test]
fn each_mistake_with_r_7_shows_in_a_case() {
    for slip in CHECK_SLIPS {
        let shows = cases()
            .chain(pairs())
            .any(|(plan, answer)| plan.found(slip) != answer);
        assert!(shows, "{slip:?} shows in no case");
    }
}

/// Lets the assignment at an index break a rule from 4 to 8.
fn break_rule(plan: &mut Plan, at: usize, rule: u32) {
    let (circuit, fibre, wavelength) = &mut plan.assignments[at];
    match rule {
        4 => *circuit += 1,
        5 => *fibre = 4,
        6 => *fibre = 3,
        7 => *wavelength = 3,
        _ => (*fibre, *wavelength) = (1, 2),
    }
}

/// Two rules broken, the higher by the second assignment and the lower by it or by the third.
fn pairs() -> impl Iterator<Item = (Plan, Answer)> {
    let rules = (4..=8).flat_map(|low| (low + 1..=8).map(move |high| (low, high)));
    rules.flat_map(|(low, high)| {
        [(1, no(low, 2)), (2, no(high, 2))].map(|(at, answer)| {
            let mut plan = sound();
            break_rule(&mut plan, 1, high);
            break_rule(&mut plan, at, low);
            (plan, answer)
        })
    })
}

#[test]
fn the_first_faulty_assignment_and_its_lowest_rule() {
    for (plan, answer) in pairs() {
        assert_eq!(plan.found(Slip::None), answer, "{:?}", plan.assignments);
    }
}

#[test]
fn the_clash_of_01() {
    let plan = Plan {
        line: Line {
            n: 9,
            w: 1,
            grid: 2,
        },
        circuits: vec![(1, 1, 2), (2, 2, 4), (3, 5, 6), (4, 4, 9)],
        fibres: vec![[1, 1, 9, 1], [2, 1, 9, 1]],
        assignments: vec![(1, 1, 1), (2, 2, 1), (3, 1, 1), (4, 2, 1)],
        missing: [0; 2],
    };
    assert_eq!(plan.found(Slip::None), no(8, 4));
}

#[test]
fn nothing_to_check() {
    let plan = Plan {
        circuits: vec![],
        fibres: vec![],
        assignments: vec![],
        ..sound()
    };
    assert_eq!(plan.found(Slip::None), yes(0, 0));
}
